# While the first number is 0, versions with the same second one agree. On another system or processor find_package
# passes this folder by, and tells for which one its library is. Where none is named it is taken as the right one.
set(PACKAGE_VERSION "@VERSION@")

if(PACKAGE_FIND_VERSION_MAJOR EQUAL "@FIRST@" AND PACKAGE_FIND_VERSION_MINOR EQUAL "@SECOND@"
        AND PACKAGE_FIND_VERSION VERSION_LESS_EQUAL PACKAGE_VERSION)
    set(PACKAGE_VERSION_COMPATIBLE TRUE)
endif()
if(PACKAGE_FIND_VERSION VERSION_EQUAL PACKAGE_VERSION)
    set(PACKAGE_VERSION_EXACT TRUE)
endif()
if(NOT CMAKE_SYSTEM_NAME STREQUAL "@SYSTEM@"
        OR (CMAKE_SYSTEM_PROCESSOR AND NOT CMAKE_SYSTEM_PROCESSOR MATCHES "^(@PROCESSORS@)$")
        OR (CMAKE_SIZEOF_VOID_P AND NOT CMAKE_SIZEOF_VOID_P EQUAL 8))
    set(PACKAGE_VERSION "@VERSION@ for @SYSTEM@ on @PROCESSOR@")
    set(PACKAGE_VERSION_UNSUITABLE TRUE)
endif()
