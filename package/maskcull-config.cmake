# maskcull::maskcull is the static library, maskcull::shared the shared one. maskcull::frame is the static library with
# the calls of maskcull_frame.h, which maskcull::shared has too: a project in C that takes it enables the language CXX,
# since it needs the C++ library.
get_filename_component(maskcull_prefix "${CMAKE_CURRENT_LIST_DIR}/../../.." ABSOLUTE)

if(NOT TARGET maskcull::maskcull)
    add_library(maskcull::maskcull STATIC IMPORTED GLOBAL)
    set_target_properties(maskcull::maskcull PROPERTIES
        IMPORTED_LOCATION "${maskcull_prefix}/lib/libmaskcull_c.a"
        INTERFACE_INCLUDE_DIRECTORIES "${maskcull_prefix}/include")
endif()

if(NOT TARGET maskcull::frame)
    add_library(maskcull::frame STATIC IMPORTED GLOBAL)
    set_target_properties(maskcull::frame PROPERTIES
        IMPORTED_LOCATION "${maskcull_prefix}/lib/libmaskcull_frame.a"
        IMPORTED_LINK_INTERFACE_LANGUAGES CXX
        INTERFACE_LINK_LIBRARIES maskcull::maskcull)
endif()

if(NOT TARGET maskcull::shared)
    add_library(maskcull::shared SHARED IMPORTED GLOBAL)
    set_target_properties(maskcull::shared PROPERTIES
        INTERFACE_INCLUDE_DIRECTORIES "${maskcull_prefix}/include")
    if(WIN32)
        set_target_properties(maskcull::shared PROPERTIES
            IMPORTED_LOCATION "${maskcull_prefix}/bin/maskcull.dll"
            IMPORTED_IMPLIB "${maskcull_prefix}/lib/libmaskcull.dll.a")
    else()
        set_target_properties(maskcull::shared PROPERTIES
            IMPORTED_LOCATION "${maskcull_prefix}/lib/libmaskcull.so.@VERSION@"
            IMPORTED_SONAME "libmaskcull.so.@FIRST@")
    endif()
endif()
