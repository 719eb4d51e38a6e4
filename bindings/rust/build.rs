//! MASKCULL_LIB_DIR names the folder of libmaskcull.so; or, where MASKCULL_STATIC is set, of libmaskcull_frame.a and
//! libmaskcull_c.a. Without it the linker looks where it always does.
use std::env;

fn main() {
    for name in ["MASKCULL_LIB_DIR", "MASKCULL_STATIC"] {
        println!("cargo:rerun-if-env-changed={name}");
    }
    if let Ok(folder) = env::var("MASKCULL_LIB_DIR") {
        println!("cargo:rustc-link-search=native={folder}");
    }
    if env::var_os("MASKCULL_STATIC").is_none() {
        println!("cargo:rustc-link-lib=maskcull");
        return;
    }
    for name in ["static=maskcull_frame", "static=maskcull_c", "stdc++"] {
        println!("cargo:rustc-link-lib={name}");
    }
}
