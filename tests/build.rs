//! Without the feature `in-process` nothing is needed. With it the static library `libexports.a` is linked; the variable
//! RTMS_LIBRARY_DIR names its folder.

use std::env;

fn main() {
    println!("cargo:rerun-if-changed=build.rs");
    println!("cargo:rerun-if-env-changed=RTMS_LIBRARY_DIR");
    if env::var_os("CARGO_FEATURE_IN_PROCESS").is_none() {
        return;
    }
    match env::var("RTMS_LIBRARY_DIR") {
        Ok(folder) => {
            println!("cargo:rerun-if-changed={folder}/libexports.a");
            println!("cargo:rustc-link-search=native={folder}");
            println!("cargo:rustc-link-lib=static=exports");
        }
        Err(_) => println!("cargo:warning=RTMS_LIBRARY_DIR does not name the folder of libexports.a"),
    }
}
