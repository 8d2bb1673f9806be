//! With the feature `proved`, links `liboptcheck_c.a` from the folder that OPTCHECK_LIB_DIR names.

use std::env;

fn main() {
    println!("cargo:rerun-if-env-changed=OPTCHECK_LIB_DIR");
    if env::var_os("CARGO_FEATURE_PROVED").is_none() {
        return;
    }
    let folder = env::var("OPTCHECK_LIB_DIR")
        .expect("feature `proved`: set OPTCHECK_LIB_DIR to the folder of liboptcheck_c.a");
    println!("cargo:rerun-if-changed={folder}/liboptcheck_c.a");
    println!("cargo:rustc-link-search=native={folder}");
    println!("cargo:rustc-link-lib=static=optcheck_c");
}
