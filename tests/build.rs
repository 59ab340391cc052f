//! With the feature `product`, links `libservice.a` from the folder JUNCTION_LIB_DIR.

use std::env;

fn main() {
    println!("cargo:rerun-if-changed=build.rs");
    println!("cargo:rerun-if-env-changed=JUNCTION_LIB_DIR");
    if env::var_os("CARGO_FEATURE_PRODUCT").is_none() {
        return;
    }
    let folder = env::var("JUNCTION_LIB_DIR")
        .expect("the feature `product` needs JUNCTION_LIB_DIR, the folder of libservice.a");
    println!("cargo:rerun-if-changed={folder}/libservice.a");
    println!("cargo:rustc-link-search=native={folder}");
    println!("cargo:rustc-link-lib=static=service");
    // A library without std may bring its own panic handler beside that of std.
    println!("cargo:rustc-link-arg=-Wl,--allow-multiple-definition");
}
