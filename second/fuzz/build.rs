//! Tells where `libzubrelets_c.a` is: in the folder that `ZUBRELETS_C` names.

use std::env;

fn main() {
    println!("cargo:rerun-if-env-changed=ZUBRELETS_C");
    if env::var_os("CARGO_FEATURE_LIBRARY").is_none() {
        return;
    }
    let folder = env::var("ZUBRELETS_C").expect("ZUBRELETS_C names the folder of libzubrelets_c.a");
    println!("cargo:rerun-if-changed={folder}/libzubrelets_c.a");
    println!("cargo:rustc-link-search=native={folder}");
    println!("cargo:rustc-link-lib=static=zubrelets_c");
}
