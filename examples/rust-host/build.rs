//! Links crates/host/out/libhost.a, which `rt lib` in `crates/host` writes.

fn main() {
    let top = std::env::var("CARGO_MANIFEST_DIR").unwrap();
    println!("cargo:rustc-link-search=native={top}/../../crates/host/out");
    println!("cargo:rustc-link-lib=static=host");
    println!("cargo:rerun-if-changed=../../crates/host/out/libhost.a");
}
