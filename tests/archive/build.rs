//! Links target/staticlib/libsnarevapor.a.

fn main() {
    let project = concat!(env!("CARGO_MANIFEST_DIR"), "/../..");
    println!("cargo:rustc-link-search=native={project}/target/staticlib");
    println!("cargo:rustc-link-lib=static=snarevapor");
    println!("cargo:rerun-if-changed={project}/target/staticlib/libsnarevapor.a");
    println!("cargo:rerun-if-changed=build.rs");
}
