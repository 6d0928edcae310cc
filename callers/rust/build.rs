//! Links target/libtablegoose.a, which `scripts/archive` makes.

fn main() {
    let here = std::env::var("CARGO_MANIFEST_DIR").expect("cargo sets it");
    let folder = format!("{here}/../../target");
    println!("cargo:rustc-link-search=native={folder}");
    println!("cargo:rustc-link-lib=static=tablegoose");
    println!("cargo:rerun-if-changed={folder}/libtablegoose.a");
}
