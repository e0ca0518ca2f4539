//! Links the archive that `bin/staticlib` builds.
fn main() {
    let folder = concat!(env!("CARGO_MANIFEST_DIR"), "/../../target/staticlib");
    println!("cargo:rustc-link-search=native={folder}");
    println!("cargo:rustc-link-lib=static=runin");
    println!("cargo:rerun-if-changed={folder}/librunin.a");
}
