//! Links libfukhtsege.a from FUKHTSEGE_LIB, or from target/staticlib.
fn main() {
    let here = std::env::var("CARGO_MANIFEST_DIR").unwrap();
    let folder = std::env::var("FUKHTSEGE_LIB").unwrap_or(format!("{here}/../../target/staticlib"));
    println!("cargo:rerun-if-env-changed=FUKHTSEGE_LIB");
    println!("cargo:rerun-if-changed={folder}/libfukhtsege.a");
    println!("cargo:rustc-link-search=native={folder}");
    println!("cargo:rustc-link-lib=static=fukhtsege");
}
