//! Links whatever uses this package with the proved static library.

fn main() {
    let folder = format!("{}/../target/staticlib", std::env::var("CARGO_MANIFEST_DIR").unwrap());
    let library = format!("{folder}/libfissures_c.a");
    assert!(std::path::Path::new(&library).exists(), "no {library}: run `tools/build fissures_c` first");
    println!("cargo:rustc-link-search=native={folder}");
    println!("cargo:rustc-link-lib=static=fissures_c");
    println!("cargo:rerun-if-changed={library}");
}
