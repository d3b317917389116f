//! Links the static library that `tools/library` wrote.
fn main() {
    let archive = std::path::Path::new(env!("CARGO_MANIFEST_DIR")).join("../../crates/frondicare/out");
    println!("cargo:rustc-link-search=native={}", archive.display());
    println!("cargo:rustc-link-lib=static:-bundle=frondicare");
    println!("cargo:rerun-if-changed={}", archive.join("libfrondicare.a").display());
}
