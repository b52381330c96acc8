//! Tells cargo where the library's archive is: the script `build` at the top writes it.

fn main() {
    let here = std::env::var("CARGO_MANIFEST_DIR").expect("cargo says where the crate is");
    let dist = format!("{here}/../../dist");
    println!("cargo:rustc-link-search=native={dist}");
    println!("cargo:rerun-if-changed={dist}/libtlcs900h.a");
}
