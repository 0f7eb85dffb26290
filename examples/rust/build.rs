// Links the library that tools/library makes. HULLSIFT_LIBRARY is the folder that has it, where it is not this repository's.
fn main() {
    let here = std::env::var("CARGO_MANIFEST_DIR").unwrap();
    let folder = std::env::var("HULLSIFT_LIBRARY").unwrap_or(format!("{here}/../../target/library/linux"));
    println!("cargo:rustc-link-search=native={folder}");
    println!("cargo:rustc-link-lib=static=hullsift");
    println!("cargo:rerun-if-env-changed=HULLSIFT_LIBRARY");
}
