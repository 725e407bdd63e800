//! Links the two archives that bench/run makes before, and cfitsio.

fn main() {
    let folder = std::env::var("CARGO_MANIFEST_DIR").expect("cargo sets it");
    println!("cargo:rerun-if-changed=libbench.a");
    println!("cargo:rerun-if-changed=libexports.a");
    println!("cargo:rustc-link-search=native={folder}");
    println!("cargo:rustc-link-lib=static=bench");
    println!("cargo:rustc-link-lib=static=exports");
    println!("cargo:rustc-link-lib=dylib=cfitsio");
}
