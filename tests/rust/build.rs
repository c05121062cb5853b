//! Links the library that the product ships, target/libgateway.a of the repository.
use std::path::Path;

fn main() {
    let package = std::env::var("CARGO_MANIFEST_DIR").expect("cargo sets the package's folder");
    let target = Path::new(&package).join("../../target");
    println!("cargo:rustc-link-search=native={}", target.display());
    println!("cargo:rustc-link-lib=static=gateway");
    println!(
        "cargo:rerun-if-changed={}",
        target.join("libgateway.a").display()
    );
    println!("cargo:rerun-if-changed=build.rs");
}
