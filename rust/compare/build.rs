//! Links the proved library, which `bash panstrait library` at the root of the repository makes.

use std::env;
use std::path::Path;

fn main() {
    let package = env::var("CARGO_MANIFEST_DIR").expect("cargo names the package's folder");
    let folder = Path::new(&package).join("../../target");
    println!("cargo:rustc-link-search=native={}", folder.display());
    println!("cargo:rustc-link-lib=static=panstrait");
    println!(
        "cargo:rerun-if-changed={}",
        folder.join("libpanstrait.a").display()
    );
}
