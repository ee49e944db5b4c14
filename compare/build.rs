//! Tells the linker where bindings/archive has put the library.

use std::env;
use std::path::Path;

fn main() {
    if env::var_os("CARGO_FEATURE_LIBRARY").is_none() {
        return;
    }
    let package = env::var("CARGO_MANIFEST_DIR").expect("cargo sets the package's folder");
    let archives = Path::new(&package).join("../target/staticlib");
    println!("cargo:rustc-link-search=native={}", archives.display());
    println!("cargo:rustc-link-lib=static=runlength");
    println!(
        "cargo:rerun-if-changed={}",
        archives.join("librunlength.a").display()
    );
}
