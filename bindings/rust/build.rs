//! Tells the linker where librunlength.a is: in the folder that RUNLENGTH_LIB_DIR names, or where bindings/archive
//! writes it.

use std::env;
use std::path::PathBuf;

fn main() {
    let package = env::var_os("CARGO_MANIFEST_DIR").expect("cargo sets the package's folder");
    let folder = match env::var_os("RUNLENGTH_LIB_DIR") {
        Some(folder) => PathBuf::from(folder),
        None => PathBuf::from(package).join("../../target/staticlib"),
    };
    let archive = folder.join("librunlength.a");
    println!("cargo::rerun-if-env-changed=RUNLENGTH_LIB_DIR");
    println!("cargo::rerun-if-changed={}", archive.display());
    if archive.is_file() {
        println!("cargo::rustc-link-search=native={}", folder.display());
        println!("cargo::rustc-link-lib=static=runlength");
    } else {
        println!(
            "cargo::error={} is missing: run bindings/archive of the repository, or set RUNLENGTH_LIB_DIR",
            archive.display()
        );
    }
}
