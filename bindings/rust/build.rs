//! Links the library's archive.

use std::env;
use std::path::Path;

fn main() {
    let here = env::var("CARGO_MANIFEST_DIR").expect("cargo names the folder");
    let folder = Path::new(&here).join("../../target/staticlib");
    let archive = folder.join("libzimbralosa.a");
    println!("cargo:rerun-if-changed=build.rs");
    println!("cargo:rerun-if-changed={}", archive.display());
    // Said here, since the linker's own words would not name the remedy.
    if !archive.exists() {
        println!(
            "cargo:warning=target/staticlib/libzimbralosa.a is missing: tools/archive makes it"
        );
    }
    println!("cargo:rustc-link-search=native={}", folder.display());
    println!("cargo:rustc-link-lib=static=zimbralosa");
}
