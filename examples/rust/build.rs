//! Finds the library's archive: the one that GRIEZMULD_ARCHIVE names by its full path, else target/staticlib/libtablet.a
//! of the repository that this package stands in. Without one it stops.

use std::env;
use std::fs;
use std::path::PathBuf;
use std::process::exit;

fn main() {
    println!("cargo:rerun-if-changed=build.rs");
    println!("cargo:rerun-if-env-changed=GRIEZMULD_ARCHIVE");
    if env::var_os("CARGO_FEATURE_WITHOUT_CALLS").is_some() {
        return;
    }
    let processor = env::var("CARGO_CFG_TARGET_ARCH").expect("cargo names the processor");
    if processor != "x86_64" {
        eprintln!("The library's archive is code for x86-64 Linux; this is built for {processor}.");
        exit(1);
    }
    let named = env::var_os("GRIEZMULD_ARCHIVE").map(PathBuf::from);
    let archive = named.unwrap_or_else(|| {
        let here =
            PathBuf::from(env::var_os("CARGO_MANIFEST_DIR").expect("cargo names the folder"));
        here.join("../../target/staticlib/libtablet.a")
    });
    println!("cargo:rerun-if-changed={}", archive.display());
    let out = PathBuf::from(env::var_os("OUT_DIR").expect("cargo names the folder"));
    match fs::copy(&archive, out.join("libtablet.a")) {
        Ok(bytes) => {
            let name = archive.file_name().unwrap_or_default().to_string_lossy();
            println!("cargo:rustc-env=GRIEZMULD_LINKED={name}, {bytes} bytes");
        }
        Err(error) => {
            eprintln!(
                "The library's archive {} can't be read: {error}.",
                archive.display()
            );
            eprintln!("Make it with `make library`, or name one in GRIEZMULD_ARCHIVE.");
            exit(1);
        }
    }
    println!("cargo:rustc-link-search=native={}", out.display());
    println!("cargo:rustc-link-lib=static=tablet");
}
