// Links libhisowake.a of the folder HISOWAKE_LIB_DIR, or else of the repository's dist. Sets `core_error` where the compiler has
// core::error::Error.
use std::ffi::OsStr;
use std::path::{Path, PathBuf};
use std::process::{exit, Command};

/// The folder that has the archive; a relative one starts at this crate's. Ends with a line that says what is wrong if there is none.
fn folder() -> PathBuf {
    let named = std::env::var_os("HISOWAKE_LIB_DIR");
    let folder = Path::new(env!("CARGO_MANIFEST_DIR")).join(named.as_deref().unwrap_or_else(|| OsStr::new("../dist")));
    match folder.canonicalize() {
        Ok(whole) if whole.join("libhisowake.a").is_file() => whole,
        _ => {
            let whose = match named {
                None => "HISOWAKE_LIB_DIR is not set, and the folder in its place is",
                Some(name) if Path::new(&name).is_relative() => "HISOWAKE_LIB_DIR, relative to the crate's folder, is",
                Some(_) => "HISOWAKE_LIB_DIR is",
            };
            eprintln!("hisowake: {whose} {folder:?}, where no libhisowake.a is found");
            exit(1);
        }
    }
}

/// Whether the compiler is Rust 1.81 or later.
fn has_core_error() -> bool {
    let rustc = std::env::var_os("RUSTC").unwrap_or_else(|| "rustc".into());
    let version = Command::new(rustc).arg("--version").output().map(|answer| answer.stdout).unwrap_or_default();
    let minor = String::from_utf8_lossy(&version).split('.').nth(1).and_then(|minor| minor.parse::<u32>().ok());
    minor.map_or(false, |minor| minor >= 81)
}

fn main() {
    println!("cargo:rerun-if-env-changed=HISOWAKE_LIB_DIR");
    println!("cargo:rustc-check-cfg=cfg(core_error)");
    if has_core_error() {
        println!("cargo:rustc-cfg=core_error");
    }
    let folder = folder();
    println!("cargo:rerun-if-changed={}", folder.join("libhisowake.a").display());
    println!("cargo:rustc-link-search=native={}", folder.display());
}
