//! Links `libhubqr.a`, which `make build/libhubqr.a` writes. `HUBQR_LIB_DIR` names another folder
//! that holds it. Without the feature `archive` nothing is linked.
use std::env;
use std::path::PathBuf;

fn main() {
    println!("cargo::rerun-if-env-changed=HUBQR_LIB_DIR");
    if env::var_os("CARGO_FEATURE_ARCHIVE").is_none() {
        return;
    }
    match folder() {
        Ok(folder) => link(folder),
        Err(message) => println!("cargo::error={message}"),
    }
}

/// The folder that holds the archive: the one that is named, or that of this repository. An empty
/// name is none. Cargo runs this program in the folder of the crate, and does not say from where it
/// was called itself, so a path from there cannot be followed.
fn folder() -> Result<PathBuf, String> {
    let named = env::var_os("HUBQR_LIB_DIR").filter(|name| !name.is_empty());
    let Some(named) = named.map(PathBuf::from) else {
        let here = env::var_os("CARGO_MANIFEST_DIR").expect("cargo sets CARGO_MANIFEST_DIR");
        return Ok(PathBuf::from(here).join("../../build"));
    };
    if named.is_absolute() {
        return Ok(named);
    }
    Err(format!(
        "HUBQR_LIB_DIR is `{}`, which is no absolute path: name the folder of libhubqr.a from the \
         root, as in HUBQR_LIB_DIR=\"$PWD/{}\"",
        named.display(),
        named.display()
    ))
}

/// A missing archive is only a warning, since `cargo check` does without; the linker says the rest.
fn link(folder: PathBuf) {
    let archive = folder.join("libhubqr.a");
    println!("cargo::rerun-if-changed={}", archive.display());
    if !archive.is_file() {
        println!(
            "cargo::warning={} is not there: run `make build/libhubqr.a` in the repository, or name \
             its folder in HUBQR_LIB_DIR",
            archive.display()
        );
    }
    println!("cargo::rustc-link-search=native={}", folder.display());
    println!("cargo::rustc-link-lib=static=hubqr");
}
