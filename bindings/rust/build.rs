//! Links the library's archive, libuvalinda.a: from the folder that UVALINDA_ARCHIVE names, or else proved and built here by tools/native-lib.
use std::env;
use std::path::{Path, PathBuf};
use std::process::Command;

fn main() {
    let root = PathBuf::from(env::var("CARGO_MANIFEST_DIR").unwrap()).join("../..");
    println!("cargo:rerun-if-env-changed=UVALINDA_ARCHIVE");
    let folder = match env::var_os("UVALINDA_ARCHIVE") {
        Some(folder) => named(folder.into()),
        None => built(&root),
    };
    println!("cargo:rustc-link-search=native={}", folder.display());
    println!("cargo:rustc-link-lib=static=uvalinda");
}

fn named(folder: PathBuf) -> PathBuf {
    println!("cargo:rerun-if-changed={}", folder.join("libuvalinda.a").display());
    folder
}

fn built(root: &Path) -> PathBuf {
    assert_eq!(env::var("HOST"), env::var("TARGET"), "for another machine than this one, name a folder with its libuvalinda.a in UVALINDA_ARCHIVE");
    for source in ["crates", "crates.txt", "tools/native-lib", "tools/prove"] {
        println!("cargo:rerun-if-changed={}", root.join(source).display());
    }
    println!("cargo:warning=proving and building the Uvalinda library: three to five minutes the first time, seconds after that");
    let folder = PathBuf::from(env::var("OUT_DIR").unwrap());
    let run = Command::new("bash").arg(root.join("tools/native-lib")).arg("exports").arg(folder.join("libuvalinda.a")).status();
    assert!(run.is_ok_and(|status| status.success()), "tools/native-lib could not build the library");
    folder
}
