//! Links the archive that `make lib` writes, or the one in the folder that `TILEFRINGE_LIB` names.
use std::path::PathBuf;

fn main() {
    println!("cargo:rerun-if-env-changed=TILEFRINGE_LIB");
    let processor = std::env::var("CARGO_CFG_TARGET_ARCH").unwrap();
    assert!(processor == "x86_64", "the archive is of x86-64 code, and this build is for {processor}");
    let folder = match std::env::var_os("TILEFRINGE_LIB").filter(|folder| !folder.is_empty()) {
        Some(folder) => PathBuf::from(folder),
        None => PathBuf::from(std::env::var_os("CARGO_MANIFEST_DIR").unwrap()).join("../target/staticlib"),
    };
    let folder = std::path::absolute(folder).unwrap();
    let archive = folder.join("libtilefringe.a");
    assert!(archive.exists(), "{} is not there: run `make lib` first", archive.display());
    println!("cargo:rerun-if-changed={}", archive.display());
    println!("cargo:rustc-link-search=native={}", folder.display());
    println!("cargo:rustc-link-lib=static=tilefringe");
}
