//! Links librlnc.a from the folder that RLNC_LIB_DIR names, or from where `library/build` writes it in this repository.
use std::path::PathBuf;

fn main() {
    println!("cargo:rerun-if-env-changed=RLNC_LIB_DIR");
    let folder = match std::env::var_os("RLNC_LIB_DIR") {
        Some(folder) => PathBuf::from(folder),
        None if std::env::var("CARGO_CFG_TARGET_ARCH").as_deref() != Ok("x86_64") => panic!("`library/build` makes an archive for x86-64 alone"),
        None => PathBuf::from(std::env::var_os("CARGO_MANIFEST_DIR").expect("cargo sets it")).join("../target/staticlib"),
    };
    let library = folder.join("librlnc.a");
    println!("cargo:rerun-if-changed={}", library.display());
    assert!(library.exists(), "{} is missing: run `library/build`, or name its folder in RLNC_LIB_DIR", library.display());
    println!("cargo:rustc-link-search=native={}", folder.display());
    println!("cargo:rustc-link-lib=static=rlnc");
}
