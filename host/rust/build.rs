//! Links the archives that `tools/library` makes: from the folder DAXFOLIN_LIB, or from the repository's target. For x86-64 they are
//! `rt lib`'s own; for another processor there is one, which `tools/native` compiles from the same proved modules.

use std::path::PathBuf;

fn main() {
    println!("cargo:rerun-if-env-changed=DAXFOLIN_LIB");
    let (place, names): (&str, &[&str]) = match std::env::var("CARGO_CFG_TARGET_ARCH").as_deref() {
        Ok("x86_64") => ("staticlib", &["host", "files"]),
        _ => ("native", &["daxfolin"]),
    };
    let folder = match std::env::var_os("DAXFOLIN_LIB") {
        Some(folder) => PathBuf::from(folder),
        None => PathBuf::from(std::env::var_os("CARGO_MANIFEST_DIR").unwrap())
            .join("../../target")
            .join(place),
    };
    println!("cargo:rustc-link-search=native={}", folder.display());
    for name in names {
        let archive = folder.join(format!("lib{name}.a"));
        assert!(
            archive.is_file(),
            "no {}: run `tools/library`, or set DAXFOLIN_LIB to its folder",
            archive.display()
        );
        println!("cargo:rerun-if-changed={}", archive.display());
        println!("cargo:rustc-link-lib=static={name}");
    }
}
