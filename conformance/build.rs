//! With the feature `library`: link the static library that `tools/library.sh` writes, or the archive that RUNTIME_ARCHIVE names.

use std::path::{Path, PathBuf};

fn link(archive: &Path) {
    println!("cargo::rerun-if-changed={}", archive.display());
    let Ok(archive) = archive.canonicalize() else {
        println!("cargo::error={} isn't there. `tools/library.sh`, in the repository, writes it.", archive.display());
        return;
    };
    let folder = archive.parent().expect("a file stands in a folder").display().to_string();
    let file = archive.file_name().expect("a file has a name").to_string_lossy().to_string();
    let Some(name) = file.strip_prefix("lib").and_then(|rest| rest.strip_suffix(".a")) else {
        println!("cargo::error={file} isn't named lib*.a");
        return;
    };
    println!("cargo::rustc-link-search=native={folder}");
    println!("cargo::rustc-link-lib=static:-bundle={name}");
}

fn main() {
    println!("cargo::rerun-if-changed=build.rs");
    println!("cargo::rerun-if-env-changed=RUNTIME_ARCHIVE");
    if std::env::var_os("CARGO_FEATURE_LIBRARY").is_none() {
        return;
    }
    let here = PathBuf::from(std::env::var_os("CARGO_MANIFEST_DIR").expect("set by cargo"));
    let named = std::env::var_os("RUNTIME_ARCHIVE");
    link(&here.join(named.unwrap_or("../target/staticlib/libexports.a".into())));
}
