//! For a cargo project: links the library of the repository that the environment's RUNTIME names.

fn main() {
    println!("cargo::rerun-if-env-changed=RUNTIME");
    let repository = std::env::var("RUNTIME").expect("RUNTIME names the repository");
    let folder = format!("{repository}/target/staticlib");
    // A new archive is linked anew.
    println!("cargo::rerun-if-changed={folder}/libexports.a");
    println!("cargo::rustc-link-search=native={folder}");
    println!("cargo::rustc-link-lib=static=exports");
}
