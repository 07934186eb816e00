//! Finds libseivalto.a: in the folder that SEIVALTO_LIB_DIR names, else in target/staticlib of this repository.
use std::env;
use std::path::PathBuf;

fn main() {
    println!("cargo:rerun-if-env-changed=SEIVALTO_LIB_DIR");
    let folder = match env::var_os("SEIVALTO_LIB_DIR") {
        Some(folder) => PathBuf::from(folder),
        None => PathBuf::from(env::var_os("CARGO_MANIFEST_DIR").expect("cargo sets it"))
            .join("../target/staticlib"),
    };
    let library = folder.join("libseivalto.a");
    println!("cargo:rerun-if-changed={}", library.display());
    if !library.is_file() {
        eprintln!("{} is not there.", library.display());
        eprintln!("Run `tools/staticlib` at the top of the repository, or set SEIVALTO_LIB_DIR to a folder that holds libseivalto.a.");
        std::process::exit(1);
    }
    println!("cargo:rustc-link-search=native={}", folder.display());
    println!("cargo:rustc-link-lib=static=seivalto");
}
