//! Finds libfinder.a, which `scripts/library finder` writes, and says how to make it where it is
//! missing.

use std::{
    env,
    path::{Path, PathBuf},
    process,
};

/// Names the folder that holds the library, where that is not the repository's own.
const FOLDER: &str = "FINDER_LIBRARY";
const LIBRARY: &str = "libfinder.a";

fn main() {
    println!("cargo:rerun-if-env-changed={FOLDER}");
    let Some(folder) = folder() else {
        fail(&format!(
            "{LIBRARY} is for x86-64 Linux: build for that, or set {FOLDER} to the absolute path of \
             a folder that holds one for this processor"
        ));
    };
    let library = folder.join(LIBRARY);
    println!("cargo:rerun-if-changed={}", library.display());
    if !library.is_file() {
        fail(&format!(
            "there is no {}: run `scripts/library finder` at the root of the repository, or set \
             {FOLDER} to the absolute path of the folder that holds {LIBRARY}",
            library.display()
        ));
    }
    println!("cargo:rustc-link-search=native={}", folder.display());
    println!("cargo:rustc-link-lib=static=finder");
}

/// None where the repository's own library is not for this processor.
fn folder() -> Option<PathBuf> {
    match env::var_os(FOLDER) {
        Some(folder) if !folder.is_empty() => Some(PathBuf::from(folder)),
        _ if env::var("CARGO_CFG_TARGET_ARCH").as_deref() != Ok("x86_64") => None,
        _ => {
            let root = Path::new(env!("CARGO_MANIFEST_DIR")).ancestors().nth(2);
            root.map(|root| root.join("target/staticlib"))
        }
    }
}

fn fail(message: &str) -> ! {
    eprintln!("{message}");
    process::exit(1);
}
