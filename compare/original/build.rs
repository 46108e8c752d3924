//! Lays the original's files out for the compiler, each as it is with our appendix after it, and
//! an empty libcudart beside them. Nothing of the original is kept in this repository.

use std::{
    env, fs,
    path::{Path, PathBuf},
    process,
};

/// The original's files, each with the appendix that follows it, if it has one.
const FILES: [(&str, Option<&str>); 5] = [
    ("error.rs", None),
    ("stream.rs", Some("stream.rs")),
    ("memory_manager/mod.rs", Some("mod.rs")),
    ("memory_manager/cuda.rs", None),
    ("memory_manager/vm_pool.rs", Some("vm_pool.rs")),
];

/// Warnings about the original are not ours to mend.
const TREE: &str = "#[allow(warnings)]\npub mod error;\n\
                    #[allow(warnings)]\npub mod memory_manager;\n\
                    #[allow(warnings)]\npub mod stream;\n";

const EMPTY_ARCHIVE: &[u8] = b"!<arch>\n";

fn main() {
    let here = PathBuf::from(env::var("CARGO_MANIFEST_DIR").unwrap());
    let out = PathBuf::from(env::var("OUT_DIR").unwrap());
    let source = source(&here);
    fs::create_dir_all(out.join("memory_manager")).expect("OUT_DIR can be written");
    for (file, appendix) in FILES {
        let mut text = read(&source.join(file));
        if let Some(appendix) = appendix {
            text.extend(read(&here.join("appendix").join(appendix)));
        }
        write(&out.join(file), &text);
    }
    write(&out.join("tree.rs"), TREE.as_bytes());
    write(&out.join("libcudart.a"), EMPTY_ARCHIVE);
    println!("cargo:rustc-link-search=native={}", out.display());
    println!("cargo:rustc-env=ORIGINAL_SOURCE={}", source.display());
    println!("cargo:rerun-if-env-changed=STARK_BACKEND");
    println!("cargo:rerun-if-changed=build.rs");
}

/// The directory of the original's crate root: in the checkout that STARK_BACKEND names, or in the
/// folder shared beside the project.
fn source(here: &Path) -> PathBuf {
    let checkout = match env::var_os("STARK_BACKEND") {
        Some(root) if !root.is_empty() => PathBuf::from(root),
        _ => here.join("../../../shared/docs/src"),
    };
    let source = checkout.join("crates/cuda-common/src");
    match source.canonicalize() {
        Ok(source) => source,
        Err(_) => fail(&format!(
            "no Rust source in {}: set STARK_BACKEND to the root of a stark-backend checkout",
            source.display()
        )),
    }
}

fn read(path: &Path) -> Vec<u8> {
    println!("cargo:rerun-if-changed={}", path.display());
    fs::read(path).unwrap_or_else(|error| fail(&format!("{}: {error}", path.display())))
}

fn write(path: &Path, text: &[u8]) {
    fs::write(path, text).unwrap_or_else(|error| fail(&format!("{}: {error}", path.display())));
}

fn fail(message: &str) -> ! {
    eprintln!("{message}");
    process::exit(1);
}
