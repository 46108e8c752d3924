//! What is compiled is the original, byte for byte, at the commit that the project speaks of.

#[path = "common/sha256.rs"]
mod sha256;

use std::{fs, path::Path};

use original::{COMPILED, SOURCE};
use sha256::sha256;

/// openvm-org/stark-backend a6b4761ad9, crates/cuda-common/src.
const CHECKSUMS: [(&str, &str); 5] = [
    (
        "error.rs",
        "8da464cb6a1242063abc73782f1cfe5b68090b4bfeec673f66fd8a7ca35c5703",
    ),
    (
        "stream.rs",
        "aa5a750d7f6a3f963c4c796c017c8ab8db2674e218a118aff559481fd920914a",
    ),
    (
        "memory_manager/mod.rs",
        "cdf22324f91de9f4159766b662ce38263c68da0b723cb96a1f434d08b39e8e66",
    ),
    (
        "memory_manager/cuda.rs",
        "85bb65bb949a14c55739e1a05f4391d7178343581d9995af7e1b270a8e38e0ce",
    ),
    (
        "memory_manager/vm_pool.rs",
        "542efdad83c11f09c412ab2d5ddbf86f966adbdca89da1c916b41ac3bf323282",
    ),
];

fn source(name: &str) -> Vec<u8> {
    fs::read(Path::new(SOURCE).join(name)).expect("the source that was built")
}

#[test]
fn compiled_is_the_source_and_then_our_appendix() {
    for file in COMPILED {
        let source = source(file.name);
        let (head, tail) = file.text.as_bytes().split_at(source.len());
        assert!(head == source, "{} was changed", file.name);
        assert_eq!(tail, file.appendix.as_bytes(), "{}", file.name);
    }
}

#[test]
fn the_source_is_the_known_commit() {
    for (name, checksum) in CHECKSUMS {
        assert_eq!(
            sha256(&source(name)),
            checksum,
            "{name} is of another commit"
        );
    }
}

#[test]
fn sha256_agrees_with_its_examples() {
    let examples = [
        (
            "",
            "e3b0c44298fc1c149afbf4c8996fb92427ae41e4649b934ca495991b7852b855",
        ),
        (
            "abc",
            "ba7816bf8f01cfea414140de5dae2223b00361a396177a9cb410ff61f20015ad",
        ),
        (
            "abcdbcdecdefdefgefghfghighijhijkijkljklmklmnlmnomnopnopq",
            "248d6a61d20638b8e5c026930c3e6039a33ce45964ff2167f6ecedd419db06c1",
        ),
    ];
    for (message, hash) in examples {
        assert_eq!(sha256(message.as_bytes()), hash);
    }
}
