//! The Rust text is the one that was given, and all of it.

use std::collections::BTreeMap;
use std::fs;
use std::path::{Path, PathBuf};

use oracle::sha256;

fn docs() -> PathBuf {
    Path::new(env!("CARGO_MANIFEST_DIR")).join("../docs")
}

/// Every file below a folder, by its path from docs/.
fn files(folder: &Path, found: &mut BTreeMap<String, PathBuf>) {
    for entry in fs::read_dir(folder).expect("the folder is there") {
        let path = entry.expect("it can be read").path();
        if path.is_dir() {
            files(&path, found);
        } else {
            let name = path.strip_prefix(docs()).expect("it is in docs").to_string_lossy().replace('\\', "/");
            found.insert(name, path);
        }
    }
}

#[test]
fn the_text_is_unchanged() {
    let list = fs::read_to_string(docs().join("src.sha256")).expect("the list of digests is there");
    let listed: BTreeMap<&str, &str> = list
        .lines()
        .map(|line| line.split_once("  ").expect("digest, two spaces, path"))
        .map(|(d, p)| (p, d))
        .collect();
    let mut found = BTreeMap::new();
    files(&docs().join("src"), &mut found);
    let names: Vec<&str> = found.keys().map(String::as_str).collect();
    assert_eq!(names, listed.keys().copied().collect::<Vec<_>>(), "the files are those of the list");
    assert_eq!(names.iter().filter(|name| name.ends_with(".rs")).count(), 9);
    for (name, path) in &found {
        let bytes = fs::read(path).expect("it can be read");
        assert_eq!(sha256::hex(&bytes), listed[name.as_str()], "{name}");
    }
}

/// The examples of FIPS 180-4's secure hash standard page, so that the digest itself is not taken on trust.
#[test]
fn digests_of_known_messages() {
    let known = [
        ("", "e3b0c44298fc1c149afbf4c8996fb92427ae41e4649b934ca495991b7852b855"),
        ("abc", "ba7816bf8f01cfea414140de5dae2223b00361a396177a9cb410ff61f20015ad"),
        (
            "abcdbcdecdefdefgefghfghighijhijkijkljklmklmnlmnomnopnopq",
            "248d6a61d20638b8e5c026930c3e6039a33ce45964ff2167f6ecedd419db06c1",
        ),
    ];
    for (message, digest) in known {
        assert_eq!(sha256::hex(message.as_bytes()), digest);
    }
    let long = "a".repeat(1_000_000);
    let digest = "cdc76e5c9914fb9281a1c7e284d73e67f1809a48a497200e046d39ccc7112cd0";
    assert_eq!(sha256::hex(long.as_bytes()), digest);
}
