//! Links the proved static library, which `rt lib` in `crates/board` writes for x86-64.
//!
//! On another processor it links what `./build` lays in its place there: the same calls, each handed
//! to the proved library under the kit's emulator (`emulated/`). That serves the tests, not a board.
//!
//! Cargo keeps what this program prints, and runs it again where the library is newer. So it prints
//! no path of the tree, and a copy of the tree links the library of the copy: the path that is
//! watched starts at the crate's folder, and what is linked is a copy in a folder of Cargo's own.

use std::env;
use std::fs;
use std::path::Path;
use std::process::exit;

fn main() {
    let x86_64 = env::var("CARGO_CFG_TARGET_ARCH").is_ok_and(|machine| machine == "x86_64");
    let (archive, command) = if x86_64 {
        ("../crates/board/out/libboard.a", "cd crates/board && rt lib")
    } else {
        ("../target/emulated/libboard.a", "./build")
    };
    println!("cargo:rerun-if-changed=build.rs");
    println!("cargo:rerun-if-changed={archive}");
    let folder = env::var("OUT_DIR").expect("Cargo names a folder of its own");
    if let Err(error) = fs::copy(archive, Path::new(&folder).join("libboard.a")) {
        eprintln!("tautberry: {archive}: {error}. Run `{command}` at the repository's root.");
        exit(1);
    }
    println!("cargo:rustc-link-search=native={folder}");
    println!("cargo:rustc-link-lib=static=board");
}
