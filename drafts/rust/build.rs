//! Proves the static library `playback` and links it: `rt lib` in its folder.
use std::env;
use std::path::PathBuf;
use std::process::Command;

fn main() {
    let root = PathBuf::from(env::var("CARGO_MANIFEST_DIR").unwrap()).join("..");
    let playback = root.join("crates/playback");
    println!("cargo:rerun-if-changed=../crates");
    println!("cargo:rerun-if-changed=../crates.txt");
    let proved = Command::new("rt")
        .arg("lib")
        .current_dir(&playback)
        .output()
        .expect("rt is not on the PATH: the Rattle toolchain is needed (README.md says which)");
    if !proved.status.success() {
        eprintln!("{}", String::from_utf8_lossy(&proved.stdout));
        eprintln!("{}", String::from_utf8_lossy(&proved.stderr));
        panic!("rt lib failed in crates/playback");
    }
    println!("cargo:rustc-link-search=native={}", playback.join("out").display());
    println!("cargo:rustc-link-lib=static=playback");
}
