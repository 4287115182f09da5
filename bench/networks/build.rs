//! Links the static library of the verified networks, and the kit's C code below it.
use std::path::{Path, PathBuf};
use std::process::Command;

/// The kit's folder, which the guide that `rt doc` names lies in.
fn kit() -> PathBuf {
    let told = Command::new("rt").arg("doc").output().expect("`rt` is on the path");
    let guide = String::from_utf8(told.stdout).expect("`rt doc` tells a path");
    let folder = Path::new(guide.trim()).parent();
    folder.expect("the guide is in the kit's folder").to_path_buf()
}

fn main() {
    let root = Path::new(env!("CARGO_MANIFEST_DIR")).join("../..");
    let library = root.join("crates/network_bench/out");
    println!("cargo:rerun-if-changed={}", library.join("libnetwork_bench.a").display());
    println!("cargo:rustc-link-search=native={}", library.display());
    println!("cargo:rustc-link-search=native={}", kit().join("c").display());
    println!("cargo:rustc-link-lib=static=network_bench");
    println!("cargo:rustc-link-lib=static=os_c");
    println!("cargo:rustc-link-lib=static=libc_c");
}
