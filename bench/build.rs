//! Links those peers whose archives are in the folder BENCH_PEERS, which `bench/run` builds; without that folder, none.

use std::env;
use std::path::Path;

/// Links the archive where it is in the folder.
fn link(folder: &Path, name: &str) -> bool {
    let archive = folder.join(format!("lib{name}.a"));
    println!("cargo:rerun-if-changed={}", archive.display());
    if archive.exists() {
        println!("cargo:rustc-link-lib=static={name}");
    }
    archive.exists()
}

fn main() {
    println!("cargo:rerun-if-env-changed=BENCH_PEERS");
    let Some(peers) = env::var_os("BENCH_PEERS") else { return };
    let peers = Path::new(&peers);
    println!("cargo:rustc-link-search=native={}", peers.display());
    if link(peers, "protobuf_peer") {
        println!("cargo:rustc-cfg=protobuf");
        println!("cargo:rustc-link-lib=protobuf");
        println!("cargo:rustc-link-lib=stdc++");
    }
    if link(peers, "nanopb_peer") {
        println!("cargo:rustc-cfg=nanopb");
        println!("cargo:rustc-link-lib=protobuf-nanopb");
    }
}
