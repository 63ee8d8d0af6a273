//! Links the library's archives. They are in the folder that BEKURAPI_LIB_DIR names, as they are there, or in the repository's
//! target/staticlib, where `tools/built archives` proves and writes those that are missing or older than their sources.

use std::env;
use std::fs;
use std::path::{Path, PathBuf};
use std::process::{exit, Command, Stdio};
use std::time::SystemTime;

/// Each archive is named after the library whose functions it has; the crate that exports them has `_c` after its name.
const ARCHIVES: [&str; 2] = ["bekurapi", "queue_in_place"];

/// The folders of a crate that archives are made from.
const PARTS: [&str; 3] = ["src", "specs", "proofs"];

fn main() {
    println!("cargo:rerun-if-changed=build.rs");
    println!("cargo:rerun-if-env-changed=BEKURAPI_LIB_DIR");
    let folder = match env::var_os("BEKURAPI_LIB_DIR") {
        Some(folder) => PathBuf::from(folder),
        None => repository_folder(),
    };
    println!("cargo:rustc-link-search=native={}", folder.display());
    for name in ARCHIVES {
        let archive = archive(&folder, name);
        if !archive.exists() {
            fail(&format!("no {}", archive.display()));
        }
        println!("cargo:rerun-if-changed={}", archive.display());
        println!("cargo:rustc-link-lib=static={name}");
    }
}

/// The repository's folder of archives, each as new as the sources of its crate and of those below.
fn repository_folder() -> PathBuf {
    let root = Path::new(env!("CARGO_MANIFEST_DIR")).join("../..");
    let folder = root.join("target/staticlib");
    println!("cargo:rerun-if-changed={}", root.join("crates.txt").display());
    for name in ARCHIVES {
        let sources = sources(&root, &format!("{name}_c"));
        for source in &sources {
            println!("cargo:rerun-if-changed={}", source.display());
        }
        let newest = sources.iter().filter_map(|source| newest(source)).max();
        let newest = newest.unwrap_or_else(|| fail(&format!("no sources of {name}")));
        if changed(&archive(&folder, name)).is_none_or(|built| built < newest) {
            prove(&root);
        }
    }
    folder
}

fn archive(folder: &Path, name: &str) -> PathBuf {
    folder.join(format!("lib{name}.a"))
}

/// When a file was last changed, if there is one.
fn changed(path: &Path) -> Option<SystemTime> {
    fs::metadata(path).and_then(|file| file.modified()).ok()
}

/// The folders with the sources of a crate, and of all that it rests on.
fn sources(root: &Path, name: &str) -> Vec<PathBuf> {
    let graph = root.join("crates.txt");
    let lines = fs::read_to_string(&graph).unwrap_or_else(|error| fail(&format!("{}: {error}", graph.display())));
    let mut crates = vec![name.to_string()];
    let mut place = 0;
    while place < crates.len() {
        let mut used = lines.lines().filter_map(|line| line.split_once(':'));
        let used = used.find(|(user, _)| user.split_whitespace().next() == Some(&crates[place]));
        for below in used.map_or("", |(_, used)| used).split_whitespace() {
            if !crates.iter().any(|known| known == below) {
                crates.push(below.to_string());
            }
        }
        place += 1;
    }
    let folders = crates.iter().flat_map(|name| PARTS.map(|part| root.join("crates").join(name).join(part)));
    folders.filter(|folder| folder.exists()).collect()
}

/// When the file, or the newest file in the folder, was last changed.
fn newest(path: &Path) -> Option<SystemTime> {
    match fs::read_dir(path) {
        Ok(entries) => {
            let entries = entries.filter_map(|entry| Some(entry.ok()?.path()));
            entries.filter_map(|entry| newest(&entry)).max()
        }
        Err(_) => changed(path),
    }
}

/// Proves the library and writes its archives. What rt prints is reported where it fails, as cargo reads standard output.
fn prove(root: &Path) {
    let run = Command::new(root.join("tools/built")).arg("archives").current_dir(root).stdin(Stdio::null()).output();
    match run {
        Ok(output) if output.status.success() => {}
        Ok(output) => {
            eprint!("{}{}", String::from_utf8_lossy(&output.stdout), String::from_utf8_lossy(&output.stderr));
            fail("`tools/built archives` failed");
        }
        Err(error) => fail(&format!("cannot run `tools/built`, nor is BEKURAPI_LIB_DIR set: {error}")),
    }
}

fn fail(why: &str) -> ! {
    eprintln!("bekurapi: {why}");
    exit(1);
}
