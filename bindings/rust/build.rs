//! Links the archive: the file that ABR_LIB names (a relative path is taken from
//! the repository's root), else, in an unpacked delivery, its lib/libabr.a, else the one
//! in the repository for cargo's target: target/staticlib/libabr.a for x86-64, and for
//! another processor what `make target` has written; those of another edition are in
//! target/connections-N. ABR_CONNECTIONS says which edition it is.

use std::env;
use std::fs;
use std::path::{Path, PathBuf};

/// The connections of the edition unless ABR_CONNECTIONS says others.
const CONNECTIONS: &str = "1024";

fn main() {
    println!("cargo:rerun-if-env-changed=ABR_LIB");
    println!("cargo:rerun-if-env-changed=ABR_CONNECTIONS");
    let connections = connections();
    let archive = archive(&connections);
    println!("cargo:rerun-if-changed={}", archive.display());
    let out = PathBuf::from(env::var_os("OUT_DIR").expect("cargo sets OUT_DIR"));
    fs::write(out.join("connections"), connections).expect("OUT_DIR can be written");
    if let Err(error) = fs::copy(&archive, out.join("libabr.a")) {
        panic!(
            "no archive at {} ({error}): make it with `make lib` or `make target`, or name another in ABR_LIB",
            archive.display()
        );
    }
    println!("cargo:rustc-link-search=native={}", out.display());
    println!("cargo:rustc-link-lib=static=abr");
}

/// How many connections the edition has, a number for src/table.rs.
fn connections() -> String {
    let connections = env::var("ABR_CONNECTIONS").unwrap_or_else(|_| CONNECTIONS.to_owned());
    assert!(
        ["16", "64", "256", "1024"].contains(&connections.as_str()),
        "ABR_CONNECTIONS is 16, 64, 256 or 1024, and not {connections}"
    );
    connections
}

/// The path of the archive.
fn archive(connections: &str) -> PathBuf {
    let package = Path::new(env!("CARGO_MANIFEST_DIR"));
    let root = package.join("../..");
    let delivered = package.join("../lib/libabr.a");
    match env::var_os("ABR_LIB") {
        Some(path) => root.join(path),
        None if delivered.is_file() => delivered,
        None => root
            .join("target")
            .join(folder(connections))
            .join("libabr.a"),
    }
}

/// The folder of the archive for the edition and the target that cargo builds for.
fn folder(connections: &str) -> PathBuf {
    let processor = processor();
    match (connections, processor.as_str()) {
        ("1024", "x86_64") => PathBuf::from("staticlib"),
        ("1024", _) => PathBuf::from(processor),
        (_, "x86_64") => PathBuf::from(format!("connections-{connections}")),
        _ => Path::new(&format!("connections-{connections}")).join(processor),
    }
}

/// The processor that cargo builds for, by its name in targets/targets.txt; x86-64, whose archive is no target, by its
/// own.
fn processor() -> String {
    let triple = env::var("TARGET").expect("cargo sets TARGET");
    let processor = triple.split('-').next().unwrap_or_default();
    let abi = triple.rsplit('-').next().unwrap_or_default();
    match processor {
        "x86_64" | "wasm32" => processor.to_owned(),
        _ if processor.starts_with("arm") => format!("arm-linux-{abi}"),
        _ if processor.starts_with("riscv64") => format!("riscv64-linux-{abi}"),
        _ => format!("{processor}-linux-{abi}"),
    }
}
