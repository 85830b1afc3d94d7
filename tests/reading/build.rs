//! Links the gate's C archive where it has been built: the file named by
//! SURFBODKIN_ARCHIVE, or target/staticlib/libsurfbodkin.a in the repository's
//! root; and so the composer's, COMPOSER_ARCHIVE or libcomposer.a there. Each function that it has is told to the crate by a cfg, so that what is
//! missing (all, without an archive) still builds, and is said when run. The sizes of
//! a stream's state and of a month's are taken from the header, where hosts find them too.

use std::env;
use std::path::{Path, PathBuf};
use std::process::Command;

const FUNCTIONS: [&str; 24] = [
    "check_single", "check_message", "list", "check_table", "release", "write_text", "read_text",
    "check_names", "day_check", "day_find", "day_add", "day_search", "name_number", "why", "same",
    "day_upgrade", "compare", "strike", "stream_open", "stream_feed", "stream_close", "month_open",
    "month_add", "month_read",
];

/// The functions of the gate's archive that it defines, as nm names them.
fn defined(archive: &Path) -> Vec<&'static str> {
    let nm = env::var("NM").unwrap_or("nm".to_string());
    let output = Command::new(&nm)
        .args(["-g", "--defined-only"])
        .arg(archive)
        .output()
        .unwrap_or_else(|error| panic!("cannot run {nm}: {error}"));
    assert!(output.status.success(), "{nm} cannot read {}", archive.display());
    let symbols = String::from_utf8_lossy(&output.stdout);
    let symbols: Vec<&str> = symbols
        .lines()
        .filter_map(|line| line.rsplit(' ').next()?.strip_prefix("surfbodkin_"))
        .collect();
    FUNCTIONS.into_iter().filter(|function| symbols.contains(function)).collect()
}

/// The number that the header gives a constant; 0 if it has none.
fn constant(header: &Path, name: &str) -> String {
    let text = std::fs::read_to_string(header)
        .unwrap_or_else(|error| panic!("cannot read {}: {error}", header.display()));
    let number = text.split_once(&format!("{name} = ")).map(|(_, rest)| {
        let end = rest.find(|c: char| !c.is_ascii_digit()).unwrap_or(rest.len());
        rest[..end].to_string()
    });
    number.unwrap_or("0".to_string())
}

fn main() {
    println!("cargo::rustc-check-cfg=cfg(archive_has, values(\"{}\"))", FUNCTIONS.join("\", \""));
    println!("cargo::rerun-if-changed=build.rs");
    println!("cargo::rerun-if-env-changed=NM");

    let package = PathBuf::from(env::var("CARGO_MANIFEST_DIR").unwrap());
    let header = package.join("../../host/surfbodkin.h");
    println!("cargo::rerun-if-changed={}", header.display());
    for name in ["SURFBODKIN_STREAM_WORDS", "SURFBODKIN_MONTH_WORDS"] {
        println!("cargo::rustc-env={name}={}", constant(&header, name));
    }
    if let Some(archive) = linked(&package, "SURFBODKIN_ARCHIVE", "libsurfbodkin.a") {
        for function in defined(&archive) {
            println!("cargo::rustc-cfg=archive_has=\"{function}\"");
        }
    }
    println!("cargo::rustc-check-cfg=cfg(composer)");
    if linked(&package, "COMPOSER_ARCHIVE", "libcomposer.a").is_some() {
        println!("cargo::rustc-cfg=composer");
    }
}

/// Links the archive that a variable of the environment names, or that of the repository; none
/// if it is not there.
fn linked(package: &Path, variable: &str, file: &str) -> Option<PathBuf> {
    println!("cargo::rerun-if-env-changed={variable}");
    let mut archive = match env::var_os(variable) {
        Some(path) => env::current_dir().unwrap().join(path),
        None => package.join("../../target/staticlib"),
    };
    if archive.is_dir() {
        archive.push(file);
    }
    // A path that is not there yet makes this run again until it is.
    println!("cargo::rerun-if-changed={}", archive.display());
    if !archive.is_file() {
        return None;
    }
    let folder = archive.parent().unwrap().display();
    let name = archive.file_stem().unwrap().to_str().unwrap();
    println!("cargo::rustc-link-search=native={folder}");
    println!("cargo::rustc-link-lib=static={}", name.trim_start_matches("lib"));
    Some(archive)
}
