//! Links the archive: the one that `ZIRGUMTAK_ARCHIVE` names, or the one that
//! `tools/check boundary` makes.

use std::env;
use std::path::{Path, PathBuf};

fn main() -> Result<(), String> {
    println!("cargo::rerun-if-env-changed=ZIRGUMTAK_ARCHIVE");
    link(&archive()?)
}

fn archive() -> Result<PathBuf, String> {
    if let Some(named) = env::var_os("ZIRGUMTAK_ARCHIVE").map(PathBuf::from) {
        // A build script runs in its own folder, not where cargo was called.
        if named.is_relative() {
            return Err("ZIRGUMTAK_ARCHIVE is not an absolute path".to_string());
        }
        return Ok(named);
    }
    let here = env::var_os("CARGO_MANIFEST_DIR").ok_or("CARGO_MANIFEST_DIR is not set")?;
    Ok(Path::new(&here).join("../../target/staticlib/libboundary.a"))
}

/// `cargo doc` and `cargo check` need no archive, so that one that is missing is a warning here;
/// `cargo build` then finds no such library.
fn link(archive: &Path) -> Result<(), String> {
    let path = archive.display();
    println!("cargo::rerun-if-changed={path}");
    if !archive.is_file() {
        println!(
            "cargo::warning=no archive at {path}: make it with `tools/check boundary`, or name one in ZIRGUMTAK_ARCHIVE"
        );
    }
    let folder = archive.parent().ok_or("the archive is in no folder")?;
    println!("cargo::rustc-link-search=native={}", folder.display());
    println!("cargo::rustc-link-lib=static={}", library_name(archive)?);
    Ok(())
}

/// NAME of libNAME.a.
fn library_name(archive: &Path) -> Result<&str, String> {
    let file = archive.file_name().and_then(|file| file.to_str());
    let name = file.and_then(|file| file.strip_prefix("lib")?.strip_suffix(".a"));
    name.ok_or_else(|| "the archive is not named libNAME.a".to_string())
}
