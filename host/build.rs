//! Has the proved calls made into an archive and copies it to where cargo links from.

use std::env;
use std::error::Error;
use std::fs;
use std::path::{Path, PathBuf};
use std::process::Command;

fn main() -> Result<(), Box<dyn Error>> {
    let host = PathBuf::from(env::var_os("CARGO_MANIFEST_DIR").ok_or("cargo gives no CARGO_MANIFEST_DIR")?);
    let root = host.parent().ok_or("the crate stands in no repository")?;
    let out = PathBuf::from(env::var_os("OUT_DIR").ok_or("cargo gives no OUT_DIR")?);
    watch(&root.join("crates"))?;
    println!("cargo::rerun-if-changed={}", root.join("crates.txt").display());
    println!("cargo::rerun-if-env-changed=PEGSIENNA_ARCHIVE");
    // An archive made elsewhere, as for a device, may be named instead.
    let archive = match env::var_os("PEGSIENNA_ARCHIVE") {
        Some(path) => {
            println!("cargo::rerun-if-changed={}", Path::new(&path).display());
            PathBuf::from(path)
        }
        None => proved(root)?,
    };
    fs::copy(&archive, out.join("libends.a")).map_err(|e| format!("{}: {e}", archive.display()))?;
    println!("cargo::rustc-link-search=native={}", out.display());
    println!("cargo::rustc-link-lib=static=ends");
    // for the test that builds the C example
    println!("cargo::rustc-env=PEGSIENNA_ARCHIVE_COPY={}", out.join("libends.a").display());
    Ok(())
}

/// Runs this again when a crate's own files change, and not for what rt writes beside them.
fn watch(crates: &Path) -> Result<(), Box<dyn Error>> {
    for entry in fs::read_dir(crates)? {
        for part in ["src", "specs", "proofs"] {
            let folder = entry.as_ref().map_err(|e| e.to_string())?.path().join(part);
            if folder.is_dir() {
                println!("cargo::rerun-if-changed={}", folder.display());
            }
        }
    }
    Ok(())
}

/// Proves crate `ends_c`, the calls for other languages, and writes its archive.
fn proved(root: &Path) -> Result<PathBuf, Box<dyn Error>> {
    let made = Command::new(root.join("tools/build")).arg("archive").output();
    let made = made.map_err(|e| format!("tools/build can't be run: {e}"))?;
    if !made.status.success() {
        let said = String::from_utf8_lossy(&made.stdout) + String::from_utf8_lossy(&made.stderr);
        return Err(format!(
            "`tools/build archive` failed (the Rattle toolchain has to be on the path, or PEGSIENNA_ARCHIVE has to name an archive):\n{said}"
        )
        .into());
    }
    Ok(root.join("target/staticlib/libends.a"))
}
