//! Lays the originals, byte for byte, and our stand-ins for the files that are missing out as one
//! source tree in OUT_DIR, where the `mod` lines of the originals find their children.
//!
//! The originals are those of docs/src, taken from ../shared beside the repository or from where
//! ORACLE_DOCS points.

use std::{
    env, fs, io,
    path::{Path, PathBuf},
};

/// What is compared. No other file of the original source is at hand.
const ORIGINALS: [&str; 5] = [
    "nested/mod.rs",
    "nested/map/mom/mod.rs",
    "nested/map/mom/impls/bslice.rs",
    "nested/map/mom/impls/zvec.rs",
    "nested/map/skymap/mod.rs",
];

/// Modules that an original declares and never uses.
const EMPTY: [&str; 4] = [
    "nested/gpu.rs",
    "nested/iter.rs",
    "nested/moc.rs",
    "nested/sort.rs",
];

fn main() {
    println!("cargo::rerun-if-env-changed=ORACLE_DOCS");
    println!("cargo::rerun-if-changed=standins");
    let here = PathBuf::from(env!("CARGO_MANIFEST_DIR"));
    let docs = match env::var_os("ORACLE_DOCS") {
        Some(docs) => PathBuf::from(docs),
        None => here.join("../../../shared/docs/src"),
    };
    let tree = PathBuf::from(env::var_os("OUT_DIR").unwrap()).join("tree");
    if let Err(error) = lay_out(&docs.join("src"), &here.join("standins"), &tree) {
        println!("cargo::error={error}");
    }
}

fn lay_out(originals: &Path, standins: &Path, tree: &Path) -> Result<(), String> {
    if tree.exists() {
        fs::remove_dir_all(tree).map_err(|e| format!("{}: {e}", tree.display()))?;
    }
    copy_all(standins, tree).map_err(|e| format!("{}: {e}", standins.display()))?;
    for file in EMPTY {
        fs::write(tree.join(file), "").map_err(|e| format!("{file}: {e}"))?;
    }
    for file in ORIGINALS {
        let original = originals.join(file);
        println!("cargo::rerun-if-changed={}", original.display());
        copy_new(&original, &tree.join(file))
            .map_err(|e| format!("{}: {e}", original.display()))?;
    }
    Ok(())
}

fn copy_all(from: &Path, to: &Path) -> io::Result<()> {
    fs::create_dir_all(to)?;
    for entry in fs::read_dir(from)? {
        let entry = entry?;
        let target = to.join(entry.file_name());
        if entry.file_type()?.is_dir() {
            copy_all(&entry.path(), &target)?;
        } else {
            fs::copy(entry.path(), target)?;
        }
    }
    Ok(())
}

/// Fails where a stand-in already has the place, so that none can hide an original.
fn copy_new(from: &Path, to: &Path) -> io::Result<()> {
    io::copy(&mut fs::File::open(from)?, &mut fs::File::create_new(to)?)?;
    Ok(())
}
