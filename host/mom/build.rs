//! Links libmom_c.a from crates/mom_c/out of the repository, or from where MOM_LIB_DIR points. That
//! has to be absolute: cargo runs this in the package's directory, wherever it was called itself.

use std::{env, path::PathBuf};

fn main() {
    println!("cargo::rerun-if-env-changed=MOM_LIB_DIR");
    let dir = match env::var_os("MOM_LIB_DIR") {
        Some(dir) => PathBuf::from(dir),
        None => PathBuf::from(env!("CARGO_MANIFEST_DIR")).join("../../crates/mom_c/out"),
    };
    let archive = dir.join("libmom_c.a");
    println!("cargo::rerun-if-changed={}", archive.display());
    if !dir.is_absolute() {
        println!(
            "cargo::error=MOM_LIB_DIR is {:?}: it has to be an absolute path",
            dir.display()
        );
    } else if archive.is_file() {
        println!("cargo::rustc-link-search=native={}", dir.display());
        println!("cargo::rustc-link-lib=static=mom_c");
    } else {
        println!(
            "cargo::error={} is not there: run `rt lib` in crates/mom_c of the repository, \
             or set MOM_LIB_DIR to the directory that holds the archive",
            archive.display()
        );
    }
}
