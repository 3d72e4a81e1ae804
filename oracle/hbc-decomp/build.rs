// Lays the Rust's text, unchanged, and the shim for the modules that it lacks in one tree, so that
// the modules of both find each other as in the Rust's own repository.

use std::env;
use std::fs::{self, File};
use std::io;
use std::path::{Path, PathBuf};

fn main() -> io::Result<()> {
    println!("cargo::rerun-if-env-changed=HBC_RUST_SRC");
    let given = env::var_os("HBC_RUST_SRC").expect("HBC_RUST_SRC names no folder: oracle/README.md");
    let text = PathBuf::from(given).join("crates/hbc-decomp/src");
    assert!(text.is_dir(), "no Rust at {}: set HBC_RUST_SRC to its folder", text.display());

    let tree = PathBuf::from(env::var_os("OUT_DIR").unwrap()).join("tree");
    if tree.exists() {
        fs::remove_dir_all(&tree)?;
    }
    lay(&text, &tree)?;
    lay(Path::new("shim"), &tree)
}

fn lay(from: &Path, to: &Path) -> io::Result<()> {
    println!("cargo::rerun-if-changed={}", from.display());
    fs::create_dir_all(to)?;
    for entry in fs::read_dir(from)? {
        let entry = entry?;
        let (source, target) = (entry.path(), to.join(entry.file_name()));
        if source.is_dir() {
            lay(&source, &target)?;
        } else {
            // create_new: the shim never stands in for a file that the text has.
            io::copy(&mut File::open(source)?, &mut File::create_new(target)?)?;
        }
    }
    Ok(())
}
