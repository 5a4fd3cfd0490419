//! Links the archive of the proved store, `libsagivelume.a`. It lies in the folder that the environment variable
//! `SAGIVELUME_LIB` names, where that is set and not empty; else in `lib` beside this package, where it is taken away
//! with it; else in the repository's `target/staticlib`. A relative `SAGIVELUME_LIB` is a path from the folder in which
//! cargo is run, as the shell tells it in `PWD`, since cargo runs this program in another one.

use std::env;
use std::path::{Path, PathBuf};

const FOLDER: &str = "SAGIVELUME_LIB";
const ARCHIVE: &str = "libsagivelume.a";

/// The folder of the archive.
fn folder(package: &Path) -> PathBuf {
    let beside = package.join("../lib");
    match env::var_os(FOLDER).filter(|named| !named.is_empty()).map(PathBuf::from) {
        Some(named) if named.is_absolute() => named,
        Some(named) => run_in(package).join(named),
        None if beside.join(ARCHIVE).is_file() => beside,
        None => package.join("../../target/staticlib"),
    }
}

/// The folder in which cargo is run; the package's, if there is no telling.
fn run_in(package: &Path) -> PathBuf {
    println!("cargo::rerun-if-env-changed=PWD");
    env::var_os("PWD").map_or_else(|| package.to_owned(), PathBuf::from)
}

fn main() {
    let package = env::var_os("CARGO_MANIFEST_DIR").expect("cargo sets it");
    let folder = folder(Path::new(&package));
    let archive = folder.join(ARCHIVE);

    println!("cargo::rerun-if-env-changed={FOLDER}");
    println!("cargo::rerun-if-changed={}", archive.display());
    if !archive.is_file() {
        let missing = archive.display();
        println!("cargo::error={missing} is missing: build the store, or name the archive's folder in {FOLDER}");
    }
    println!("cargo::rustc-link-search=native={}", folder.display());
    println!("cargo::rustc-link-lib=static=sagivelume");
}
