//! Links `libvbus.a`: from the folder that `VBUS_LIB_DIR` names, else from `target/staticlib` at
//! the top of this repository.

use std::env;
use std::path::{Path, PathBuf};

const FOLDER: &str = "VBUS_LIB_DIR";
const ADVICE: &str = "run `./build vbus` at the top of the VBus repository, \
                      or set VBUS_LIB_DIR to the folder of an installed libvbus.a";

fn main() {
    println!("cargo::rerun-if-env-changed={FOLDER}");
    match archive_folder() {
        Ok(folder) => {
            println!("cargo::rustc-link-search=native={}", folder.display());
            println!("cargo::rustc-link-lib=static=vbus");
        }
        Err(what) => println!("cargo::error={what}: {ADVICE}"),
    }
}

/// The folder with the archive, or what is wrong.
fn archive_folder() -> Result<PathBuf, String> {
    let folder = match env::var_os(FOLDER) {
        Some(folder) => PathBuf::from(folder),
        None => built(),
    };
    // Cargo runs this script and the linker in folders of its own choice.
    if folder.is_relative() {
        let folder = folder.display();
        return Err(format!("{FOLDER} is \"{folder}\", not an absolute path"));
    }
    let archive = folder.join("libvbus.a");
    println!("cargo::rerun-if-changed={}", archive.display());
    if archive.is_file() {
        Ok(folder)
    } else {
        Err(format!("{} is missing", archive.display()))
    }
}

/// Where `./build vbus` puts the archive: this crate is `rust/vbus-sys` of the repository.
fn built() -> PathBuf {
    let here = PathBuf::from(env::var_os("CARGO_MANIFEST_DIR").expect("cargo sets it"));
    let top = here.ancestors().nth(2).unwrap_or(Path::new("/"));
    top.join("target/staticlib")
}
