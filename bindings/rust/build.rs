//! Links libuas.a, which `bindings/archive` makes: from the folder in UAS_ARCHIVE_DIR, else where that script leaves it. With the feature `block`
//! it links libuas_block.a too, likewise; the libuas.a of a package has that in it.

use std::env;
use std::path::{Path, PathBuf};
use std::process::exit;

// Where the archive lies, from this folder, and who makes it: bindings/package writes its own in place of these.
const FOLDER: &str = "../../crates/uas_c/out";
// Where libuas_block.a lies, from that folder, where it isn't in it.
const BESIDE: &str = "../../uas_block_c/out";
const MAKER: &str = "bindings/archive proves and makes it, in some 10 minutes where the crates below are proved, else some 40";

fn main() {
    println!("cargo:rerun-if-env-changed=UAS_ARCHIVE_DIR");
    let folder = match env::var_os("UAS_ARCHIVE_DIR") {
        Some(folder) => PathBuf::from(folder),
        None => PathBuf::from(env::var_os("CARGO_MANIFEST_DIR").unwrap_or_default()).join(FOLDER),
    };
    let archive = folder.join("libuas.a");
    println!("cargo:rerun-if-changed={}", archive.display());
    if !archive.exists() {
        eprintln!("{} isn't there. {MAKER}; UAS_ARCHIVE_DIR names another folder that has it.", archive.display());
        exit(1);
    }
    println!("cargo:rustc-link-search=native={}", folder.display());
    println!("cargo:rustc-link-lib=static=uas");
    if env::var_os("CARGO_FEATURE_BLOCK").is_some() {
        link_block(&folder);
    }
}

fn link_block(folder: &Path) {
    for folder in [folder.to_path_buf(), folder.join(BESIDE)] {
        let archive = folder.join("libuas_block.a");
        println!("cargo:rerun-if-changed={}", archive.display());
        if archive.exists() {
            println!("cargo:rustc-link-search=native={}", folder.display());
            println!("cargo:rustc-link-lib=static=uas_block");
            return;
        }
    }
}
