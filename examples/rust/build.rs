//! Links the archives: `LOT_OUT` is the folder of `liblot_c.a`, and `LOT_KIT` that of the kit's `liblibc_c.a`.

use std::env;
use std::path::{Path, PathBuf};
use std::process::Command;

fn main() {
    println!("cargo:rerun-if-env-changed=LOT_OUT");
    println!("cargo:rerun-if-env-changed=LOT_KIT");
    let out = env::var_os("LOT_OUT").map_or_else(own_out, PathBuf::from);
    println!("cargo:rerun-if-changed={}", out.join("liblot_c.a").display());
    println!("cargo:rustc-link-search=native={}", out.display());
    println!("cargo:rustc-link-lib=static=lot_c");
    match env::var_os("LOT_KIT").map(PathBuf::from).or_else(kit) {
        Some(kit) => {
            println!("cargo:rustc-link-search=native={}", kit.display());
            println!("cargo:rustc-link-lib=static=libc_c");
        }
        None => panic!("set LOT_KIT to the folder of liblibc_c.a, `c` beside the page that `rt doc` prints"),
    }
}

/// The folder of this repository's archive.
fn own_out() -> PathBuf {
    Path::new(env!("CARGO_MANIFEST_DIR")).join("../../crates/lot_c/out")
}

/// The folder of the installed kit's archive.
fn kit() -> Option<PathBuf> {
    let doc = Command::new("rt").arg("doc").output().ok()?;
    let page = String::from_utf8(doc.stdout).ok()?;
    Some(Path::new(page.trim()).parent()?.join("c"))
}
