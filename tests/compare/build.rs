//! Links the library that LIBPALETTE names, an archive or a shared library. A
//! relative path is taken from the repository's root, whatever folder cargo is
//! started in.
//!
//! The calls are weak references (src/library.rs), which alone would pull
//! nothing out of an archive and need no shared library. So the archive is
//! linked whole, and the shared library is needed as it stands.

use std::env;
use std::path::{Path, PathBuf};

const DEFAULT: &str = "target/lib/libpalette.a";

fn main() {
    let here = PathBuf::from(env::var_os("CARGO_MANIFEST_DIR").expect("cargo sets it"));
    let root = here.join("../..");
    let named = env::var_os("LIBPALETTE").unwrap_or_else(|| DEFAULT.into());
    // An absolute path replaces the root.
    let library = root.join(Path::new(&named));
    println!("cargo:rerun-if-env-changed=LIBPALETTE");
    println!("cargo:rerun-if-changed={}", library.display());
    if !library.is_file() {
        println!("cargo:warning=there is no library at {}", library.display());
    }
    let archive = library.extension().is_some_and(|end| end == "a");
    let (before, after) = if archive {
        ("-Wl,--whole-archive", "-Wl,--no-whole-archive")
    } else {
        ("-Wl,--no-as-needed", "-Wl,--as-needed")
    };
    println!("cargo:rustc-link-arg-bins={before}");
    println!("cargo:rustc-link-arg-bins={}", library.display());
    println!("cargo:rustc-link-arg-bins={after}");
}
