//! Tells the linker where the proved archive is: beside the file that
//! GJALVORN_ARCHIVE names, or where `rt lib` puts it.

use std::env;
use std::path::{Path, PathBuf};

const ARCHIVE: &str = "GJALVORN_ARCHIVE";
const LIBRARY: &str = "libffi.a";
const BUILT: &str = "../../crates/ffi/out/libffi.a";

fn main() {
    let archive = env::var_os(ARCHIVE).map_or_else(built_here, PathBuf::from);
    // The linker is told a folder and a library's name, so another file name would link something else.
    assert!(
        archive.ends_with(LIBRARY),
        "{} names {}, which is not called {}",
        ARCHIVE,
        archive.display(),
        LIBRARY
    );
    let folder = archive.parent().unwrap_or_else(|| Path::new("."));
    println!("cargo:rustc-link-search=native={}", folder.display());
    println!("cargo:rerun-if-env-changed={}", ARCHIVE);
    println!("cargo:rerun-if-changed={}", archive.display());
}

/// The archive of this repository.
fn built_here() -> PathBuf {
    Path::new(env!("CARGO_MANIFEST_DIR")).join(BUILT)
}
