//! Links the proved archive: SPACE_ARCHIVE, or what `rt lib` writes in crates/space. The one place that knows its name and
//! path.

use std::env;
use std::path::{Path, PathBuf};

const BUILT: &str = "../../crates/space/out/libspace.a";

fn main() {
    let archive = match env::var("SPACE_ARCHIVE") {
        Ok(path) => PathBuf::from(path),
        Err(_) => PathBuf::from(env::var("CARGO_MANIFEST_DIR").unwrap()).join(BUILT),
    };
    println!("cargo:rerun-if-env-changed=SPACE_ARCHIVE");
    // What calls the space cannot be linked then; other programs beside it can.
    if !archive.is_file() {
        println!("cargo:warning=there is no {}: run `rt lib` in crates/space", archive.display());
        return;
    }
    let folder = archive.parent().unwrap_or(Path::new("."));
    let name = archive.file_name().expect("SPACE_ARCHIVE names a file").to_string_lossy();
    println!("cargo:rerun-if-changed={}", archive.display());
    println!("cargo:rustc-link-search=native={}", folder.display());
    println!("cargo:rustc-link-lib=static:+verbatim={name}");
}
