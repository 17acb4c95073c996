//! Finds the archive of proved heaps: in the folder that `RLSF_LIB_DIR` names, beside the crate in an installation, or in the repository.

use std::env;
use std::path::{Path, PathBuf};

const ARCHIVE: &str = "librlsf_malloc.a";

fn main() {
    println!("cargo::rerun-if-env-changed=RLSF_LIB_DIR");
    assert_eq!(env::var("CARGO_CFG_TARGET_ARCH").as_deref(), Ok("x86_64"), "{ARCHIVE} is for x86-64 alone");
    let folder = find();
    println!("cargo::rerun-if-changed={}", folder.join(ARCHIVE).display());
    println!("cargo::rustc-link-search=native={}", folder.display());
    println!("cargo::rustc-link-lib=static=rlsf_malloc");
}

/// The folder of the archive.
fn find() -> PathBuf {
    if let Some(folder) = env::var_os("RLSF_LIB_DIR").map(PathBuf::from) {
        assert!(folder.join(ARCHIVE).exists(), "RLSF_LIB_DIR is {}, which has no {ARCHIVE}", folder.display());
        return folder;
    }
    // The sources lie in `rust` of the repository, in `share/rlsf/rust` of an installation, or in the folder `patch` there.
    let manifest = PathBuf::from(env::var_os("CARGO_MANIFEST_DIR").expect("Cargo runs this"));
    let sources = if manifest.ends_with("patch") { manifest.parent().unwrap_or(Path::new("")).to_path_buf() } else { manifest };
    let places = [sources.join("../../../lib"), sources.join("../crates/rlsf_malloc/out")];
    places.iter().find(|folder| folder.join(ARCHIVE).exists()).cloned().unwrap_or_else(|| {
        panic!(
            "there is no {ARCHIVE} in {} or {}: install it by tools/install, build it by `rt lib` in crates/rlsf_malloc, or set RLSF_LIB_DIR to its folder",
            places[0].display(),
            places[1].display()
        )
    })
}
