//! Links the archive that `rt lib` writes in crates/linnet.

use std::path::Path;

fn main() {
    let archive = Path::new(env!("CARGO_MANIFEST_DIR")).join("../../crates/linnet/out/liblinnet.a");
    assert!(
        archive.exists(),
        "{} is not there: run `rt lib` in crates/linnet first",
        archive.display()
    );
    let folder = archive.parent().expect("it lies in a folder");
    println!("cargo:rustc-link-search=native={}", folder.display());
    println!("cargo:rustc-link-lib=static=linnet");
    println!("cargo:rerun-if-changed={}", archive.display());
}
