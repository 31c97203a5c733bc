//! Links the two archives of the proved pass that `compare/pass` makes.

use std::path::Path;

fn main() {
    let folder = Path::new(env!("CARGO_MANIFEST_DIR")).join("../../target/pass_alone");
    println!("cargo:rustc-link-search=native={}", folder.display());
    for name in ["before", "after"] {
        let archive = folder.join(format!("libpass_{name}.a"));
        assert!(
            archive.exists(),
            "{} is not there: run `compare/pass`, which makes it",
            archive.display()
        );
        println!("cargo:rustc-link-lib=static=pass_{name}");
        println!("cargo:rerun-if-changed={}", archive.display());
    }
}
