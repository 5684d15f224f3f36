//! Links the static library. `EIKELZWIER_LIB` names the folder of
//! `libeikelzwier.a`; without it, it is the repository's `target/staticlib`.

use std::env;
use std::path::PathBuf;

fn main() {
    println!("cargo:rerun-if-env-changed=EIKELZWIER_LIB");
    let folder = match env::var_os("EIKELZWIER_LIB") {
        Some(folder) => PathBuf::from(folder),
        None => {
            let here = env::var_os("CARGO_MANIFEST_DIR").expect("cargo says where the crate is");
            PathBuf::from(here).join("../../target/staticlib")
        }
    };
    let archive = folder.join("libeikelzwier.a");
    println!("cargo:rerun-if-changed={}", archive.display());
    assert!(
        archive.is_file(),
        "there is no {}: run `tools/build-library` at the repository's root, or set EIKELZWIER_LIB",
        archive.display()
    );
    println!("cargo:rustc-link-search=native={}", folder.display());
    println!("cargo:rustc-link-lib=static=eikelzwier");
}
