//! Links the proved static library, `librun.a`, from `RATTLE_LIB` (default `../target/staticlib`, seen from here).

use std::env;
use std::path::PathBuf;

fn main() {
    println!("cargo::rerun-if-env-changed=RATTLE_LIB");
    let package = PathBuf::from(env::var("CARGO_MANIFEST_DIR").unwrap());
    let place = package.join(env::var("RATTLE_LIB").unwrap_or("../target/staticlib".into()));
    println!("cargo::rustc-link-search=native={}", place.display());
    let library = place.join("librun.a");
    assert!(
        library.exists(),
        "{}: not there; `tools/staticlib run`, in the repository, makes it",
        library.display()
    );
    println!("cargo::rerun-if-changed={}", library.display());
    println!("cargo::rustc-link-lib=static=run");
    // For the test of the C header, which links the library once more.
    println!("cargo::rustc-env=PRESS_LIBRARY={}", library.display());
}
