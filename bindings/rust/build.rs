// Links libgimli.a, which bindings/build.sh leaves in bindings/target; GIMLI_LIBRARY names another
// folder of it, or the library itself, of which the folder counts.
use std::{env, path::PathBuf};

fn main() {
    println!("cargo:rerun-if-env-changed=GIMLI_LIBRARY");
    let here = PathBuf::from(env::var("CARGO_MANIFEST_DIR").unwrap()).join("../target");
    let mut folder = env::var("GIMLI_LIBRARY").map_or(here, PathBuf::from);
    if folder.is_file() {
        folder.pop();
    }
    let library = folder.join("libgimli.a");
    if !library.is_file() {
        let place = library.display();
        println!(
            "cargo:warning={place} is not there: bindings/build.sh builds it; GIMLI_LIBRARY names another folder"
        );
    }
    println!("cargo:rerun-if-changed={}", library.display());
    println!("cargo:rustc-link-search=native={}", folder.display());
    println!("cargo:rustc-link-lib=static=gimli");
}
