//! Links the library of the folder that FOCHILLUN_LIBRARY_DIR names, or else what `bindings/build` made, or else that of the release.
use std::path::{Path, PathBuf};

/// What changes where a library is made, or made anew: the file, or the closest folder that is there. What is not there has changed each time, for
/// cargo, which would build all anew.
fn looked_at(library: &Path) -> &Path {
    let mut there = library.ancestors();
    there.find(|it| it.exists()).unwrap_or(library)
}

fn main() {
    let here = PathBuf::from(std::env::var("CARGO_MANIFEST_DIR").expect("cargo sets it"));
    let folders = match std::env::var("FOCHILLUN_LIBRARY_DIR") {
        Ok(named) => vec![PathBuf::from(named)],
        Err(_) => vec![here.join("../out"), here.join("../../dist")],
    };
    println!("cargo:rerun-if-env-changed=FOCHILLUN_LIBRARY_DIR");
    for folder in &folders {
        let library = folder.join("libfochillun.a");
        println!("cargo:rerun-if-changed={}", looked_at(&library).display());
    }
    let Some(made) = folders.iter().find(|it| it.join("libfochillun.a").exists()) else {
        eprintln!("no libfochillun.a in {folders:?}: bindings/build makes it");
        std::process::exit(1);
    };
    println!("cargo:rustc-link-search=native={}", made.display());
    println!("cargo:rustc-link-lib=static=fochillun");
}
