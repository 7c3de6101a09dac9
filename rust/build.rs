//! Finds libigbezolum.a: in the folder that IGBEZOLUM_LIB_DIR names, else where `./build` of the repository puts it, else where
//! `./build` or the gate put what `rt lib` builds in `crates/igbezolum_c`.

use std::path::{Path, PathBuf};
use std::{env, process};

const ARCHIVE: &str = "libigbezolum.a";

fn main() {
    println!("cargo:rerun-if-env-changed=IGBEZOLUM_LIB_DIR");
    let here = PathBuf::from(env::var_os("CARGO_MANIFEST_DIR").expect("cargo names the folder"));
    let folders = match env::var_os("IGBEZOLUM_LIB_DIR") {
        Some(folder) => vec![PathBuf::from(folder)],
        None => ["../dist/lib", "../target/staticlib"].map(|folder| here.join(folder)).to_vec(),
    };
    let Some(folder) = folders.iter().find(|folder| has_archive(folder)) else {
        let looked: Vec<String> = folders.iter().map(|folder| folder.display().to_string()).collect();
        eprintln!("igbezolum: no {ARCHIVE} in {}", looked.join(" or "));
        eprintln!("igbezolum: run ./build at the top of the repository, or name its folder in IGBEZOLUM_LIB_DIR");
        process::exit(1);
    };
    println!("cargo:rerun-if-changed={}", folder.join(ARCHIVE).display());
    println!("cargo:rustc-link-search=native={}", folder.display());
    println!("cargo:rustc-link-lib=static=igbezolum");
}

fn has_archive(folder: &Path) -> bool {
    folder.join(ARCHIVE).is_file()
}
