//! Links the archives of the proved crates, where they are there: `rt lib` in crates/api_c and in
//! crates/test_bench writes each to the crate's folder out; RABTISHU_ARCHIVE names another folder
//! for both.

use std::env;
use std::path::PathBuf;

fn main() {
    println!("cargo:rerun-if-env-changed=RABTISHU_ARCHIVE");
    let here = env::var("CARGO_MANIFEST_DIR").expect("set by Cargo");
    let crates = PathBuf::from(here).join("../../crates");
    for (name, condition) in [("api_c", "proved"), ("test_bench", "benched")] {
        let folder = match env::var("RABTISHU_ARCHIVE") {
            Ok(folder) => PathBuf::from(folder),
            Err(_) => crates.join(name).join("out"),
        };
        let archive = folder.join(format!("lib{name}.a"));
        println!("cargo:rustc-check-cfg=cfg({condition})");
        println!("cargo:rerun-if-changed={}", archive.display());
        if archive.exists() {
            println!("cargo:rustc-link-search=native={}", folder.display());
            println!("cargo:rustc-cfg={condition}");
            println!("cargo:rustc-link-lib=static={name}");
        }
    }
}
