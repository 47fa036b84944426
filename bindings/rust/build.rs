//! Finds the archive of the proved crates and links it. In this order:
//!
//! 1. the environment variable RABTISHU_ARCHIVE: the archive, or the folder that holds it (a
//!    relative path counts from this crate's folder); `none` builds without it, for documentation
//!    and for programs that call nothing;
//! 2. pkg-config, after `./install` of the repository;
//! 3. crates/api_c/out of the repository, after `rt lib` in crates/api_c.
//!
//! Where there is none the build ends with what to do. A crate that depends on this one is told by
//! `DEP_RABTISHU_ARCHIVE` which archive was linked, or `none`.

use std::env;
use std::ffi::{OsStr, OsString};
use std::path::{Path, PathBuf};
use std::process::{exit, Command};

/// The archive's name where it is installed, and where it is built.
const NAMES: [&str; 2] = ["librabtishu.a", "libapi_c.a"];

/// What the choice of the archive depends on.
const VARIABLES: [&str; 4] = [
    "RABTISHU_ARCHIVE",
    "PKG_CONFIG",
    "PKG_CONFIG_PATH",
    "PKG_CONFIG_LIBDIR",
];

fn main() {
    println!("cargo:rerun-if-changed=build.rs");
    for variable in VARIABLES {
        println!("cargo:rerun-if-env-changed={variable}");
    }
    let given = given();
    let found = match &given {
        Some(given) if given == "none" => return println!("cargo:archive=none"),
        Some(given) => named(Path::new(given)),
        None => installed().or_else(built),
    };
    match found {
        Some(archive) => link(&archive),
        None => {
            eprintln!("{}", advice(given.as_deref()));
            exit(1);
        }
    }
}

/// RABTISHU_ARCHIVE; an empty one says nothing.
fn given() -> Option<OsString> {
    env::var_os("RABTISHU_ARCHIVE").filter(|given| !given.is_empty())
}

/// The archive that RABTISHU_ARCHIVE names, by itself or by its folder.
fn named(given: &Path) -> Option<PathBuf> {
    let given = manifest().join(given);
    match given.is_file() {
        true => Some(given),
        false => inside(&given),
    }
}

fn inside(folder: &Path) -> Option<PathBuf> {
    let archives = NAMES.map(|name| folder.join(name));
    archives.into_iter().find(|archive| archive.is_file())
}

fn installed() -> Option<PathBuf> {
    let program = env::var_os("PKG_CONFIG").unwrap_or_else(|| "pkg-config".into());
    let asked = Command::new(program)
        .args(["--variable=libdir", "rabtishu"])
        .output()
        .ok()?;
    // pkg-config puts a backslash before a blank in a path.
    let folder = String::from_utf8(asked.stdout).ok()?.replace('\\', "");
    match folder.trim() {
        "" => None,
        folder => inside(Path::new(folder)),
    }
}

fn manifest() -> PathBuf {
    env::var_os("CARGO_MANIFEST_DIR")
        .expect("Cargo sets it")
        .into()
}

fn out() -> PathBuf {
    manifest().join("../../crates/api_c/out")
}

fn built() -> Option<PathBuf> {
    // Watched also while it is not there, so that a build behind `rt lib` finds it.
    let watched = out().join("libapi_c.a");
    println!("cargo:rerun-if-changed={}", watched.display());
    inside(&out())
}

/// Links the archive under whatever name it has.
fn link(archive: &Path) {
    let folder = archive.parent().expect("an archive stands in a folder");
    let file = Path::new(archive.file_name().expect("an archive is a file"));
    println!("cargo:rerun-if-changed={}", archive.display());
    println!("cargo:rustc-link-search=native={}", folder.display());
    println!("cargo:rustc-link-lib=static:+verbatim={}", file.display());
    println!("cargo:archive={}", archive.display());
}

fn advice(given: Option<&OsStr>) -> String {
    let tried = match given {
        Some(given) => format!(
            "RABTISHU_ARCHIVE is {}, and there is no librabtishu.a or libapi_c.a",
            manifest().join(given).display()
        ),
        None => format!(
            "pkg-config knows no rabtishu, and {} has no libapi_c.a",
            out().display()
        ),
    };
    format!(
        "\nrabtishu: the archive of the proved crates was not found: {tried}.\n\
         Do one of these:\n  \
         in crates/api_c of the repository: rt lib   (proves and builds out/libapi_c.a)\n  \
         in the repository: ./install PREFIX     (and PKG_CONFIG_PATH=PREFIX/lib/pkgconfig here)\n  \
         here: RABTISHU_ARCHIVE=FOLDER, the folder that has librabtishu.a or libapi_c.a\n"
    )
}
