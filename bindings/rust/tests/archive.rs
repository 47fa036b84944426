//! The build script, as a program: which archive it finds, and what it says where there is none.

use std::fs;
use std::path::{Path, PathBuf};
use std::process::{Command, Output};
use std::sync::OnceLock;

/// The build script, compiled once for all tests.
fn script() -> &'static Path {
    static SCRIPT: OnceLock<PathBuf> = OnceLock::new();
    SCRIPT.get_or_init(|| {
        let script = Path::new(env!("CARGO_TARGET_TMPDIR")).join("build_script");
        let compiled = Command::new("rustc")
            .args(["--edition", "2021", "-o"])
            .arg(&script)
            .arg(concat!(env!("CARGO_MANIFEST_DIR"), "/build.rs"))
            .status();
        assert!(compiled.is_ok_and(|status| status.success()));
        script
    })
}

/// An empty repository of the test's own; its crate stands where the real one does.
struct Repository(PathBuf);

impl Repository {
    fn new(name: &str) -> Repository {
        let root = Path::new(env!("CARGO_TARGET_TMPDIR")).join(name);
        let _ = fs::remove_dir_all(&root);
        fs::create_dir_all(root.join("bindings/rust")).expect("a folder");
        Repository(root)
    }

    /// A file, which for the script is an archive by its name.
    fn file(&self, name: &str, text: &str) -> PathBuf {
        let path = self.0.join(name);
        fs::create_dir_all(path.parent().expect("a folder")).expect("a folder");
        fs::write(&path, text).expect("a file");
        path
    }

    /// What pkg-config reads after an installation into `prefix`.
    fn installation(&self) -> PathBuf {
        self.file(
            "prefix/lib/pkgconfig/rabtishu.pc",
            "libdir=${pcfiledir}/..\nName: rabtishu\nDescription: test\nVersion: 1\nLibs: -L${libdir} -lrabtishu\n",
        );
        self.file("prefix/lib/librabtishu.a", "")
    }

    /// Runs the script; pkg-config sees nothing but this repository's own installation.
    fn run(&self, archive: Option<&Path>) -> Output {
        let mut command = Command::new(script());
        command
            .env("CARGO_MANIFEST_DIR", self.0.join("bindings/rust"))
            .env("PKG_CONFIG_LIBDIR", self.0.join("prefix/lib/pkgconfig"))
            .env_remove("PKG_CONFIG_PATH")
            .env_remove("RABTISHU_ARCHIVE");
        if let Some(archive) = archive {
            command.env("RABTISHU_ARCHIVE", archive);
        }
        command.output().expect("the script runs")
    }

    /// The archive that the script tells of, where it ends well.
    fn linked(&self, archive: Option<&Path>) -> PathBuf {
        let output = self.run(archive);
        assert!(output.status.success());
        let told = String::from_utf8(output.stdout).expect("text");
        let lines = told.lines();
        let found = lines.filter_map(|line| line.strip_prefix("cargo:archive="));
        let found = found.collect::<Vec<_>>();
        assert_eq!(found.len(), 1);
        PathBuf::from(found[0])
    }

    /// The same file, however the two paths are written.
    fn links(&self, archive: Option<&Path>, expected: &Path) {
        let linked = self.linked(archive).canonicalize();
        assert_eq!(linked.ok(), expected.canonicalize().ok());
    }

    /// What the script says where it finds none.
    fn advice(&self, archive: Option<&Path>) -> String {
        let output = self.run(archive);
        assert_eq!(output.status.code(), Some(1));
        String::from_utf8(output.stderr).expect("text")
    }
}

#[test]
fn the_variable_names_a_file_or_a_folder() {
    let repository = Repository::new("named");
    let (built, other) = (
        repository.file("there/libapi_c.a", ""),
        repository.file("there/other.a", ""),
    );
    repository.links(Some(&repository.0.join("there")), &built);
    repository.links(Some(&built), &built);
    repository.links(Some(&other), &other);
    repository.links(Some(Path::new("../../there")), &built);
}

#[test]
fn an_installed_archive_comes_before_a_built_one_of_its_folder() {
    let repository = Repository::new("both");
    repository.file("there/libapi_c.a", "");
    let installed = repository.file("there/librabtishu.a", "");
    repository.links(Some(&repository.0.join("there")), &installed);
}

#[test]
fn none_links_nothing() {
    let repository = Repository::new("none");
    repository.file("crates/api_c/out/libapi_c.a", "");
    let none = Some(Path::new("none"));
    assert_eq!(repository.linked(none), Path::new("none"));
    let told = repository.run(none).stdout;
    assert!(!String::from_utf8_lossy(&told).contains("rustc-link"));
}

#[test]
fn without_the_variable_the_installed_archive_comes_before_the_built_one() {
    let repository = Repository::new("in order");
    let built = repository.file("crates/api_c/out/libapi_c.a", "");
    repository.links(None, &built);
    repository.links(Some(Path::new("")), &built);
    let installed = repository.installation();
    repository.links(None, &installed);
}

#[test]
fn it_is_linked_under_its_name() {
    let repository = Repository::new("linked");
    let archive = repository.file("there/other.a", "");
    let told = String::from_utf8(repository.run(Some(&archive)).stdout).expect("text");
    let folder = archive.parent().expect("a folder").display();
    assert!(told.contains("cargo:rustc-link-lib=static:+verbatim=other.a\n"));
    assert!(told.contains(&format!("cargo:rustc-link-search=native={folder}\n")));
    assert!(told.contains(&format!("cargo:rerun-if-changed={}\n", archive.display())));
    assert!(told.contains("cargo:rerun-if-env-changed=RABTISHU_ARCHIVE\n"));
}

#[test]
fn a_missing_archive_ends_with_what_to_do() {
    let repository = Repository::new("missing");
    let advice = repository.advice(None);
    assert!(advice.contains("rabtishu: the archive of the proved crates was not found"));
    assert!(advice.contains("pkg-config knows no rabtishu"));
    for way in ["rt lib", "./install", "RABTISHU_ARCHIVE=FOLDER"] {
        assert!(advice.contains(way), "{way}");
    }
    let wrong = repository.0.join("nowhere");
    let advice = repository.advice(Some(&wrong));
    assert!(advice.contains(&format!("RABTISHU_ARCHIVE is {}", wrong.display())));
}

/// A file that is missing is watched, so that the next build finds what was built meanwhile.
#[test]
fn a_missing_archive_is_watched() {
    let repository = Repository::new("watched");
    let told = String::from_utf8(repository.run(None).stdout).expect("text");
    let watched = "crates/api_c/out/libapi_c.a\n";
    assert!(told
        .split_inclusive('\n')
        .any(|line| line.starts_with("cargo:rerun-if-changed=") && line.ends_with(watched)));
}
