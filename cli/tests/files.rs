//! Files that are missing, empty, folders, too long, or have no room: plain words, and nothing half
//! written.

mod common;

use std::fs;
use std::io::Write;
use std::path::Path;
use std::process::{Command, Stdio};

use common::{command, status, tally, Folder};

/// Standard error, and that nothing was printed besides.
fn trouble(folder: &Folder, arguments: &[&str], expected: i32) -> String {
    let output = folder.run(arguments);
    let words = String::from_utf8(output.stderr.clone()).expect("UTF-8");
    assert_eq!(status(&output), expected, "{arguments:?}: {words}");
    assert_eq!(output.stdout, b"", "{arguments:?}");
    assert!(!words.contains("panicked"), "{words}");
    words
}

#[test]
fn every_command_on_missing_files_and_folders() {
    let folder = Folder::new();
    fs::create_dir(folder.path().join("sub")).expect("a folder");
    folder.put("process.vhd", tally().as_bytes());
    for path in ["none", "sub"] {
        let why = if path == "sub" {
            "it is a directory"
        } else {
            "there is no such file"
        };
        let asked: [&[&str]; 8] = [
            &["check", path],
            &["compile", path, "-o", "x"],
            &["trace", path, "process.vhd"],
            &["run", path, "process.vhd"],
            &["show", path],
            &["move", path, "--form", "1", "-o", "x"],
            &["show", "--names", "process.vhd", path],
            &["run", path, "process.vhd", "--keep", "y"],
        ];
        for arguments in asked {
            assert!(
                trouble(&folder, arguments, 2).contains(why),
                "{arguments:?}"
            );
        }
    }
    assert!(trouble(&folder, &["report", "sub"], 2).contains("there is no such file"));
    assert_eq!(folder.names(), ["process.vhd", "sub"]);
}

/// The trace begins with its header before the rows are opened only where they can be.
#[test]
fn missing_rows() {
    let folder = Folder::new();
    folder.put("process.vhd", tally().as_bytes());
    assert!(
        trouble(&folder, &["trace", "process.vhd", "none"], 2).contains("there is no such file")
    );
    assert!(trouble(&folder, &["trace", "process.vhd", "."], 2).contains("it is a directory"));
}

#[test]
fn empty_and_long_files() {
    let folder = Folder::new();
    folder.put("empty", b"");
    folder.put("long", &b" ".repeat(16_385));
    folder.put("huge", &b" ".repeat(10 << 20));
    assert!(trouble(&folder, &["check", "empty"], 1).contains("ends too early"));
    assert!(trouble(&folder, &["check", "long"], 1).contains("16385 bytes"));
    assert!(trouble(&folder, &["check", "huge"], 1).contains("10485760 bytes"));
    assert!(trouble(&folder, &["compile", "huge", "-o", "x"], 1).contains("refused[1]"));
    for file in ["empty", "long", "huge"] {
        assert!(
            trouble(&folder, &["show", file], 1).contains("refused[11]"),
            "{file}"
        );
    }
    folder.put("process.vhd", tally().as_bytes());
    let rows = folder.run(&["trace", "process.vhd", "huge"]);
    assert_eq!(
        (status(&rows), rows.stdout.as_slice()),
        (0, &b"cycle wait lines total\n0 refused 14\n"[..])
    );
    assert_eq!(folder.names(), ["empty", "huge", "long", "process.vhd"]);
}

/// What stood at the output's place stays until the new image is whole.
#[test]
fn a_refused_compile_keeps_the_old_image() {
    let folder = Folder::new();
    folder.put("process.vhd", tally().replace("s + d", "s + e").as_bytes());
    folder.put("board.image", b"old");
    assert!(
        trouble(&folder, &["compile", "process.vhd", "-o", "board.image"], 1)
            .contains("refused[5]")
    );
    assert_eq!(folder.get("board.image"), b"old");
    folder.put("process.vhd", tally().as_bytes());
    assert_eq!(
        status(&folder.run(&["compile", "process.vhd", "-o", "board.image"])),
        0
    );
    assert_eq!(folder.get("board.image").len(), 134);
    assert_eq!(folder.names(), ["board.image", "process.vhd"]);
}

#[cfg(unix)]
#[test]
fn links_keep_pointing() {
    let folder = Folder::new();
    folder.put("process.vhd", tally().as_bytes());
    folder.put("kept.image", b"old");
    std::os::unix::fs::symlink("kept.image", folder.path().join("link.image")).expect("a link");
    assert_eq!(
        status(&folder.run(&["compile", "process.vhd", "-o", "link.image"])),
        0
    );
    assert_eq!(folder.get("kept.image").len(), 134);
    assert!(folder.path().join("link.image").is_symlink());
}

#[test]
fn standard_input_and_output() {
    let mut child = command(&["compile", "-", "-o", "-"])
        .stdin(Stdio::piped())
        .stdout(Stdio::piped())
        .spawn()
        .expect("it runs");
    child
        .stdin
        .take()
        .expect("a pipe")
        .write_all(tally().as_bytes())
        .expect("written");
    let output = child.wait_with_output().expect("it ends");
    assert_eq!((status(&output), output.stdout.len()), (0, 134));
}

/// A full disk leaves no half image, and the old one as it was. It takes root to mount a small one.
#[test]
fn a_full_disk_leaves_no_half_image() {
    let folder = Folder::new();
    let disk = folder.path().join("disk");
    fs::create_dir(&disk).expect("a folder");
    let mounted = Command::new("mount")
        .args(["-t", "tmpfs", "-o", "size=8k", "none"])
        .arg(&disk)
        .output();
    if !mounted.is_ok_and(|output| output.status.success()) {
        eprintln!("files: no small disk can be mounted here");
        return;
    }
    let held = std::panic::catch_unwind(|| on_small_disk(&folder, &disk));
    let _ = Command::new("umount").arg(&disk).output();
    held.expect("the test on the small disk");
}

fn on_small_disk(folder: &Folder, disk: &Path) {
    folder.put("process.vhd", tally().as_bytes());
    fs::write(disk.join("board.image"), b"old").expect("a small file fits");
    let filled = fs::write(disk.join("filler"), [0; 4096]);
    assert!(filled.is_ok() && fs::write(disk.join("more"), [0; 4096]).is_err());
    let output = folder.run(&["compile", "process.vhd", "-o", "disk/board.image"]);
    assert_eq!(status(&output), 2);
    assert!(String::from_utf8_lossy(&output.stderr).contains("the disk is full"));
    assert_eq!(
        fs::read(disk.join("board.image")).expect("the old image"),
        b"old"
    );
    let names = fs::read_dir(disk).expect("the disk");
    let hidden = names.filter(|name| {
        name.as_ref()
            .is_ok_and(|name| name.file_name().to_string_lossy().starts_with('.'))
    });
    assert_eq!(hidden.count(), 0);
}

/// A reader that goes away early, as `head` does, is no trouble.
#[test]
fn a_closed_output_is_no_trouble() {
    let folder = Folder::new();
    folder.put("process.vhd", tally().as_bytes());
    folder.put("rows.txt", "7\n".repeat(200_000).as_bytes());
    let mut child = command(&["trace", "process.vhd", "rows.txt"])
        .current_dir(folder.path())
        .stdout(Stdio::piped())
        .stderr(Stdio::piped())
        .spawn()
        .expect("it runs");
    drop(child.stdout.take());
    let output = child.wait_with_output().expect("it ends");
    assert_eq!((status(&output), output.stderr.as_slice()), (0, &b""[..]));
}
