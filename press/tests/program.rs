//! The program: what it says, its exit status, and that no file is ever half written.

mod common;

use common::{bytes, folder, refusals, sample};
use std::fs::{self, File, Permissions};
use std::os::unix::fs::{PermissionsExt, symlink};
use std::path::Path;
use std::process::{Command, Output, Stdio};

const PRESS: &str = env!("CARGO_BIN_EXE_press");

fn press<W: AsRef<std::ffi::OsStr>>(words: &[W]) -> Output {
    Command::new(PRESS)
        .args(words)
        .output()
        .expect("the program")
}

/// Status, standard output and standard error.
fn ended(output: Output) -> (i32, String, String) {
    let text = |bytes| String::from_utf8(bytes).expect("plain words");
    (
        output.status.code().expect("no signal"),
        text(output.stdout),
        text(output.stderr),
    )
}

fn text(path: &Path) -> &str {
    path.to_str().expect("a plain path")
}

/// The names in a folder.
fn names(folder: &Path) -> Vec<String> {
    let each = fs::read_dir(folder)
        .expect("a folder")
        .map(|entry| entry.expect("an entry").file_name());
    let mut names: Vec<_> = each
        .map(|name| name.into_string().expect("a plain name"))
        .collect();
    names.sort();
    names
}

#[test]
fn check_accepts_and_refuses() {
    let (status, out, err) = ended(press(&["check", text(&sample("distances.frame"))]));
    assert_eq!(
        (status, out.as_str(), err.as_str()),
        (0, "accepted: 25 points, 48 rows\n", "")
    );
    let (status, out, err) = ended(press(&["check", text(&sample("refused.frame"))]));
    assert_eq!((status, err.as_str()), (1, ""));
    assert_eq!(
        out,
        "refused 5 at 1012: row 2 of 27 (scalar): rest is plus infinity, not finite\n"
    );
}

#[test]
fn refusals_in_words() {
    let folder = folder("refusals");
    let file = folder.join("a.frame");
    for (frame, number, place, words) in refusals() {
        fs::write(&file, &frame).expect("a file");
        for command in ["check", "show", "run"] {
            let (status, out, err) = ended(press(&[command, text(&file)]));
            assert_eq!((status, err.as_str()), (1, ""));
            assert!(
                out.starts_with(&format!("refused {number} at {place}: {words}")),
                "{out}"
            );
        }
        assert!(fs::read(&file).expect("it is there") == frame, "{words}");
    }
    assert_eq!(names(&folder), ["a.frame"]);
}

#[test]
fn run_writes_beside_or_back() {
    let folder = folder("run");
    let (file, out) = (folder.join("a.frame"), folder.join("b.frame"));
    let (before, after) = (bytes("mixed.frame"), bytes("after/mixed.frame"));
    fs::write(&file, &before).expect("a file");
    let (status, said, err) = ended(press(&["run", text(&file), "-o", text(&out)]));
    assert_eq!((status, err.as_str()), (0, ""));
    assert_eq!(
        said,
        format!("ran 32 points, 90 rows; wrote {}\n", out.display())
    );
    assert!(fs::read(&file).expect("it is there") == before);
    assert!(fs::read(&out).expect("it is there") == after);
    // Back to the file; its permissions stay.
    fs::set_permissions(&file, Permissions::from_mode(0o640)).expect("permissions");
    assert_eq!(ended(press(&["run", text(&file)])).0, 0);
    assert!(fs::read(&file).expect("it is there") == after);
    let mode = fs::metadata(&file)
        .expect("it is there")
        .permissions()
        .mode();
    assert_eq!(mode & 0o777, 0o640);
    assert_eq!(names(&folder), ["a.frame", "b.frame"]);
}

#[test]
fn a_link_stays_a_link() {
    let folder = folder("link");
    let (file, link) = (folder.join("a.frame"), folder.join("link"));
    fs::write(&file, bytes("volumes.frame")).expect("a file");
    symlink("a.frame", &link).expect("a link");
    assert_eq!(ended(press(&["run", text(&link)])).0, 0);
    assert!(
        fs::symlink_metadata(&link)
            .expect("it is there")
            .is_symlink()
    );
    assert!(fs::read(&file).expect("it is there") == bytes("after/volumes.frame"));
}

#[test]
fn a_refused_frame_writes_nothing() {
    let folder = folder("refused");
    let out = folder.join("out");
    let refused = sample("refused.frame");
    let run = || ended(press(&["run", text(&refused), "-o", text(&out)])).0;
    assert_eq!(run(), 1);
    assert!(names(&folder).is_empty());
    fs::write(&out, "old").expect("a file");
    assert_eq!(run(), 1);
    assert_eq!(fs::read(&out).expect("it is there"), b"old");
}

#[test]
fn a_run_that_ends_with_a_nan_says_so() {
    let folder = folder("nan");
    let file = folder.join("a.frame");
    let mut frame = bytes("distances.frame");
    // Two points as far apart as f32 goes: their distance is infinite.
    for point in 0..25 {
        let far = if point % 2 == 0 { f32::MAX } else { f32::MIN };
        common::put(
            &mut frame,
            common::POINTS + point * 30 + 6,
            &far.to_le_bytes(),
        );
    }
    fs::write(&file, &frame).expect("a file");
    let (status, out, err) = ended(press(&["run", text(&file)]));
    assert_eq!((status, err.as_str()), (0, ""));
    assert!(
        out.contains("\nrun again it would be refused 5 at "),
        "{out}"
    );
}

#[test]
fn show_counts() {
    let (status, out, err) = ended(press(&["show", text(&sample("after/mixed.frame"))]));
    assert_eq!((status, err.as_str()), (0, ""));
    for line in [
        "rows              90\n",
        "mode              3 (update and warm start)\n",
        "overflow  ",
    ] {
        assert!(out.contains(line), "{out}");
    }
    assert!(out.contains("strained rows: "), "{out}");
}

#[test]
fn files_that_cannot_be_read() {
    let folder = folder("unread");
    let missing = folder.join("missing");
    for command in ["check", "run", "show"] {
        let (status, out, err) = ended(press(&[command, text(&missing)]));
        assert_eq!((status, out.as_str()), (2, ""));
        assert!(
            err.starts_with(&format!("press: {}: No such file", missing.display())),
            "{err}"
        );
        let (status, out, err) = ended(press(&[command, text(&folder)]));
        assert_eq!((status, out.as_str()), (2, ""));
        assert!(err.contains("Is a directory"), "{err}");
    }
    assert!(names(&folder).is_empty());
    // It can be opened, but not read.
    let (status, out, err) = ended(press(&["check", "/proc/self/mem"]));
    assert_eq!((status, out.as_str()), (2, ""));
    assert!(err.starts_with("press: /proc/self/mem: "), "{err}");
    // Without end: only as much is read as can make a difference.
    let (status, out, _) = ended(press(&["check", "/dev/zero"]));
    assert_eq!(status, 1);
    assert!(
        out.starts_with("refused 2 at 0: the head: kind 0 with length 0"),
        "{out}"
    );
}

#[test]
fn files_that_cannot_be_written() {
    let folder = folder("unwritten");
    let file = folder.join("a.frame");
    let before = bytes("mixed.frame");
    fs::write(&file, &before).expect("a file");
    let nowhere = folder.join("no folder").join("out");
    // A device that is full, a folder that is not there, a folder in place of a file, and a folder where none can make files.
    let outs = ["/dev/full", text(&nowhere), text(&folder), "/proc/out"];
    for (out, why) in outs
        .iter()
        .zip(["No space left", "No such file", "Is a directory", ""])
    {
        let (status, said, err) = ended(press(&["run", text(&file), "-o", out]));
        assert_eq!((status, said.as_str()), (2, ""), "{out}: {err}");
        assert!(err.starts_with(&format!("press: {out}: {why}")), "{err}");
    }
    assert!(
        Path::new("/dev/full")
            .metadata()
            .is_ok_and(|it| !it.is_file())
    );
    assert_eq!(names(&folder), ["a.frame"]);
    assert!(fs::read(&file).expect("it is there") == before);
}

/// The writing stops in the middle: no file may be larger than some blocks.
#[test]
fn a_write_that_fails_halfway() {
    let folder = folder("halfway");
    let (file, out) = (folder.join("a.frame"), folder.join("out"));
    let before = bytes("mixed.frame");
    fs::write(&file, &before).expect("a file");
    fs::write(&out, "old").expect("a file");
    let limited = |words: &str| {
        let script = format!("trap '' XFSZ; ulimit -f 8; exec \"{PRESS}\" {words}");
        ended(
            Command::new("sh")
                .args(["-c", &script])
                .output()
                .expect("a shell"),
        )
    };
    let (status, said, err) = limited(&format!("run '{}'", file.display()));
    assert_eq!((status, said.as_str()), (2, ""), "{err}");
    assert!(err.contains("File too large"), "{err}");
    assert_eq!(
        limited(&format!("run '{}' -o '{}'", file.display(), out.display())).0,
        2
    );
    assert!(fs::read(&file).expect("it is there") == before);
    assert_eq!(fs::read(&out).expect("it is there"), b"old");
    assert_eq!(names(&folder), ["a.frame", "out"]);
}

#[test]
fn output_that_cannot_be_said() {
    for words in [&["check"][..], &["show"]] {
        let full = File::options()
            .write(true)
            .open("/dev/full")
            .expect("a full device");
        let mut command = Command::new(PRESS);
        command
            .args(words)
            .arg(sample("mixed.frame"))
            .stdout(Stdio::from(full))
            .stderr(Stdio::piped());
        let (status, _, err) = ended(command.output().expect("the program"));
        assert_eq!(status, 2);
        assert!(err.starts_with("press: standard output: "), "{err}");
    }
}

#[test]
fn usage() {
    let frame = sample("mixed.frame");
    let frame = text(&frame);
    let wrong: [&[&str]; 9] = [
        &[],
        &["press"],
        &["check"],
        &["check", frame, frame],
        &["check", frame, "-o", "out"],
        &["run", frame, "-o"],
        &["run", frame, "-o", "a", "-o", "b"],
        &["run", "-x", frame],
        &["show", "--", "-o", frame],
    ];
    for words in wrong {
        let (status, out, err) = ended(press(words));
        assert_eq!((status, out.as_str()), (2, ""), "{words:?}");
        assert!(
            err.starts_with("press: ") && err.contains("press run FILE [-o OUT]"),
            "{err}"
        );
    }
    for word in ["help", "--help", "-h"] {
        let (status, out, err) = ended(press(&[word]));
        assert_eq!((status, err.as_str()), (0, ""));
        assert!(out.starts_with("press check FILE"), "{out}");
    }
    assert_eq!(ended(press(&["check", "--", frame])).0, 0);
}
