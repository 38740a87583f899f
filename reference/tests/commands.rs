//! The command line: what is printed where, and with which status.

use std::ffi::{OsStr, OsString};
use std::fs::{self, File};
use std::io::Write;
use std::os::unix::ffi::OsStringExt;
use std::path::PathBuf;
use std::process::{Command, Output, Stdio};

const DAY: &str = "brake 3\nblur 1\ntrain 500 500 500 2000 100\ntrain 380 380 380 398 80\n\
                   tick 1 wish 5 speed 5\ntick 1 wish 7 speed 2\n";
const PRINTED: &str = "1 drives 5 at 385\n1 brakes 2 at 387\n2 gaps, smallest 13\n";

/// A folder with the files `day`, `bad` (its second event cannot be), `none` (empty) and `bytes` (no text).
fn folder(name: &str) -> PathBuf {
    let folder = PathBuf::from(env!("CARGO_TARGET_TMPDIR")).join(name);
    fs::create_dir_all(&folder).unwrap();
    let bad = DAY.replace("speed 2", "speed 3");
    let files = [
        ("day", DAY.as_bytes()),
        ("bad", bad.as_bytes()),
        ("none", b""),
        ("bytes", b"brake 3\n# \xe2\x82\n"),
        ("-q", DAY.as_bytes()),
    ];
    for (file, bytes) in files {
        fs::write(folder.join(file), bytes).unwrap();
    }
    folder
}

fn command(name: &str, arguments: &[impl AsRef<OsStr>]) -> Command {
    let mut command = Command::new(env!("CARGO_BIN_EXE_reference"));
    command.current_dir(folder(name)).args(arguments);
    command
}

/// Standard output, standard error and the status, where standard input has the day.
fn run(name: &str, arguments: &[impl AsRef<OsStr>]) -> (String, String, i32) {
    let mut child = command(name, arguments)
        .stdin(Stdio::piped())
        .stdout(Stdio::piped())
        .stderr(Stdio::piped())
        .spawn()
        .unwrap();
    // A program that is refused its arguments may be gone before it is given anything.
    let _ = child.stdin.take().unwrap().write_all(DAY.as_bytes());
    let Output {
        status,
        stdout,
        stderr,
    } = child.wait_with_output().unwrap();
    let text = |bytes| String::from_utf8(bytes).unwrap();
    (text(stdout), text(stderr), status.code().unwrap())
}

fn prints(name: &str, arguments: &[&str], stdout: &str, stderr: &str, status: i32) {
    let expected = (stdout.to_owned(), stderr.to_owned(), status);
    assert_eq!(run(name, arguments), expected, "{arguments:?}");
}

#[test]
fn files_and_options() {
    let prints = |arguments: &[&str], stdout: &str| prints("files", arguments, stdout, "", 0);
    let quiet = "2 gaps, smallest 13\n";
    prints(&[], PRINTED);
    prints(&["-"], PRINTED);
    prints(&["--"], PRINTED);
    prints(&["--", "-"], PRINTED);
    prints(&["day"], PRINTED);
    prints(&["--", "-q"], PRINTED);
    prints(&["--quiet", "day"], quiet);
    prints(&["--quiet"], quiet);
    let both = format!("== day\n{PRINTED}== -\n{PRINTED}");
    prints(&["day", "-"], &both);
    prints(
        &["--quiet", "day", "-q"],
        &format!("== day\n{quiet}== -q\n{quiet}"),
    );
    prints(&["--check"], "-: taken: 2 gaps, smallest 13\n");
}

#[test]
fn a_refusal_ends_the_program() {
    let ticks = "1 drives 5 at 385\n";
    let bad = "bench: bad:6: refused 10 at 5: the speed can be at most 2\n";
    let none = "bench: none: refused 1 at 0: a brake is from 1 to 100\n";
    let bytes = "bench: bytes: is no text: byte 10 is not UTF-8\n";
    let missing = "bench: gone: cannot be read: No such file or directory (os error 2)\n";
    prints("refused", &["bad"], ticks, bad, 1);
    prints(
        "refused",
        &["bad", "day"],
        &format!("== bad\n{ticks}"),
        bad,
        1,
    );
    prints("refused", &["none"], "", none, 1);
    prints("refused", &["bytes"], "", bytes, 1);
    prints("refused", &["gone", "day"], "== gone\n", missing, 1);
    let after = format!("== day\n{PRINTED}== --quiet\n");
    let option = missing.replace("gone", "--quiet");
    prints("refused", &["day", "--quiet"], &after, &option, 1);
}

#[test]
fn check_goes_on() {
    let said = "bad:6: refused 10 at 5: the speed can be at most 2\n\
                none: refused 1 at 0: a brake is from 1 to 100\n\
                bytes: is no text: byte 10 is not UTF-8\n\
                gone: cannot be read: No such file or directory (os error 2)\n\
                .: cannot be read: Is a directory (os error 21)\n\
                : cannot be read: No such file or directory (os error 2)\n\
                day: taken: 2 gaps, smallest 13\n";
    let files = ["--check", "bad", "none", "bytes", "gone", ".", "", "day"];
    prints("check", &files, said, "", 0);
}

#[test]
fn options_that_there_are_not() {
    for option in ["-q", "--random", "--quiet=1", "--Check"] {
        let error = format!(
            "bench: there is no option '{option}': bench --help tells those that there are\n"
        );
        prints("options", &[option, "day"], "", &error, 2);
        prints("options", &["--check", option], "", &error, 2);
        prints("options", &["--help", option], "", &error, 2);
    }
    let no_text = OsString::from_vec(b"d\xffy".to_vec());
    let (stdout, stderr, status) = run("options", &[OsString::from("day"), no_text]);
    let error = "bench: there is no option 'd\u{fffd}y': bench --help tells those that there are\n";
    assert_eq!((stdout.as_str(), stderr.as_str(), status), ("", error, 2));
}

#[test]
fn help_and_version() {
    for option in ["--help", "--version"] {
        let (stdout, stderr, status) = run("help", &[option]);
        assert!(stdout.contains("bench") && stdout.ends_with('\n'));
        assert_eq!((stderr.as_str(), status), ("", 0));
    }
}

/// Nothing can be written to /dev/full, which there is on Linux.
#[test]
fn what_cannot_be_written() {
    let full = "bench: what it prints cannot be written: No space left on device (os error 28)\n";
    for arguments in [
        ["--quiet", "day"],
        ["--check", "day"],
        ["--", "bad"],
        ["--help", "-"],
    ] {
        let output = command("full", &arguments)
            .stdout(File::options().write(true).open("/dev/full").unwrap())
            .output()
            .unwrap();
        assert_eq!(output.status.code(), Some(1), "{arguments:?}");
        assert_eq!(String::from_utf8(output.stderr).unwrap(), full);
    }
}
