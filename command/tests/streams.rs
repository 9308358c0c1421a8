//! Outputs that fail, colours, and what is said and what is not.

mod common;

use common::{bd, command, path, read, section, tool, written};
use std::fs::{self, File};
use std::io::Read;
use std::process::Stdio;

fn full() -> Stdio {
    let full = File::options().write(true).open("/dev/full");
    Stdio::from(full.expect("/dev/full"))
}

/// A full disk is trouble, said once.
#[test]
fn a_full_disk_is_said_once() {
    let long = written("full.rsx", &section(0x8000, &[0xe1a0_0000; 4096]));
    for arguments in [
        &["list", "examples/flash/O2.rsx"][..],
        &["list", &long, &long, "examples/flash/O2.rsx"],
        &["list", &long, "--format", "json"],
        &["list", &long, "--annotate"],
        &["cut", &long, "-o", "-"],
        &["convert", &long, "--to", "2", "-o", "-"],
        &["walk", &long, "--entry", "0"],
        &["walk", &long, "--entry", "0", "--format", "dot"],
        &["count", &long],
        &["callers", "examples/flash/O2.rsx"],
        &["home", &long, "-o", "-"],
        &["diff", &long, "examples/flash/O2.rsx"],
        &["explain", "e1a00000"],
        &["encode", "mov r0 r0 next"],
        &["completions", "bash"],
    ] {
        let output = command(arguments)
            .stdin(Stdio::null())
            .stdout(full())
            .output();
        let output = output.expect("bd runs");
        let said = String::from_utf8_lossy(&output.stderr);
        assert_eq!(output.status.code(), Some(2), "{arguments:?}: {said}");
        assert_eq!(said.lines().count(), 1, "{arguments:?}: {said}");
        assert!(
            said.starts_with("bd: error: the output can't be written: "),
            "{said}"
        );
    }
    for arguments in [["--version"], ["--help"]] {
        let output = command(&arguments)
            .stdout(full())
            .output()
            .expect("bd runs");
        assert_eq!(output.status.code(), Some(2), "{arguments:?}");
    }
}

/// Where standard error is full too, the status is what is left.
#[test]
fn a_full_standard_error_does_no_harm() {
    let status = command(&["list", "nothing.rsx"]).stderr(full()).status();
    assert_eq!(status.expect("bd runs").code(), Some(2));
    let strange = written("strange.rsx", &section(0x8000, &[0xe001_5392]));
    let out = path("home.rsx");
    let mut home = command(&["home", &strange, "-o", &out]);
    assert_eq!(
        home.stderr(full()).status().expect("bd runs").code(),
        Some(2)
    );
}

/// As if the signal had ended it, and without a word. All of these write more than a pipe holds.
#[test]
fn a_closed_pipe_ends_it() {
    let long = written("piped.rsx", &section(0x8000, &[0xe1a0_0000; 4096]));
    for arguments in [
        &["list", &long, &long][..],
        &["list", &long, "--annotate"],
        &["list", &long, "--format", "json"],
        &["walk", &long, "--entry", "0"],
    ] {
        let mut command = command(arguments);
        let piped = command
            .stdin(Stdio::null())
            .stdout(Stdio::piped())
            .stderr(Stdio::piped());
        let mut child = piped.spawn().expect("bd runs");
        let mut out = child.stdout.take().expect("its output");
        out.read_exact(&mut [0; 10]).expect("ten bytes");
        drop(out);
        let output = child.wait_with_output().expect("it ends");
        assert_eq!(output.status.code(), Some(141), "{arguments:?}");
        assert_eq!(String::from_utf8_lossy(&output.stderr), "");
    }
}

#[test]
fn an_output_that_cannot_be_written_is_said() {
    let file = "examples/flash/O2.rsx";
    let out = path("no such folder/out.rsx");
    bd(&["cut", file, "-o", &out]).refused("can't be written: ");
    bd(&["convert", file, "--to", "2", "-o", &out]).refused("can't be written: ");
    bd(&["home", file, "-o", &out]).refused("can't be written: ");
    bd(&["home", file, "-o", "-", "--changes", &out]).refused("can't be written: ");
    bd(&["cut", file, "-o", "/dev/full"]).refused("/dev/full can't be written: ");
    // Nothing is written where something is refused.
    let out = path("refused.rsx");
    let _ = fs::remove_file(&out);
    bd(&["cut", "LICENSE", "-o", &out]).refused("LICENSE is no section");
    assert!(fs::metadata(&out).is_err());
}

#[test]
fn an_input_that_cannot_be_read_is_said() {
    bd(&["list", "docs"]).refused("docs is a folder");
    bd(&["list", "docs/"]).refused("docs/ is a folder");
    bd(&["list", "no/such/file"]).refused("there is no file no/such/file");
    bd(&["list", "LICENSE/file"]).refused("LICENSE/file can't be read: ");
}

/// Warnings are quiet with --quiet, before or after the command, and trouble is not.
#[test]
fn quiet_says_what_went_wrong_alone() {
    let bare = written("bare.elf", &common::made::elf(0x8000, &[0xe1a0_0000], &[]));
    bd(&["list", &bare]).saying(0, "bd: warning: ");
    bd(&["list", &bare, "--quiet"]).quietly(0);
    bd(&["-q", "list", &bare]).quietly(0);
    bd(&["-q", "list", "nothing.rsx"]).refused("bd: error: there is no file nothing.rsx");
}

/// Colours are for a terminal, and not where NO_COLOR says so.
#[test]
fn colours_are_for_a_terminal() {
    let differ = ["diff", "examples/flash/O2.rsx", "examples/flash/Os.rsx"];
    let piped = bd(&differ);
    assert_eq!(piped.status, 1);
    assert!(!piped.text().contains('\x1b'));
    let bd = env!("CARGO_BIN_EXE_bd");
    let on_terminal = |before: &str| {
        let line = format!("{before} '{bd}' {}", differ.join(" "));
        let log = path("terminal");
        // It ends as the command does, which is with 1.
        tool("script", &["-q", "-c", &line, &log]);
        String::from_utf8_lossy(&read(&log)).into_owned()
    };
    assert!(on_terminal("").contains("\x1b[31m- "));
    assert!(on_terminal("NO_COLOR=").contains("\x1b[31m- "));
    assert!(!on_terminal("NO_COLOR=1").contains('\x1b'));
}
