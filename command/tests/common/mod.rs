//! What the tests of bd share: running it, the tools that make ELF files, and a folder for what is written.

#![allow(dead_code)] // no test uses all of it

pub mod made;

use std::fs;
use std::io::Write;
use std::path::{Path, PathBuf};
use std::process::{Command, Output, Stdio};
use std::sync::OnceLock;

/// What a call gave.
pub struct Given {
    pub status: i32,
    pub out: Vec<u8>,
    pub err: String,
}

impl Given {
    pub fn text(&self) -> &str {
        std::str::from_utf8(&self.out).expect("a text")
    }

    /// The output of a call that ended so, and said nothing else.
    #[track_caller]
    pub fn quietly(self, status: i32) -> String {
        assert_eq!((self.status, self.err.as_str()), (status, ""));
        self.text().into()
    }

    /// The same of one that said one line, of which this is a part.
    #[track_caller]
    pub fn saying(self, status: i32, part: &str) -> String {
        assert_eq!(self.status, status, "{}", self.err);
        assert_eq!(self.err.lines().count(), 1, "{}", self.err);
        assert!(self.err.contains(part), "{}", self.err);
        self.text().into()
    }

    /// A call that was refused, in one line, with nothing on standard output.
    #[track_caller]
    pub fn refused(self, part: &str) {
        let said = self.saying(2, part);
        assert_eq!(said, "");
    }
}

fn given(output: Output) -> Given {
    Given {
        status: output.status.code().unwrap_or(-1),
        out: output.stdout,
        err: String::from_utf8_lossy(&output.stderr).into_owned(),
    }
}

pub fn command(arguments: &[&str]) -> Command {
    let mut command = Command::new(env!("CARGO_BIN_EXE_bd"));
    command.args(arguments).current_dir(root());
    command
}

/// Runs bd at the root of the repository.
pub fn bd(arguments: &[&str]) -> Given {
    let output = command(arguments).stdin(Stdio::null()).output();
    given(output.expect("bd runs"))
}

/// The same with something on standard input.
pub fn bd_reads(arguments: &[&str], input: &[u8]) -> Given {
    let mut command = command(arguments);
    let piped = command
        .stdin(Stdio::piped())
        .stdout(Stdio::piped())
        .stderr(Stdio::piped());
    let mut child = piped.spawn().expect("bd runs");
    let mut stdin = child.stdin.take().expect("its input");
    let input = input.to_vec();
    let writer = std::thread::spawn(move || {
        // It need not read all of it.
        let _ = stdin.write_all(&input);
    });
    let output = child.wait_with_output().expect("its output");
    writer.join().expect("the writer ends");
    given(output)
}

/// The root of the repository.
pub fn root() -> PathBuf {
    Path::new(env!("CARGO_MANIFEST_DIR"))
        .parent()
        .expect("it is in the repository")
        .into()
}

/// The tools that make ELF files, and the packages of Debian that have them.
const TOOLS: [(&str, &str); 9] = [
    ("arm-none-eabi-gcc", "gcc-arm-none-eabi"),
    ("arm-none-eabi-g++", "gcc-arm-none-eabi"),
    ("arm-none-eabi-ld", "binutils-arm-none-eabi"),
    ("arm-none-eabi-strip", "binutils-arm-none-eabi"),
    ("arm-none-eabi-ar", "binutils-arm-none-eabi"),
    ("clang", "clang"),
    ("ld.lld", "lld"),
    ("dot", "graphviz"),
    ("script", "bsdutils"),
];

/// Runs a tool. Where it is missing the test fails, with a line by which `command/check` tells that from all else.
#[track_caller]
pub fn tool(name: &str, arguments: &[&str]) -> Vec<u8> {
    let (_, package) = TOOLS
        .iter()
        .find(|(tool, _)| *tool == name)
        .expect("a tool of the list");
    let mut command = Command::new(name);
    command.args(arguments).current_dir(root());
    match command.output() {
        Err(error) if error.kind() == std::io::ErrorKind::NotFound => {
            panic!("\nlacks: there is no command {name}: Debian's package {package} has it")
        }
        Err(error) => panic!("{name}: {error}"),
        Ok(output) => {
            let said = String::from_utf8_lossy(&output.stderr);
            assert!(output.status.success(), "{command:?}: {said}");
            output.stdout
        }
    }
}

/// A folder of this file of tests; each name in it is used by one of them.
pub fn folder() -> &'static Path {
    static FOLDER: OnceLock<PathBuf> = OnceLock::new();
    FOLDER.get_or_init(|| {
        let folder = Path::new(env!("CARGO_TARGET_TMPDIR")).join(env!("CARGO_CRATE_NAME"));
        fs::create_dir_all(&folder).expect("a folder");
        folder
    })
}

/// The path of a file in it.
pub fn path(name: &str) -> String {
    folder()
        .join(name)
        .to_str()
        .expect("a path of UTF-8")
        .into()
}

/// Writes a file, and gives its path.
pub fn written(name: &str, bytes: &[u8]) -> String {
    let path = path(name);
    fs::write(&path, bytes).expect("it can be written");
    path
}

pub fn read(path: &str) -> Vec<u8> {
    fs::read(root().join(path)).unwrap_or_else(|error| panic!("{path}: {error}"))
}

/// The library's own listing of a section.
pub fn listing(section: &[u8]) -> String {
    let mut out = vec![0; brassdozen::LISTING];
    let length = brassdozen::listing(section, &mut out).expect("a buffer that is long enough");
    String::from_utf8(out[..length].to_vec()).expect("a text")
}

/// A section of version 1.
pub fn section(base: u32, words: &[u32]) -> Vec<u8> {
    let mut bytes = b"RSX\x01\x00".to_vec();
    bytes.extend(base.to_le_bytes());
    bytes.extend(words.iter().flat_map(|word| word.to_le_bytes()));
    bytes
}

/// A section of version 2.
pub fn section_2(base: u32, ranges: &[(u32, u32)], words: &[u32]) -> Vec<u8> {
    let mut bytes = b"RSX\x02\x00".to_vec();
    bytes.extend(base.to_le_bytes());
    bytes.extend((ranges.len() as u16).to_le_bytes());
    for (first, length) in ranges {
        bytes.extend(first.to_le_bytes());
        bytes.extend(length.to_le_bytes());
    }
    bytes.extend(words.iter().flat_map(|word| word.to_le_bytes()));
    bytes
}
