//! What a command says beside its data, and how it ends.

use std::borrow::Cow;
use std::cell::RefCell;
use std::collections::BTreeSet;
use std::fmt::{self, Display};
use std::io::{self, IsTerminal, Write};

/// How a command ends: the status that a build relies on.
#[derive(Debug, Clone, Copy, PartialEq, Eq)]
pub enum Status {
    /// Done, and nothing found.
    Done = 0,
    /// Something found: a way out, a difference.
    Found = 1,
    /// Trouble: wrong usage, a file that can't be read, a section that is refused.
    Trouble = 2,
    /// Undecided: behind something nothing is known.
    Undecided = 3,
}

impl Status {
    /// The graver of the two: trouble, then found, then undecided.
    pub fn and(self, other: Status) -> Status {
        let gravity = |status| match status {
            Status::Done => 0,
            Status::Undecided => 1,
            Status::Found => 2,
            Status::Trouble => 3,
        };
        if gravity(self) < gravity(other) {
            other
        } else {
            self
        }
    }
}

/// What went wrong, in one line that says what it is and what to do.
#[derive(Debug)]
pub enum Trouble {
    Said(String),
    /// The output can't be written, so there is no use in going on.
    Unwritten(String),
    /// Nobody reads the output any more.
    Closed,
}

pub type Result<T> = std::result::Result<T, Trouble>;

impl Display for Trouble {
    fn fmt(&self, f: &mut fmt::Formatter<'_>) -> fmt::Result {
        match self {
            Trouble::Said(line) | Trouble::Unwritten(line) => f.write_str(line),
            Trouble::Closed => f.write_str("nobody reads the output"),
        }
    }
}

/// Writing is what fails here: what is read says itself which file it is.
impl From<io::Error> for Trouble {
    fn from(error: io::Error) -> Trouble {
        if error.kind() == io::ErrorKind::BrokenPipe {
            Trouble::Closed
        } else {
            Trouble::Unwritten(format!("the output can't be written: {error}"))
        }
    }
}

/// Trouble, said as `format!` says it.
#[macro_export]
macro_rules! trouble {
    ($($text:tt)*) => { $crate::say::Trouble::Said(format!($($text)*)) };
}

/// Speaks on standard error. Where that can't be written either, nothing is left to be said.
pub struct Voice {
    pub quiet: bool,
    /// Whether colours and progress have a terminal to go to.
    pub terminal: bool,
    /// The warnings so far: none is said twice.
    warned: RefCell<BTreeSet<String>>,
    out: RefCell<Box<dyn Write>>,
}

impl Voice {
    pub fn new(quiet: bool) -> Voice {
        Voice {
            terminal: io::stderr().is_terminal(),
            ..Voice::to(quiet, Box::new(io::stderr()))
        }
    }

    /// One that speaks elsewhere.
    pub fn to(quiet: bool, out: Box<dyn Write>) -> Voice {
        Voice {
            quiet,
            terminal: false,
            warned: RefCell::default(),
            out: RefCell::new(out),
        }
    }

    pub fn warn(&self, what: impl Display) {
        let what = what.to_string();
        if !self.quiet && self.warned.borrow_mut().insert(what.clone()) {
            self.say(format_args!(
                "bd: {}: {what}\n",
                self.coloured("33", "warning")
            ));
        }
    }

    /// Trouble is said even where all else is quiet.
    pub fn trouble(&self, what: impl Display) {
        self.say(format_args!(
            "bd: {}: {what}\n",
            self.coloured("31", "error")
        ));
    }

    /// How far it is, on a line that the next one writes over.
    pub fn progress(&self, what: impl Display) {
        if self.terminal && !self.quiet {
            self.say(format_args!("\r\x1b[K{what}"));
        }
    }

    /// Takes the line of progress away.
    pub fn progressed(&self) {
        if self.terminal && !self.quiet {
            self.say("\r\x1b[K");
        }
    }

    /// Writes what is no warning and no trouble.
    pub fn write(&self, text: &str) -> io::Result<()> {
        self.out.borrow_mut().write_all(text.as_bytes())
    }

    fn say(&self, what: impl Display) {
        let _ = self.write(&what.to_string());
    }

    fn coloured(&self, colour: &str, text: &str) -> String {
        if self.terminal && has_colours() {
            format!("\x1b[{colour}m{text}\x1b[0m")
        } else {
            text.into()
        }
    }
}

/// Whether standard output has colours.
pub fn is_coloured() -> bool {
    io::stdout().is_terminal() && has_colours()
}

fn has_colours() -> bool {
    std::env::var_os("NO_COLOR").is_none_or(|no| no.is_empty())
}

/// A name as a file has it, for a line: what can't be printed in it is replaced.
pub fn printable(name: &[u8]) -> Cow<'_, str> {
    match String::from_utf8_lossy(name) {
        text if text.contains(char::is_control) => {
            text.replace(char::is_control, "\u{fffd}").into()
        }
        text => text,
    }
}
