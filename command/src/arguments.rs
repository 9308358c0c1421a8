//! The command line.

use crate::say::{Result, Status, Voice};
use crate::{callers, convert, count, cut, diff, encode, explain, home, list, walk};
use clap::{CommandFactory, Parser, Subcommand};
use std::io::Write;
use std::sync::OnceLock;

const STATUS: &str = "status 0  done, and nothing found
       1  found: a way out, a difference
       2  trouble: usage, a file that can't be read, a section that is refused; standard error has the line
       3  undecided: behind something that was reached nothing is known";

#[derive(Parser)]
#[command(name = "bd", version = version(), about, after_help = STATUS, disable_help_subcommand = true, max_term_width = 120)]
pub struct Arguments {
    /// Say nothing on standard error but what went wrong
    #[arg(short, long, global = true)]
    pub quiet: bool,

    #[command(subcommand)]
    command: Command,
}

#[derive(Subcommand)]
enum Command {
    /// The listing of sections: a proved line for each word
    List(list::List),
    /// Cut a part of an ELF file out, as a section
    Cut(cut::Cut),
    /// A section in its other version
    Convert(convert::Convert),
    /// What is reached from an entry, and every way out
    Walk(walk::Walk),
    /// What sections consist of: words, names, flows
    Count(count::Count),
    /// Who calls what
    Callers(callers::Callers),
    /// A section in its home form, and what changed
    Home(home::Home),
    /// Two builds, routine by routine
    Diff(diff::Diff),
    /// All that is known of a word
    Explain(explain::Explain),
    /// From the text of an instruction to its word
    Encode(encode::Encode),
    /// What a shell completes the command line by
    Completions {
        /// The shell
        #[arg(value_enum)]
        shell: clap_complete::Shell,
    },
}

impl Arguments {
    /// Does what is asked for.
    pub fn run(&self, out: &mut dyn Write, voice: &Voice) -> Result<Status> {
        match &self.command {
            Command::List(args) => list::run(args, out, voice),
            Command::Cut(args) => cut::run(args, out, voice),
            Command::Convert(args) => convert::run(args, out),
            Command::Walk(args) => walk::run(args, out, voice),
            Command::Count(args) => count::run(args, out, voice),
            Command::Callers(args) => callers::run(args, out, voice),
            Command::Home(args) => home::run(args, out, voice),
            Command::Diff(args) => diff::run(args, out, voice),
            Command::Explain(args) => explain::run(args, out),
            Command::Encode(args) => encode::run(args, out),
            Command::Completions { shell } => {
                let mut text = Vec::new();
                clap_complete::generate(*shell, &mut Arguments::command(), "bd", &mut text);
                out.write_all(&text)?;
                Ok(Status::Done)
            }
        }
    }
}

/// The command's version, the library's, and the logic that it was proved by.
fn version() -> &'static str {
    static VERSION: OnceLock<String> = OnceLock::new();
    VERSION.get_or_init(|| {
        let library = brassdozen::version();
        let (major, minor, patch) = (library / 10_000, library / 100 % 100, library % 100);
        let (own, logic) = (env!("CARGO_PKG_VERSION"), env!("BRASSDOZEN_LOGIC"));
        format!("{own}, over the library {major}.{minor}.{patch}, proved by logic {logic}")
    })
}
