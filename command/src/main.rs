//! Reads the command line, runs it, and ends with its status.

use bd::arguments::Arguments;
use bd::say::{Status, Trouble, Voice};
use clap::Parser;
use std::io::{self, BufWriter, Write};
use std::process::ExitCode;

fn main() -> ExitCode {
    let arguments = match Arguments::try_parse() {
        Ok(arguments) => arguments,
        Err(error) => {
            let printed = error.print().is_ok();
            let status = if error.use_stderr() || !printed {
                Status::Trouble
            } else {
                Status::Done
            };
            return ExitCode::from(status as u8);
        }
    };
    let voice = Voice::new(arguments.quiet);
    let mut out = BufWriter::new(io::stdout().lock());
    let ended = arguments.run(&mut out, &voice).and_then(|status| {
        out.flush()?;
        Ok(status)
    });
    match ended {
        Ok(status) => ExitCode::from(status as u8),
        // As if the signal had ended it.
        Err(Trouble::Closed) => ExitCode::from(141),
        Err(trouble) => {
            // What is done so far is still to be seen, if it can be written.
            let _ = out.flush();
            voice.trouble(trouble);
            ExitCode::from(Status::Trouble as u8)
        }
    }
}
