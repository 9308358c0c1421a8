//! Whole processes, and the processor time that they take.

use std::ffi::{c_int, c_long};
use std::fs::File;
use std::mem::MaybeUninit;
use std::process::{Command, Stdio};

/// How often each is run. The best time counts.
const ROUNDS: usize = 20;

/// Times each command, which is a name, a file for its standard input, and the words of the command, with tabs between.
pub fn processes(commands: &[String]) -> Result<(), String> {
    println!("| a process that lists 4096 words | milliseconds |");
    println!("|---|---:|");
    for command in commands {
        let mut parts = command.split('\t');
        let (Some(name), Some(input), Some(program)) = (parts.next(), parts.next(), parts.next())
        else {
            return Err(format!("no command: {command}"));
        };
        let arguments: Vec<&str> = parts.collect();
        let mut best = f64::INFINITY;
        for _ in 0..ROUNDS {
            let input = File::open(input).map_err(|why| format!("{input}: {why}"))?;
            let mut command = Command::new(program);
            command.args(&arguments).stdin(input).stdout(Stdio::null());
            let start = spent();
            let ended = command.status();
            best = best.min(spent() - start);
            match ended {
                Ok(status) if status.success() => {}
                Ok(status) => return Err(format!("{name}: {status}")),
                Err(why) => return Err(format!("{name}: {why}")),
            }
        }
        println!("| {name} | {:.1} |", best * 1e3);
    }
    Ok(())
}

#[repr(C)]
struct Timeval {
    seconds: i64,
    microseconds: i64,
}

impl Timeval {
    fn seconds(&self) -> f64 {
        self.seconds as f64 + self.microseconds as f64 * 1e-6
    }
}

#[repr(C)]
struct Usage {
    user: Timeval,
    system: Timeval,
    rest: [c_long; 14],
}

unsafe extern "C" {
    fn getrusage(whose: c_int, usage: *mut Usage) -> c_int;
}

/// The processor time that the processes so far took, in seconds.
fn spent() -> f64 {
    const RUSAGE_CHILDREN: c_int = -1;
    let mut usage = MaybeUninit::uninit();
    // Safety: the usage is written where it is asked for.
    let usage: Usage = unsafe {
        assert_eq!(getrusage(RUSAGE_CHILDREN, usage.as_mut_ptr()), 0);
        usage.assume_init()
    };
    usage.user.seconds() + usage.system.seconds()
}
