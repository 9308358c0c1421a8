//! Goes through a section and prints each call and where it goes: `calls FILE.rsx`.

use std::env;
use std::error::Error;
use std::fs;

use brassdozen::{Flow, What, places};

fn main() -> Result<(), Box<dyn Error>> {
    let file = env::args().nth(1).ok_or("calls FILE.rsx")?;
    let section = fs::read(file)?;
    for place in places(&section)? {
        let What::Insn(insn) = place.what else {
            continue;
        };
        match insn.flow {
            Flow::Call(target) => println!("{:08x} calls {target:08x}", place.address),
            Flow::IndirectCall => println!("{:08x} calls through a register", place.address),
            _ => {}
        }
    }
    Ok(())
}
