//! Changes an operand and encodes the instruction again: `change TEXT ADDRESS REGISTER` puts the
//! register of this number at the first place, and prints both words with what they read as.

use std::env;
use std::error::Error;

use brassdozen::{Insn, Operand, Register};

fn main() -> Result<(), Box<dyn Error>> {
    let arguments: Vec<String> = env::args().skip(1).collect();
    let [text, address, register] = arguments.as_slice() else {
        return Err("change TEXT ADDRESS REGISTER".into());
    };
    let mut insn = Insn::parse(text, u64::from_str_radix(address, 16)?)?;
    println!("{:08x} {insn}", insn.encode()?);
    insn.operands[0] = Operand::Register(Register(register.parse()?));
    println!("{:08x} {insn}", insn.encode()?);
    Ok(())
}
