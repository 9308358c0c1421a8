//! Decodes a word and prints its parts: `parts WORD ADDRESS`, both in hexadecimal.

use std::env;
use std::error::Error;

use brassdozen::{Insn, Memory, Operand};

fn main() -> Result<(), Box<dyn Error>> {
    let arguments: Vec<String> = env::args().skip(1).collect();
    let [word, address] = arguments.as_slice() else {
        return Err("parts WORD ADDRESS".into());
    };
    let (word, address) = (
        u32::from_str_radix(word, 16)?,
        u64::from_str_radix(address, 16)?,
    );
    let insn = Insn::decode(word, address)?;
    println!("name {}", insn.name.text());
    println!("condition {}", insn.condition.0);
    for operand in insn.used() {
        match operand {
            Operand::Register(register) => println!("register {}", register.text()),
            Operand::Count(count) => println!("count {count}"),
            Operand::Memory(memory) => print_memory(memory),
            other => println!("operand {other}"),
        }
    }
    println!("flow {}", insn.flow.text());
    if let Some(target) = insn.flow.target() {
        println!("target {target:08x}");
    }
    Ok(())
}

fn print_memory(memory: &Memory) {
    let sign = if memory.minus_zero { "-" } else { "" };
    println!("memory of {} bytes", memory.size);
    println!("  base {}", memory.base.text());
    println!("  displacement {sign}{}", memory.displacement);
    if let Some(index) = memory.index {
        println!(
            "  index {} shifted by {}",
            index.register.text(),
            index.shift
        );
    }
}
