//! `bd explain`: all that is known of a word.

use crate::lines::line;
use crate::list::Format;
use crate::say::{Result, Status};
use crate::{SCHEMA, departures, manual};
use brassdozen::{Condition, Flow, Insn, Operand};
use clap::Args;
use serde_json::json;
use std::io::Write;

#[derive(Args)]
pub struct Explain {
    /// A word in hexadecimal, and where it stands: e1a00000, or e1a00000@8000
    #[arg(value_name = "WORD[@ADDRESS]", value_parser = word_at)]
    word: (u32, u64),

    /// How it is written
    #[arg(long, value_enum, default_value_t = Format::Text)]
    format: Format,
}

pub fn run(args: &Explain, out: &mut dyn Write) -> Result<Status> {
    let (word, address) = args.word;
    let lines = explained(word, address);
    match args.format {
        Format::Text => {
            for (title, text) in lines {
                writeln!(out, "{title:<10} {text}")?;
            }
        }
        Format::Json => {
            let mut object = json!({
                "schema": SCHEMA, "kind": "explained", "address": address, "word": word, "operands": [],
            });
            for (title, text) in lines {
                match object["operands"].as_array_mut() {
                    Some(operands) if title.starts_with("operand ") => operands.push(text.into()),
                    _ => object[title] = text.into(),
                }
            }
            writeln!(out, "{object}")?;
        }
    }
    Ok(Status::Done)
}

/// A title and a text each.
fn explained(word: u32, address: u64) -> Vec<(String, String)> {
    let mut lines = vec![("line", line(address, word)), ("fields", fields(word))];
    let mut operands = Vec::new();
    match Insn::decode(word, address) {
        Ok(insn) => {
            lines.push((
                "name",
                format!("{}, number {}", insn.name.text(), insn.name.0),
            ));
            lines.push(("condition", condition(insn.condition)));
            operands = insn
                .used()
                .enumerate()
                .map(|(at, operand)| (format!("operand {}", at + 1), described(operand)))
                .collect();
            lines.push(("flow", flow(&insn)));
            if let (Ok(drawn), Ok(zeros)) = (brassdozen::home(word), brassdozen::home_zeros(word)) {
                lines.push((
                    "home",
                    format!("{drawn:08x} as the manual draws it, {zeros:08x} with zeros"),
                ));
            }
        }
        Err(refusal) => lines.push(("refused", refusal.to_string())),
    }
    let (title, table) = manual::row(word);
    // What no page reads is in no table either.
    let table = table.starts_with("table").then(|| format!(", of {table}"));
    lines.push((
        "manual",
        format!("DDI 0406C: {title}{}", table.unwrap_or_default()),
    ));
    lines.push((
        "departure",
        match departures::of(word).filter(|_| !is_floating(word)) {
            None => "none".into(),
            Some(departure) if departure.refuses => {
                format!("{}: {}; it is refused", departure.name, departure.says)
            }
            Some(departure) => format!("{}: {}", departure.name, departure.says),
        },
    ));
    let mut lines: Vec<(String, String)> = lines
        .into_iter()
        .map(|(title, text)| (title.into(), text))
        .collect();
    let behind = lines
        .iter()
        .position(|(title, _)| title == "flow")
        .unwrap_or(lines.len());
    lines.splice(behind..behind, operands);
    lines
}

/// Coprocessors 10 and 11 under a condition are out of range, and no departure speaks of them.
fn is_floating(word: u32) -> bool {
    word >> 28 < 15 && word >> 26 & 3 == 3 && word >> 9 & 7 == 5
}

/// The bits, as most tables of the manual group them.
fn fields(word: u32) -> String {
    let bits = [
        (31, 28),
        (27, 25),
        (24, 20),
        (19, 16),
        (15, 12),
        (11, 8),
        (7, 4),
        (3, 0),
    ];
    let field = |(high, low): (u32, u32)| {
        let width = (high - low + 1) as usize;
        format!("{high}:{low}={:0width$b}", word >> low & ((1 << width) - 1))
    };
    bits.map(field).join(" ")
}

fn condition(condition: Condition) -> String {
    match condition.0 {
        14 => "14: always".into(),
        15 => "15: none, a word of its own".into(),
        number => format!(
            "{number}: {}, else it goes on to the next word",
            condition.text()
        ),
    }
}

fn flow(insn: &Insn) -> String {
    let also = if insn.condition.0 < 14 {
        ", or goes on"
    } else {
        ""
    };
    match insn.flow {
        Flow::Next => "next: goes on to the next word".into(),
        Flow::Branch(target) => format!("jump: goes to {target:08x}"),
        Flow::CondBranch(target) => format!("jump?: goes to {target:08x}, or goes on"),
        Flow::IndirectBranch => format!("ijump: goes where a register or memory says{also}"),
        Flow::Call(target) => format!("call: calls {target:08x}{also}"),
        Flow::IndirectCall => format!("icall: calls what a register says{also}"),
        Flow::Return => format!("ret: returns{also}"),
        Flow::Trap => format!("trap: stops here{also}"),
    }
}

fn described(operand: &Operand) -> String {
    let what = match operand {
        Operand::Empty => "none",
        Operand::Register(_) => "a register",
        Operand::Shifted(..) => "a register, shifted by an amount",
        Operand::ShiftBy(..) => "the shift of the register before it by a register",
        Operand::SaturateShift(..) => "the shift of what is saturated",
        Operand::Rotate(_) => "how far what is extended is turned right",
        Operand::Count(_) => "a number with a sign",
        Operand::Number(_) => "a number without a sign",
        Operand::StatusMask(_) => "the fields of a status register that are written",
        Operand::StatusSource(_) => "the status register that is read",
        Operand::WriteBack(_) => "a base register that is written back",
        Operand::List(_) => "a list of registers",
        Operand::Address(_) => "an address",
        Operand::Memory(memory) => return format!("{operand}: memory, {} bytes", memory.size),
        Operand::Option(_) => "the option of a barrier",
        Operand::Coprocessor(_) => "a coprocessor",
        Operand::CoprocessorRegister(_) => "a register of a coprocessor",
    };
    format!("{operand}: {what}")
}

/// A word, and an address behind its mark.
fn word_at(text: &str) -> std::result::Result<(u32, u64), String> {
    let (word, address) = match text.split_once('@') {
        Some((word, _)) => (word, crate::encode::address(&text[word.len()..])?),
        None => (text, 0),
    };
    let digits = word.strip_prefix("0x").unwrap_or(word);
    let word = u32::from_str_radix(digits, 16)
        .map_err(|_| format!("{word} is no word of 32 bits in hexadecimal"))?;
    Ok((word, address))
}

#[cfg(test)]
mod tests {
    use super::*;
    use crate::lines::parts;

    #[test]
    fn a_line_is_the_librarys() {
        let lines = explained(0xe1a0_0000, 0x8000);
        assert_eq!(parts(&lines[0].1).rest, "mov r0 r0 next");
    }
}
