//! An instruction value as the row of numbers that `brassdozen_encode` takes. What each place of the row
//! means is in include/brassdozen.h.

use crate::answer::{Index, Instruction, Memory, Operand, PLACES};

/// Address, name, condition, flow and its target stand before the operands.
const HEAD: usize = 5;
const OPERAND: usize = 11;

pub const ROW: usize = HEAD + PLACES * OPERAND;

pub type Row = [u64; ROW];

/// Where the name, the condition, the flow and its target stand.
pub const NAME: usize = 1;
pub const CONDITION: usize = 2;
pub const FLOW: usize = 3;
const TARGET: usize = 4;

/// How many bits a number has in any answer, at most.
pub fn width(place: usize) -> u64 {
    match place {
        0 => 64,
        NAME => 16,
        TARGET => 32,
        _ if place > TARGET && (place - HEAD) % OPERAND == 5 => 32,
        _ => 8,
    }
}

/// Where a number chooses one of a few: the flow, and of each operand the kind, the shift's kind or the
/// like, the sign, the mode and the two marks.
pub const CHOICES: [usize; 1 + PLACES * 6] = {
    let mut choices = [FLOW; 1 + PLACES * 6];
    let mut choice = 1;
    while choice < choices.len() {
        let (place, number) = ((choice - 1) / 6, [0, 2, 4, 7, 9, 10][(choice - 1) % 6]);
        choices[choice] = HEAD + place * OPERAND + number;
        choice += 1;
    }
    choices
};

/// The row of a value.
pub fn row(value: &Instruction) -> Row {
    let mut row = [0; ROW];
    let (head, operands) = row.split_at_mut(HEAD);
    let [flow, target] = value.flow.numbers();
    head.copy_from_slice(&[
        value.address,
        value.name.into(),
        value.condition.into(),
        flow,
        target,
    ]);
    for (numbers, &operand) in operands.chunks_exact_mut(OPERAND).zip(&value.operands) {
        numbers.copy_from_slice(&operand_row(operand));
    }
    row
}

/// What of a row of any length is read: beyond its end there are zeros.
pub fn padded(numbers: &[u64]) -> Row {
    let mut row = [0; ROW];
    for (to, from) in row.iter_mut().zip(numbers) {
        *to = *from;
    }
    row
}

/// An operand's numbers. Those that its kind has no use for are 0.
fn operand_row(operand: Operand) -> [u64; OPERAND] {
    // kind; register; shift's kind or status source; amount, mask, option or coprocessor; sign; value
    let [kind, register, choice, amount, sign, value] = match operand {
        Operand::Empty => [0; 6],
        Operand::Register(register) => [1, register.into(), 0, 0, 0, 0],
        Operand::Shifted {
            register,
            kind,
            amount,
        } => [2, register.into(), kind.into(), amount.into(), 0, 0],
        Operand::ShiftByRegister { kind, register } => [3, register.into(), kind.into(), 0, 0, 0],
        Operand::SaturateShift { kind, amount } => [4, 0, kind.into(), amount.into(), 0, 0],
        Operand::Rotate(amount) => [5, 0, 0, amount.into(), 0, 0],
        Operand::Count(count) => {
            let [sign, value] = signed(count);
            [6, 0, 0, 0, sign, value]
        }
        Operand::Number(number) => [7, 0, 0, 0, 0, number.into()],
        Operand::StatusMask(mask) => [8, 0, 0, mask.into(), 0, 0],
        Operand::StatusSource(source) => [9, 0, source.into(), 0, 0, 0],
        Operand::WriteBack(register) => [10, register.into(), 0, 0, 0, 0],
        Operand::List(list) => [11, 0, 0, 0, 0, list.into()],
        Operand::Address(address) => [12, 0, 0, 0, 0, address.into()],
        Operand::Memory(memory) => return memory_row(memory),
        Operand::Option(option) => [14, 0, 0, option.into(), 0, 0],
        Operand::Coprocessor(number) => [15, 0, 0, number.into(), 0, 0],
        Operand::CoprocessorRegister(number) => [16, 0, 0, number.into(), 0, 0],
    };
    [kind, register, choice, amount, sign, value, 0, 0, 0, 0, 0]
}

/// A memory form has a number for every place.
fn memory_row(memory: Memory) -> [u64; OPERAND] {
    let (indexed, index, shift) = match memory.index {
        Some(Index { register, shift }) => (1, register, shift),
        None => (0, 0, 0),
    };
    let [sign, displacement] = signed(memory.displacement);
    [
        13,
        memory.base.into(),
        indexed,
        shift.into(),
        sign,
        displacement,
        index.into(),
        memory.mode.number(),
        memory.size.into(),
        memory.decimal.into(),
        memory.minus_zero.into(),
    ]
}

/// A sign, and what follows it: minus one is a sign and 0.
fn signed(number: i64) -> [u64; 2] {
    if number < 0 {
        [1, !number as u64]
    } else {
        [0, number as u64]
    }
}

#[cfg(test)]
mod tests {
    use super::{CHOICES, ROW, padded, row, width};
    use crate::answer::{Flow, Index, Instruction, Memory, Mode, Operand};

    #[test]
    fn numbers_stand_in_their_places() {
        let value = Instruction {
            address: 1 << 40,
            name: 300,
            condition: 20,
            flow: Flow::Call(9),
            operands: [
                Operand::Shifted {
                    register: 14,
                    kind: 3,
                    amount: 31,
                },
                Operand::Count(-1),
                Operand::Option(15),
                Operand::Memory(Memory {
                    base: 13,
                    index: Some(Index {
                        register: 12,
                        shift: 2,
                    }),
                    displacement: i64::MIN,
                    mode: Mode::Post,
                    size: 8,
                    decimal: true,
                    minus_zero: false,
                }),
                Operand::Coprocessor(15),
                Operand::CoprocessorRegister(7),
            ],
        };
        let row = row(&value);
        assert_eq!(row[..5], [1 << 40, 300, 20, 4, 9]);
        assert_eq!(row[5..16], [2, 14, 3, 31, 0, 0, 0, 0, 0, 0, 0]);
        assert_eq!(row[16..27], [6, 0, 0, 0, 1, 0, 0, 0, 0, 0, 0]);
        assert_eq!(row[27..38], [14, 0, 0, 15, 0, 0, 0, 0, 0, 0, 0]);
        let most = (1 << 63) - 1;
        assert_eq!(row[38..49], [13, 13, 1, 2, 1, most, 12, 2, 8, 1, 0]);
        assert_eq!(row[49..60], [15, 0, 0, 15, 0, 0, 0, 0, 0, 0, 0]);
        assert_eq!(row[60..], [16, 0, 0, 7, 0, 0, 0, 0, 0, 0, 0]);
    }

    #[test]
    fn rows_of_every_length_are_padded() {
        let numbers: Vec<u64> = (1..=80).collect();
        for length in 0..numbers.len() {
            let row = padded(&numbers[..length]);
            let kept = length.min(ROW);
            assert_eq!(row[..kept], numbers[..kept]);
            assert!(row[kept..].iter().all(|&number| number == 0));
        }
    }

    #[test]
    fn choices_and_widths_are_those_of_their_places() {
        assert_eq!(CHOICES[..8], [3, 5, 7, 9, 12, 14, 15, 16]);
        assert_eq!(CHOICES[36], ROW - 1);
        let widths: Vec<u64> = (0..16).map(width).collect();
        assert_eq!(widths[..5], [64, 16, 8, 8, 32]);
        assert_eq!(widths[5..], [8, 8, 8, 8, 8, 32, 8, 8, 8, 8, 8]);
    }
}
