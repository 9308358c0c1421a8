//! Ways to damage an instruction value.

use crate::answer::{Flow, Instruction, Memory, Operand, PLACES};
use crate::made;
use crate::names::ROOTS;
use crate::random::Random;

/// A way to damage a value.
#[derive(Debug, Clone, Copy, PartialEq, Eq)]
pub enum Damage {
    Register,
    Flow,
    Place,
    Target,
    Rotation,
    Number,
    Width,
    Mark,
    Name,
    Condition,
    Operand,
    Sign,
    Choice,
    Index,
    Size,
    Mode,
    Address,
}

impl Damage {
    /// In the order of the cases, so that a case's number is its place here.
    pub const ALL: [Damage; 17] = [
        Damage::Register,
        Damage::Flow,
        Damage::Place,
        Damage::Target,
        Damage::Rotation,
        Damage::Number,
        Damage::Width,
        Damage::Mark,
        Damage::Name,
        Damage::Condition,
        Damage::Operand,
        Damage::Sign,
        Damage::Choice,
        Damage::Index,
        Damage::Size,
        Damage::Mode,
        Damage::Address,
    ];

    pub fn describe(self) -> &'static str {
        match self {
            Damage::Register => "another register or list",
            Damage::Flow => "another flow",
            Damage::Place => "operands in the wrong places",
            Damage::Target => "a target off by 1, 2 or 4",
            Damage::Rotation => "a count spelled by another rotation, or by none",
            Damage::Number => "a number off by one, or of the other kind",
            Damage::Width => "a number too large by a power of two",
            Damage::Mark => "a mark flipped",
            Damage::Name => "another name",
            Damage::Condition => "another condition",
            Damage::Operand => "an operand added or taken away",
            Damage::Sign => "a sign turned",
            Damage::Choice => "another shift kind, status source or option",
            Damage::Index => "another index shift, an index added or taken away",
            Damage::Size => "another size",
            Damage::Mode => "another mode",
            Damage::Address => "another address",
        }
    }

    /// Damages the value, or says that it has nothing to damage in this way. The value may come out
    /// unchanged, or be another word's answer.
    pub fn apply(self, value: &mut Instruction, random: &mut Random) -> bool {
        match self {
            Damage::Register => change_one(value, random, another_register),
            Damage::Flow => {
                value.flow = another_flow(value.flow, random);
                true
            }
            Damage::Place => move_operands(&mut value.operands, random),
            Damage::Target => shift_targets(value, random),
            Damage::Rotation => respell_count(&mut value.operands, random),
            Damage::Number => change_one(value, random, number_off),
            Damage::Width => widen(value, random),
            Damage::Mark => change_memory(value, random, flip_mark),
            Damage::Name => {
                value.name = another_name(random);
                true
            }
            Damage::Condition => {
                value.condition = another_condition(random);
                true
            }
            Damage::Operand => {
                add_or_take(&mut value.operands, random);
                true
            }
            Damage::Sign => change_one(value, random, turn_sign),
            Damage::Choice => change_one(value, random, another_choice),
            Damage::Index => change_memory(value, random, another_index),
            Damage::Size => change_memory(value, random, |memory, random| {
                memory.size = made::size(random);
            }),
            Damage::Mode => change_memory(value, random, |memory, random| {
                memory.mode = made::mode(random);
            }),
            Damage::Address => {
                value.address = made::address(random);
                true
            }
        }
    }
}

/// Changes one of the operands, if `change` finds something to change in any.
fn change_one(
    value: &mut Instruction,
    random: &mut Random,
    change: impl Fn(&mut Operand, &mut Random) -> bool,
) -> bool {
    let first = random.place_below(PLACES);
    (first..PLACES)
        .chain(0..first)
        .any(|place| change(&mut value.operands[place], random))
}

fn change_memory(
    value: &mut Instruction,
    random: &mut Random,
    change: impl Fn(&mut Memory, &mut Random),
) -> bool {
    change_one(value, random, |operand, random| {
        let Operand::Memory(memory) = operand else {
            return false;
        };
        change(memory, random);
        true
    })
}

fn another_register(operand: &mut Operand, random: &mut Random) -> bool {
    match operand {
        Operand::Register(register)
        | Operand::Shifted { register, .. }
        | Operand::ShiftByRegister { register, .. }
        | Operand::WriteBack(register)
        | Operand::Coprocessor(register)
        | Operand::CoprocessorRegister(register) => *register = made::register(random),
        Operand::List(list) => *list ^= 1 << random.below(16),
        Operand::Memory(memory) => match &mut memory.index {
            Some(index) if random.coin() => index.register = made::register(random),
            _ => memory.base = made::register(random),
        },
        _ => return false,
    }
    true
}

/// Another flow, mostly to the same target.
fn another_flow(flow: Flow, random: &mut Random) -> Flow {
    match flow.target() {
        Some(target) if !random.one_in(4) => made::flow_to(target, random),
        _ => made::flow(random),
    }
}

/// Swaps two places, or moves one operand past others.
fn move_operands(operands: &mut [Operand; PLACES], random: &mut Random) -> bool {
    if *operands == [Operand::Empty; PLACES] {
        return false;
    }
    let low = random.place_below(PLACES - 1);
    let high = low + 1 + random.place_below(PLACES - 1 - low);
    match random.below(3) {
        0 => operands.swap(low, high),
        1 => operands[low..=high].rotate_left(1),
        _ => operands[low..=high].rotate_right(1),
    }
    true
}

/// Shifts the flow's target, the address among the operands, or both alike.
fn shift_targets(value: &mut Instruction, random: &mut Random) -> bool {
    let by = random.pick(&[1, 2, 4, -1, -2, -4]);
    let [flow_alone, operand_alone] = random.pick(&[[true, false], [false, true], [false, false]]);
    let mut found = false;
    if !operand_alone
        && let Flow::Branch(target) | Flow::ConditionalBranch(target) | Flow::Call(target) =
            &mut value.flow
    {
        *target = target.wrapping_add_signed(by);
        found = true;
    }
    if !flow_alone {
        found |= change_one(value, random, |operand, _| {
            let Operand::Address(address) = operand else {
                return false;
            };
            *address = address.wrapping_add_signed(by);
            true
        });
    }
    found
}

/// Spells the count at the operands' end, as one or as a byte and a rotation, in another way, right
/// or wrong; or makes it one that no rotation of a byte gives.
fn respell_count(operands: &mut [Operand; PLACES], random: &mut Random) -> bool {
    let filled = operands
        .iter()
        .rposition(|&operand| operand != Operand::Empty)
        .map_or(0, |last| last + 1);
    let (place, bits) = match operands[..filled] {
        [.., Operand::Count(byte), Operand::Count(rotation)] => {
            (filled - 2, (byte as u32).rotate_right(rotation as u32 % 32))
        }
        [.., Operand::Count(count)] => (filled - 1, count as u32),
        _ => return false,
    };
    let spelled = match random.below(4) {
        0 => [one_count(bits, random), Operand::Empty],
        1 => [
            one_count(with_distant_bits(bits, random), random),
            Operand::Empty,
        ],
        _ => byte_and_rotation(bits, random),
    };
    if place + 1 == PLACES && spelled[1] != Operand::Empty {
        return false;
    }
    for (to, from) in operands[place..].iter_mut().zip(spelled) {
        *to = from;
    }
    true
}

/// One count, with a sign or without.
fn one_count(bits: u32, random: &mut Random) -> Operand {
    Operand::Count(if random.coin() {
        (bits as i32).into()
    } else {
        bits.into()
    })
}

/// The bits with two that are too far from each other, either way round, for any byte.
fn with_distant_bits(bits: u32, random: &mut Random) -> u32 {
    bits | 1 | 1 << (8 + random.below(17))
}

/// A byte with a rotation that gives these bits, if any does: even one that is the smallest, with
/// which they should be one count.
fn byte_and_rotation(bits: u32, random: &mut Random) -> [Operand; 2] {
    let first = random.below(16) as u32;
    let rotation = (first..first + 16)
        .map(|half| half % 16 * 2)
        .find(|&rotation| bits.rotate_left(rotation) < 256)
        .unwrap_or(first * 2);
    [
        Operand::Count(bits.rotate_left(rotation).into()),
        Operand::Count(rotation.into()),
    ]
}

fn number_off(operand: &mut Operand, random: &mut Random) -> bool {
    let by = random.pick(&[1, -1]);
    match operand {
        Operand::Count(count) if random.one_in(3) => *operand = Operand::Number(*count as u32),
        Operand::Coprocessor(number) if random.one_in(3) => {
            *operand = Operand::CoprocessorRegister(*number);
        }
        Operand::CoprocessorRegister(number) if random.one_in(3) => {
            *operand = Operand::Register(*number);
        }
        Operand::Number(number) if random.one_in(3) => {
            *operand = Operand::Count((*number).into());
        }
        Operand::Count(count) => *count = count.wrapping_add(by.into()),
        Operand::Number(number) => *number = number.wrapping_add_signed(by.into()),
        Operand::Shifted { amount, .. }
        | Operand::SaturateShift { amount, .. }
        | Operand::Rotate(amount)
        | Operand::StatusMask(amount)
        | Operand::Option(amount)
        | Operand::Coprocessor(amount)
        | Operand::CoprocessorRegister(amount) => *amount = amount.wrapping_add_signed(by),
        Operand::Memory(memory) => {
            memory.displacement = memory.displacement.wrapping_add(by.into());
        }
        _ => return false,
    }
    true
}

/// Adds a power of two, which an encoder that looks at a field's own bits alone would not see.
fn widen(value: &mut Instruction, random: &mut Random) -> bool {
    match random.below(4) {
        0 => value.condition = value.condition.wrapping_add(past(4, random)),
        1 => value.name ^= 1 << (7 + random.below(9)),
        _ => return change_one(value, random, widen_operand),
    }
    true
}

fn widen_operand(operand: &mut Operand, random: &mut Random) -> bool {
    match operand {
        Operand::Register(register)
        | Operand::ShiftByRegister { register, .. }
        | Operand::WriteBack(register) => *register = register.wrapping_add(past(4, random)),
        Operand::Option(number)
        | Operand::Coprocessor(number)
        | Operand::CoprocessorRegister(number) => *number = number.wrapping_add(past(4, random)),
        Operand::Shifted { register, .. } if random.coin() => {
            *register = register.wrapping_add(past(4, random));
        }
        Operand::Shifted { amount, .. }
        | Operand::SaturateShift { amount, .. }
        | Operand::Rotate(amount)
        | Operand::StatusMask(amount) => *amount = amount.wrapping_add(past(5, random)),
        Operand::Count(count) => *count = count.wrapping_add(random.pick(&WIDTHS)),
        Operand::Number(number) => *number = number.wrapping_add(random.pick(&WIDTHS) as u32),
        Operand::Memory(memory) => widen_memory(memory, random),
        _ => return false,
    }
    true
}

fn widen_memory(memory: &mut Memory, random: &mut Random) {
    match (random.below(4), &mut memory.index) {
        (0, _) => memory.base = memory.base.wrapping_add(past(4, random)),
        (1, _) => memory.size = memory.size.wrapping_add(past(4, random)),
        (2, Some(index)) => index.shift = index.shift.wrapping_add(past(5, random)),
        (3, Some(index)) => index.register = index.register.wrapping_add(past(4, random)),
        _ => memory.displacement = memory.displacement.wrapping_add(random.pick(&WIDTHS)),
    }
}

/// A power of two of eight bits, past a field of `bits` bits.
fn past(bits: u64, random: &mut Random) -> u8 {
    1 << (bits + random.below(8 - bits))
}

/// Past the fields of a count, a number or a displacement, with its sign or without.
const WIDTHS: [i64; 11] = [
    1 << 3,
    1 << 4,
    1 << 5,
    1 << 8,
    1 << 10,
    1 << 12,
    1 << 16,
    1 << 31,
    1 << 32,
    -1 << 32,
    i64::MIN,
];

fn flip_mark(memory: &mut Memory, random: &mut Random) {
    if random.coin() {
        memory.decimal = !memory.decimal;
    } else {
        memory.minus_zero = !memory.minus_zero;
    }
}

/// A name that there is, or any number.
fn another_name(random: &mut Random) -> u16 {
    if random.one_in(4) {
        random.bits() as u16
    } else {
        random.place_below(ROOTS.len()) as u16
    }
}

/// A condition that there is, or any number.
fn another_condition(random: &mut Random) -> u8 {
    if random.one_in(4) {
        random.bits() as u8
    } else {
        random.below(16) as u8
    }
}

/// Fills an empty place, or empties one.
fn add_or_take(operands: &mut [Operand; PLACES], random: &mut Random) {
    let place = &mut operands[random.place_below(PLACES)];
    *place = match place {
        Operand::Empty => made::operand(random),
        _ => Operand::Empty,
    };
}

fn turn_sign(operand: &mut Operand, _: &mut Random) -> bool {
    let number = match operand {
        Operand::Count(count) => count,
        Operand::Memory(memory) => &mut memory.displacement,
        _ => return false,
    };
    *number = number.wrapping_neg();
    // 0 has no sign to turn.
    *number != 0
}

fn another_choice(operand: &mut Operand, random: &mut Random) -> bool {
    match operand {
        Operand::Shifted { kind, .. }
        | Operand::ShiftByRegister { kind, .. }
        | Operand::SaturateShift { kind, .. } => *kind = made::shift_kind(random),
        Operand::StatusSource(source) => *source = made::status_source(random),
        Operand::Option(option) => *option = made::option(random),
        _ => return false,
    }
    true
}

fn another_index(memory: &mut Memory, random: &mut Random) {
    match &mut memory.index {
        Some(index) if !random.one_in(3) => index.shift = made::amount(random),
        Some(_) => memory.index = None,
        None => memory.index = Some(made::index(random)),
    }
}
