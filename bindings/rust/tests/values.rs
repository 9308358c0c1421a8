//! The instruction value and its row are one and the same.

mod common;

use brassdozen::{
    Condition, Flow, Index, Insn, Memory, Mode, Name, Operand, ROW, Refusal, Register, Shift,
    Status, encode, encode_zeros, home, home_zeros, names,
};
use common::{Random, decoded, stored_words};

/// Decoded to a row, and to a value: each is made of the other, and both are encoded alike.
fn is_its_row(word: u32, address: u64) {
    match (decoded(word, address), Insn::decode(word, address)) {
        (Ok(row), Ok(insn)) => {
            assert_eq!(insn.to_row(), row, "{word:08x}");
            assert_eq!(Insn::from_row(&row), Some(insn), "{word:08x}");
            assert_eq!(insn.encode(), home(word), "{word:08x}");
            assert_eq!(insn.encode_zeros(), home_zeros(word), "{word:08x}");
            let bytes = word.to_le_bytes();
            assert_eq!(Insn::decode_bytes(&bytes, address), Ok(insn), "{word:08x}");
        }
        (row, insn) => assert_eq!(row.unwrap_err(), insn.unwrap_err(), "{word:08x}"),
    }
}

#[test]
fn stored_words_have_the_values_of_their_rows() {
    for (address, word, _, _) in stored_words() {
        is_its_row(word, address);
    }
}

#[test]
fn random_words_have_the_values_of_their_rows() {
    let mut random = Random(0x7a1);
    for _ in 0..500_000 {
        is_its_row(random.word(), random.address());
    }
    assert_eq!(Insn::decode_bytes(&[0; 3], 0), Err(Refusal::SHORT));
}

/// A row with a number changed, or with any numbers: it has a value if and only if it is the value's
/// row, and each row that a word has does.
#[test]
fn a_row_has_a_value_or_none() {
    let mut random = Random(0x7a2);
    let [mut encoded, mut valued, mut none] = [0; 3];
    for _ in 0..500_000 {
        let Ok(mut row) = decoded(random.word(), random.address()) else {
            continue;
        };
        for _ in 0..=random.below(3) {
            let place = random.below(ROW as u64) as usize;
            row[place] = match random.below(5) {
                0 => random.bits(),
                1 => random.below(18),
                2 => row[place].wrapping_add(1),
                3 => random.below(300),
                _ => row[place] ^ 1 << random.below(64),
            };
        }
        match Insn::from_row(&row) {
            Some(insn) => {
                assert_eq!(insn.to_row(), row);
                assert_eq!(insn.encode(), encode(&row));
                assert_eq!(insn.encode_zeros(), encode_zeros(&row));
                valued += 1;
                encoded += usize::from(insn.encode().is_ok());
            }
            None => {
                assert_eq!(encode(&row), Err(Refusal::NO_WORD), "{row:?}");
                none += 1;
            }
        }
    }
    assert!(
        encoded > 1_000 && valued > encoded && none > 1_000,
        "{encoded}, {valued} and {none}"
    );
}

/// Any value.
fn random_value(random: &mut Random) -> Insn {
    let [register, other] = [random.bits() as u8, random.bits() as u8].map(Register);
    let [amount, size] = [random.bits() as u8, random.bits() as u8];
    let shifts = [Shift::Lsl, Shift::Lsr, Shift::Asr, Shift::Ror];
    let shift = shifts[random.below(4) as usize];
    let signed = random.bits() as i64 >> random.below(64);
    let modes = [Mode::Offset, Mode::PreIndex, Mode::PostIndex];
    let index = Index {
        register: other,
        shift: amount,
    };
    let memory = Memory {
        base: register,
        index: (random.below(2) == 0).then_some(index),
        displacement: signed,
        mode: modes[random.below(3) as usize],
        size,
        decimal: random.below(2) == 0,
        minus_zero: random.below(2) == 0,
    };
    let operands = [
        Operand::Empty,
        Operand::Register(register),
        Operand::Shifted(register, shift, amount),
        Operand::ShiftBy(shift, register),
        Operand::SaturateShift(shift, amount),
        Operand::Rotate(amount),
        Operand::Count(signed),
        Operand::Number(random.bits() as u32),
        Operand::StatusMask(amount),
        Operand::StatusSource([Status::Apsr, Status::Spsr][random.below(2) as usize]),
        Operand::WriteBack(register),
        Operand::List(random.bits() as u16),
        Operand::Address(random.bits() as u32),
        Operand::Memory(memory),
        Operand::Option(amount),
        Operand::Coprocessor(amount),
        Operand::CoprocessorRegister(amount),
    ];
    let target = random.bits() as u32;
    let flows = [
        Flow::Next,
        Flow::Branch(target),
        Flow::CondBranch(target),
        Flow::IndirectBranch,
        Flow::Call(target),
        Flow::IndirectCall,
        Flow::Return,
        Flow::Trap,
    ];
    let name = Name(random.bits() as u16 >> random.below(16));
    let flow = flows[random.below(8) as usize];
    let mut insn = Insn::new(random.bits(), name, Condition(random.bits() as u8), flow);
    for (place, operand) in insn.operands.iter_mut().enumerate() {
        *operand = operands[(random.below(17) as usize + place) % 17];
    }
    insn
}

#[test]
fn every_value_has_a_row_of_its_own() {
    let mut random = Random(0x7a3);
    for _ in 0..200_000 {
        let insn = random_value(&mut random);
        let row = insn.to_row();
        assert_eq!(Insn::from_row(&row), Some(insn));
        assert_eq!(insn.encode(), encode(&row));
    }
}

/// -4 is a number here, and a mark and 3 in a row.
#[test]
fn signed_numbers_are_whole() {
    let insn = Insn::decode(0xe531_0004, 0x8000).expect("ldr r0, [r1, #-4]!");
    let Operand::Memory(memory) = insn.operands[1] else {
        panic!("{insn}");
    };
    assert_eq!((memory.displacement, memory.minus_zero), (-4, false));
    let parts = &insn.to_row()[names::row::OPERANDS + names::PARTS..];
    assert_eq!(parts[names::part::NEGATIVE], 1);
    assert_eq!(parts[names::part::VALUE], 3);

    let insn = Insn::decode(0xe411_0000, 0x8000).expect("ldr r0, [r1], #-0");
    let Operand::Memory(memory) = insn.operands[1] else {
        panic!("{insn}");
    };
    assert_eq!((memory.displacement, memory.minus_zero), (0, true));
}

/// The names of the crate are those of the definitions, by their places.
#[test]
fn names_are_numbered_as_they_stand() {
    assert_eq!(Name::AND, Name(0));
    assert_eq!(Name::STCL, Name(157));
    assert_eq!(Name::SMULBB.text(), "smulbb");
    assert_eq!(Name(names::NAMES as u16).text(), "");
    assert_eq!(Condition::AL, Condition(14));
    assert_eq!(Condition::HS.text(), "hs");
    assert_eq!(Register::SP.text(), "sp");
    assert_eq!(names::NAMES, 158);
    assert_eq!(ROW, 71);
}
