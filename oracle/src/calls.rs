//! The index of a section's direct calls, its update when one word is replaced, and the callers of a
//! target (02, P12).

use crate::answer::{Answer, Flow};
use crate::oracle::Oracle;
use crate::section::Section;

/// So many numbers are lent for an index, two for each call.
pub const NUMBERS: usize = 2048;
pub const MOST: usize = 1024;

/// A call. The derived order goes by target and then by caller.
#[derive(Debug, Clone, Copy, PartialEq, Eq, PartialOrd, Ord)]
pub struct Call {
    pub target: u32,
    pub caller: u32,
}

impl Section {
    /// The direct call that stands at a place.
    fn call(&self, oracle: &mut Oracle, place: usize) -> Option<Call> {
        if self.is_data(place) {
            return None;
        }
        let caller = self.base + 4 * place as u32;
        match oracle.answer(self.words[place], caller.into()) {
            Answer::Accepted(instruction) => match instruction.flow {
                Flow::Call(target) => Some(Call { target, caller }),
                _ => None,
            },
            Answer::Refused(_) => None,
        }
    }

    /// All of them, in order.
    pub fn calls(&self, oracle: &mut Oracle) -> Vec<Call> {
        let places = 0..self.words.len();
        let mut calls: Vec<Call> = places
            .filter_map(|place| self.call(oracle, place))
            .collect();
        calls.sort();
        calls
    }
}

/// The number that an array of `lent` numbers with a list of `count` calls is refused with.
fn check(lent: usize, count: usize) -> Result<(), u8> {
    if lent < NUMBERS {
        Err(10)
    } else if count > MOST {
        Err(15)
    } else {
        Ok(())
    }
}

/// The index of a section, for an array of `lent` numbers.
pub fn index(oracle: &mut Oracle, bytes: &[u8], lent: usize) -> Result<Vec<Call>, u8> {
    let calls = Section::read(bytes)?.calls(oracle);
    check(lent, calls.len())?;
    Ok(calls)
}

/// The section with another word at a place, and the list that its index becomes.
pub fn replace(
    oracle: &mut Oracle,
    bytes: &[u8],
    (place, word): (u32, u32),
    list: &[Call],
    lent: usize,
) -> Result<(Vec<u8>, Vec<Call>), u8> {
    let mut section = Section::read(bytes)?;
    let place = place as usize;
    *section.words.get_mut(place).ok_or(13)? = word;
    check(lent, list.len())?;
    let caller = section.base + 4 * place as u32;
    let mut list: Vec<Call> = list
        .iter()
        .copied()
        .filter(|call| call.caller != caller)
        .collect();
    if let Some(call) = section.call(oracle, place) {
        let greater = list.iter().position(|&other| other > call);
        list.insert(greater.unwrap_or(list.len()), call);
    }
    check(lent, list.len())?;
    Ok((section.bytes(), list))
}

/// The callers of a target, in the list's order.
pub fn callers(list: &[Call], target: u32, lent: usize) -> Result<Vec<u32>, u8> {
    check(lent, list.len())?;
    let calls = list.iter().filter(|call| call.target == target);
    Ok(calls.map(|call| call.caller).collect())
}

#[cfg(test)]
mod tests {
    use super::{Call, callers, index, replace};
    use crate::oracle::Oracle;
    use crate::section::{Range, Section};

    /// bl to the second word, data that looks like it, bleq to the first, blx into the third.
    fn section() -> Section {
        Section {
            version: 2,
            base: 0x8000,
            ranges: vec![Range { first: 1, words: 1 }],
            words: vec![0xebff_ffff, 0xebff_ffff, 0x0bff_fffc, 0xfbff_fffd],
        }
    }

    fn call(target: u32, caller: u32) -> Call {
        Call { target, caller }
    }

    #[test]
    fn an_index_has_the_calls_in_order() {
        let right = [
            call(0x8000, 0x8008),
            call(0x8004, 0x8000),
            call(0x800a, 0x800c),
        ];
        let oracle = &mut Oracle::new();
        assert_eq!(index(oracle, &section().bytes(), 2048), Ok(right.to_vec()));
        assert_eq!(index(oracle, &section().bytes(), 2047), Err(10));
        assert_eq!(callers(&right, 0x8004, 2048), Ok(vec![0x8000]));
    }

    #[test]
    fn any_list_gets_the_same_steps() {
        let oracle = &mut Oracle::new();
        let bytes = section().bytes();
        let list = [
            call(9, 0x8000),
            call(0x9000, 1),
            call(2, 0x8000),
            call(0x8004, 0x8000),
            call(1, 1),
        ];
        // A call of the third word goes in before the first that is greater, in no order here.
        let replaced = replace(oracle, &bytes, (0, 0xeb00_0000), &list, 2048);
        let (bytes, list) = replaced.expect("a list");
        assert_eq!(list, [call(0x8008, 0x8000), call(0x9000, 1), call(1, 1)]);
        // Data stays data, and its entries go.
        let list = [list[0], call(7, 0x8004)];
        let (_, list) = replace(oracle, &bytes, (1, 0xeb00_0000), &list, 2048).expect("a list");
        assert_eq!(list, [call(0x8008, 0x8000)]);
    }

    #[test]
    fn refusals_come_in_order() {
        let oracle = &mut Oracle::new();
        let bytes = section().bytes();
        let long = vec![call(0, 0); 1025];
        assert_eq!(replace(oracle, &bytes[1..], (9, 0), &long, 0), Err(5));
        assert_eq!(replace(oracle, &bytes, (4, 0), &long, 0), Err(13));
        assert_eq!(replace(oracle, &bytes, (3, 0), &long, 2047), Err(10));
        assert_eq!(replace(oracle, &bytes, (3, 0), &long, 4096), Err(15));
        assert_eq!(
            replace(oracle, &bytes, (3, 0xeb00_0000), &long[1..], 2048),
            Err(15)
        );
        assert!(replace(oracle, &bytes, (3, 0), &long[1..], 2048).is_ok());
    }
}
