//! A walk through a section from an entry place, and its report (02, P7).

use std::fmt::{self, Display, Formatter};

use crate::answer::{Answer, Flow};
use crate::names::ROOTS;
use crate::oracle::Oracle;
use crate::section::Section;

/// What a record says of its place, in the order in which one place's records stand.
#[derive(Debug, Clone, Copy, PartialEq, Eq)]
pub enum Kind {
    /// The walk comes to it. The value is the word.
    Reached,
    /// It leads to a direct target outside the section, which is the value.
    Out,
    /// It enters Thumb at the target that is the value.
    Thumb,
    /// It leads where no one sees: an indirect branch or call.
    Unknown,
    /// Going on from it runs off the section's end.
    End,
    /// The walk stops at a word that is refused, with the number as its value, or at data.
    Stopped,
}

pub const KINDS: [Kind; 6] = [
    Kind::Reached,
    Kind::Out,
    Kind::Thumb,
    Kind::Unknown,
    Kind::End,
    Kind::Stopped,
];

impl Kind {
    pub fn name(self) -> &'static str {
        match self {
            Kind::Reached => "reached",
            Kind::Out => "out",
            Kind::Thumb => "thumb",
            Kind::Unknown => "unknown",
            Kind::End => "end",
            Kind::Stopped => "stopped",
        }
    }
}

#[derive(Debug, Clone, Copy, PartialEq, Eq)]
pub struct Record {
    pub place: u32,
    pub kind: Kind,
    pub value: u32,
}

impl Display for Record {
    fn fmt(&self, f: &mut Formatter) -> fmt::Result {
        write!(f, "{} {} {:08x}", self.place, self.kind.name(), self.value)
    }
}

/// The report of a walk.
#[derive(Debug, Clone, PartialEq, Eq)]
pub struct Walk {
    pub records: Vec<Record>,
    /// How many words are reached.
    pub words: u32,
}

impl Walk {
    /// Three numbers of each record.
    pub fn numbers(&self) -> Vec<u32> {
        let numbers = |record: &Record| [record.place, record.kind as u32, record.value];
        self.records.iter().flat_map(numbers).collect()
    }

    /// The 32 bits of result that the library's function gives.
    pub fn result(&self) -> u32 {
        self.words << 16 | self.records.len() as u32
    }
}

/// What is done at a word.
#[derive(Debug, Clone, Copy, PartialEq, Eq, Default)]
struct Step {
    /// Whether it goes on to the word after it.
    on: bool,
    /// The direct target that it goes to.
    to: Option<u32>,
    /// The direct target in Thumb, which is not followed.
    thumb: Option<u32>,
    /// Whether it is an indirect branch or call.
    unknown: bool,
    /// The number that stands for what stops it, if it is no instruction.
    stopped: Option<u8>,
}

impl Section {
    fn address(&self, place: usize) -> u64 {
        u64::from(self.base) + 4 * place as u64
    }

    /// The place that this address is in.
    fn place(&self, address: u32) -> Option<usize> {
        let place = address.checked_sub(self.base)? as usize / 4;
        (place < self.words.len()).then_some(place)
    }

    fn step(&self, oracle: &mut Oracle, place: usize) -> Step {
        if self.is_data(place) {
            let stopped = Some(0);
            return Step {
                stopped,
                ..Step::default()
            };
        }
        let instruction = match oracle.answer(self.words[place], self.address(place)) {
            Answer::Accepted(instruction) => instruction,
            Answer::Refused(refusal) => {
                let stopped = Some(refusal);
                return Step {
                    stopped,
                    ..Step::default()
                };
            }
        };
        let conditional = instruction.condition < 14;
        let enters_thumb = ROOTS[usize::from(instruction.name)] == "blx";
        let flow = instruction.flow;
        let (to, thumb) = match flow.target() {
            Some(target) if enters_thumb => (None, Some(target)),
            target => (target, None),
        };
        Step {
            on: match flow {
                Flow::Next | Flow::ConditionalBranch(_) | Flow::Call(_) | Flow::IndirectCall => {
                    true
                }
                Flow::Branch(_) => false,
                Flow::Return | Flow::Trap | Flow::IndirectBranch => conditional,
            },
            to,
            thumb,
            unknown: matches!(flow, Flow::IndirectBranch | Flow::IndirectCall),
            stopped: None,
        }
    }

    /// The records of a place that is reached.
    fn records(&self, oracle: &mut Oracle, place: usize) -> Vec<Record> {
        let step = self.step(oracle, place);
        let outside = |target: &u32| self.place(*target).is_none();
        let is_last = place + 1 == self.words.len();
        let said = [
            (Kind::Reached, Some(self.words[place])),
            (Kind::Out, step.to.or(step.thumb).filter(outside)),
            (Kind::Thumb, step.thumb),
            (Kind::Unknown, step.unknown.then_some(0)),
            (Kind::End, (step.on && is_last).then_some(0)),
            (Kind::Stopped, step.stopped.map(u32::from)),
        ];
        let records = said.into_iter().filter_map(|(kind, value)| {
            let place = place as u32;
            value.map(|value| Record { place, kind, value })
        });
        records.collect()
    }
}

/// The report of a walk from the entry place, or the number of the first check that fails; 10 is
/// not among them, which goes by the buffer.
pub fn walk(oracle: &mut Oracle, bytes: &[u8], entry: u32) -> Result<Walk, u8> {
    let section = Section::read(bytes)?;
    let count = section.words.len();
    let mut reached = vec![false; count];
    if entry as usize >= count {
        return Err(13);
    }
    let mut open = vec![entry as usize];
    while let Some(place) = open.pop() {
        if reached[place] {
            continue;
        }
        reached[place] = true;
        let step = section.step(oracle, place);
        open.extend(step.to.and_then(|target| section.place(target)));
        open.extend((step.on && place + 1 < count).then_some(place + 1));
    }
    let places: Vec<usize> = (0..count).filter(|&place| reached[place]).collect();
    Ok(Walk {
        words: places.len() as u32,
        records: places
            .into_iter()
            .flat_map(|place| section.records(oracle, place))
            .collect(),
    })
}

#[cfg(test)]
mod tests {
    use super::{Walk, walk};
    use crate::oracle::Oracle;
    use crate::section::{Range, Section};

    const NOP: u32 = 0xe1a0_0000;
    const BX_LR: u32 = 0xe12f_ff1e;
    const BXEQ_LR: u32 = 0x012f_ff1e;

    fn section(base: u32, ranges: &[(u32, u32)], words: &[u32]) -> Section {
        let range = |&(first, words)| Range { first, words };
        Section {
            version: if ranges.is_empty() { 1 } else { 2 },
            base,
            ranges: ranges.iter().map(range).collect(),
            words: words.to_vec(),
        }
    }

    /// The report of a walk from `entry`, a line for each record; the number of words reached is
    /// that of the records that say so.
    fn report(section: &Section, entry: u32) -> String {
        let Walk { records, words } =
            walk(&mut Oracle::new(), &section.bytes(), entry).expect("a walk");
        let lines: Vec<String> = records.iter().map(|record| record.to_string()).collect();
        let reached = lines.iter().filter(|line| line.contains(" reached "));
        assert_eq!(reached.count(), words as usize);
        lines.join("\n")
    }

    fn at_8000(words: &[u32]) -> Section {
        section(0x8000, &[], words)
    }

    #[test]
    fn a_loop_is_walked_once() {
        // b from 1 to 0, with a word after it that nothing reaches.
        let words = [NOP, 0xeaff_fffd, BX_LR];
        let right = "0 reached e1a00000\n1 reached eafffffd";
        assert_eq!(report(&at_8000(&words), 0), right);
        assert_eq!(report(&at_8000(&words), 1), right);
        assert_eq!(report(&at_8000(&words), 2), "2 reached e12fff1e");
        // A word that branches to itself.
        assert_eq!(report(&at_8000(&[0xeaff_fffe]), 0), "0 reached eafffffe");
    }

    #[test]
    fn branches_go_to_their_targets() {
        // b over a word; beq over a word.
        let words = [0xea00_0000, NOP, BX_LR];
        assert_eq!(
            report(&at_8000(&words), 0),
            "0 reached ea000000\n2 reached e12fff1e"
        );
        let words = [0x0a00_0000, BX_LR, BX_LR];
        assert_eq!(
            report(&at_8000(&words), 0),
            "0 reached 0a000000\n1 reached e12fff1e\n2 reached e12fff1e"
        );
        // beq and b to what is after the last word, and to what is before the first.
        assert_eq!(
            report(&at_8000(&[0x0a00_0000, 0xeaff_fffc]), 0),
            "0 reached 0a000000\n0 out 00008008\n1 reached eafffffc\n1 out 00007ffc"
        );
    }

    #[test]
    fn returns_and_traps_stop_unless_they_have_a_condition() {
        for (stops, goes_on) in [
            (BX_LR, BXEQ_LR),
            // pop {r4, pc}, mov pc, lr, udf 0
            (0xe8bd_8010, 0x18bd_8010),
            (0xe1a0_f00e, 0xd1a0_f00e),
            (0xe7f0_00f0, 0x07f0_00f0),
        ] {
            let stopped = format!("0 reached {stops:08x}");
            assert_eq!(report(&at_8000(&[stops, NOP]), 0), stopped);
            assert_eq!(report(&at_8000(&[stops]), 0), stopped);
            let goes = format!("0 reached {goes_on:08x}");
            assert_eq!(
                report(&at_8000(&[goes_on, BX_LR]), 0),
                format!("{goes}\n1 reached e12fff1e")
            );
            assert_eq!(
                report(&at_8000(&[goes_on]), 0),
                format!("{goes}\n0 end 00000000")
            );
        }
    }

    #[test]
    fn what_is_indirect_is_unknown() {
        // bx r3, bxeq r3; ldr pc, [sp], #4 is no return
        assert_eq!(
            report(&at_8000(&[0xe12f_ff13, NOP]), 0),
            "0 reached e12fff13\n0 unknown 00000000"
        );
        assert_eq!(
            report(&at_8000(&[0x012f_ff13, BX_LR]), 0),
            "0 reached 012fff13\n0 unknown 00000000\n1 reached e12fff1e"
        );
        assert_eq!(
            report(&at_8000(&[0xe49d_f004, NOP]), 0),
            "0 reached e49df004\n0 unknown 00000000"
        );
        // blx r3, at the end too
        assert_eq!(
            report(&at_8000(&[0xe12f_ff33, BX_LR]), 0),
            "0 reached e12fff33\n0 unknown 00000000\n1 reached e12fff1e"
        );
        assert_eq!(
            report(&at_8000(&[0xe12f_ff33]), 0),
            "0 reached e12fff33\n0 unknown 00000000\n0 end 00000000"
        );
    }

    #[test]
    fn calls_go_both_ways() {
        // bl to 2, bl to 0010000c under a condition
        assert_eq!(
            report(&at_8000(&[0xeb00_0000, BX_LR, NOP, BX_LR]), 0),
            "0 reached eb000000\n1 reached e12fff1e\n2 reached e1a00000\n3 reached e12fff1e"
        );
        assert_eq!(
            report(&at_8000(&[0x1b03_e001, BX_LR]), 0),
            "0 reached 1b03e001\n0 out 0010000c\n1 reached e12fff1e"
        );
        // At the end.
        assert_eq!(
            report(&at_8000(&[0xeb03_e001]), 0),
            "0 reached eb03e001\n0 out 0010000c\n0 end 00000000"
        );
    }

    #[test]
    fn thumb_is_listed_and_not_followed() {
        // blx to 2, and to the middle of 2
        for (word, target) in [(0xfa00_0000u32, 0x8008), (0xfb00_0000, 0x800a)] {
            assert_eq!(
                report(&at_8000(&[word, BX_LR, NOP]), 0),
                format!("0 reached {word:08x}\n0 thumb {target:08x}\n1 reached e12fff1e")
            );
        }
        // Outside, there are two ways to say it; at the end, three.
        assert_eq!(
            report(&at_8000(&[0xfa00_0000, BX_LR]), 0),
            "0 reached fa000000\n0 out 00008008\n0 thumb 00008008\n1 reached e12fff1e"
        );
        assert_eq!(
            report(&at_8000(&[0xfb00_0000]), 0),
            "0 reached fb000000\n0 out 0000800a\n0 thumb 0000800a\n0 end 00000000"
        );
        // To itself, at the end.
        assert_eq!(
            report(&at_8000(&[0xfbff_fffe]), 0),
            "0 reached fbfffffe\n0 thumb 00008002\n0 end 00000000"
        );
    }

    #[test]
    fn data_and_refused_words_stop() {
        let words = [NOP, 0xee00_0a10, NOP, 0xf000_0000, 0xea00_0000];
        let words_2 = section(0x8000, &[(2, 1), (4, 1)], &words);
        assert_eq!(
            report(&words_2, 0),
            "0 reached e1a00000\n1 reached ee000a10\n1 stopped 00000002"
        );
        assert_eq!(
            report(&words_2, 2),
            "2 reached e1a00000\n2 stopped 00000000"
        );
        assert_eq!(
            report(&words_2, 3),
            "3 reached f0000000\n3 stopped 00000003"
        );
        // Neither runs off the end, nor leads anywhere.
        assert_eq!(
            report(&words_2, 4),
            "4 reached ea000000\n4 stopped 00000000"
        );
        assert_eq!(
            report(&at_8000(&[0xef00_0000]), 0),
            "0 reached ef000000\n0 stopped 00000003"
        );
    }

    #[test]
    fn the_last_address_is_an_end() {
        // What goes on from there does not go on at 0.
        let last = section(0xffff_fff8, &[], &[NOP, NOP]);
        assert_eq!(
            report(&last, 0),
            "0 reached e1a00000\n1 reached e1a00000\n1 end 00000000"
        );
        // A branch is counted from two words after it, which is beyond the last address here: b to
        // itself, and to the word before it.
        let itself = section(0xffff_fffc, &[], &[0xeaff_fffe]);
        assert_eq!(report(&itself, 0), "0 reached eafffffe");
        let before = section(0xffff_fff8, &[], &[BX_LR, 0xeaff_fffd]);
        assert_eq!(report(&before, 1), "0 reached e12fff1e\n1 reached eafffffd");
        // b from the last address to 0, and from 4 to the last address.
        let to_0 = section(0xffff_fffc, &[], &[0xeaff_ffff]);
        assert_eq!(report(&to_0, 0), "0 reached eaffffff\n0 out 00000000");
        let to_last = section(0, &[], &[NOP, 0xeaff_fffc]);
        assert_eq!(report(&to_last, 1), "1 reached eafffffc\n1 out fffffffc");
        // From 8 down by 32 MB and up by as much, which is in neither.
        let far = section(0, &[], &[0xea80_0000, 0xea7f_ffff]);
        assert_eq!(report(&far, 0), "0 reached ea800000\n0 out fe000008");
        assert_eq!(report(&far, 1), "1 reached ea7fffff\n1 out 02000008");
        // blx to 2, which wraps.
        let thumb = section(0xffff_fffc, &[], &[0xfbff_ffff]);
        assert_eq!(
            report(&thumb, 0),
            "0 reached fbffffff\n0 out 00000002\n0 thumb 00000002\n0 end 00000000"
        );
    }

    #[test]
    fn an_entry_is_a_place() {
        let refusal = |bytes: &[u8], entry| walk(&mut Oracle::new(), bytes, entry).err();
        let good = at_8000(&[BX_LR, BX_LR]).bytes();
        for (entry, right) in [
            (0, None),
            (1, None),
            (2, Some(13)),
            (3, Some(13)),
            (0x8000, Some(13)),
            (0x4000_0000, Some(13)),
            (u32::MAX, Some(13)),
        ] {
            assert_eq!(refusal(&good, entry), right, "{entry}");
        }
        assert_eq!(refusal(&at_8000(&[]).bytes(), 0), Some(13));
        // The section's own comes first.
        assert_eq!(refusal(&good[..8], 2), Some(7));
        assert_eq!(refusal(b"RSX\x03\x00\x00\x00\x00\x00", 0), Some(6));
        assert_eq!(refusal(&section(2, &[], &[]).bytes(), 0), Some(9));
    }

    #[test]
    fn a_report_as_numbers() {
        let section = at_8000(&[0xfb00_0000]);
        let walk = walk(&mut Oracle::new(), &section.bytes(), 0).expect("a walk");
        assert_eq!(
            walk.numbers(),
            [0, 0, 0xfb00_0000, 0, 1, 0x800a, 0, 2, 0x800a, 0, 4, 0]
        );
        assert_eq!(walk.result(), 0x0001_0004);
        // The most: three records a place, and a fourth of the last.
        let most = section_of_blx();
        let walk = super::walk(&mut Oracle::new(), &most.bytes(), 0).expect("a walk");
        assert_eq!((walk.words, walk.records.len()), (4096, 3 * 4096 + 1));
        assert_eq!(walk.result(), 0x1000_3001);
    }

    /// 4,096 words, each of which enters Thumb outside.
    fn section_of_blx() -> Section {
        section(0x10_0000, &[], &[0xfa00_2000; 4096])
    }
}
