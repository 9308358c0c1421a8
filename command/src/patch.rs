//! A patch: a section whose words are laid over those of others.

use crate::code::Code;
use crate::input::Input;
use crate::say::{Result, Voice};
use crate::trouble;
use brassdozen::SECTION;

pub struct Patch {
    input: Input,
    code: Code,
}

impl Patch {
    pub fn read(path: &str) -> Result<Patch> {
        let input = Input::read(path)?;
        if input.is_elf() {
            return Err(trouble!(
                "{path} is an ELF file: cut the patch out of it by bd cut"
            ));
        }
        let code = input.section()?;
        Ok(Patch { input, code })
    }

    /// Lays it over code, piece by piece, as the library does. A patch that reaches none of it is trouble; of one that reaches beyond, it is
    /// said how far.
    pub fn lay_over(&self, chosen: &mut [Code], voice: &Voice) -> Result<()> {
        let mut laid = 0;
        for code in chosen.iter_mut() {
            let mut words = Vec::with_capacity(code.words.len());
            for piece in code.pieces() {
                words.extend(self.over(&piece)?.words);
            }
            code.words = words;
            laid += (0..self.code.words.len())
                .filter(|place| code.place(self.code.address(*place)).is_some())
                .count();
        }
        let (path, words) = (&self.input.path, self.code.words.len());
        let (first, end) = (self.code.base, self.code.end());
        if laid == 0 {
            return Err(trouble!(
                "{path} goes from 0x{first:x} up to 0x{end:x}, which is not in what was chosen: choose its section by -j"
            ));
        }
        if laid < words {
            voice.warn(format_args!(
                "{path}: {} of its {words} words are not in what was chosen",
                words - laid
            ));
        }
        Ok(())
    }

    fn over(&self, piece: &Code) -> Result<Code> {
        let mut out = vec![0; SECTION];
        let length = brassdozen::patched(&piece.section(), &self.input.bytes, &mut out);
        let laid = length.and_then(|length| Code::of_section(&piece.name, &out[..length]));
        laid.map_err(|refusal| {
            trouble!(
                "{} can't be laid over {}: {refusal}",
                self.input.path,
                piece.name
            )
        })
    }
}
