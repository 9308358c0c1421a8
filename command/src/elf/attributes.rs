//! `.ARM.attributes`: what a file says of the core that it is for (Arm's IHI 0045, "Addenda to, and Errata in, the ABI").

/// What the attributes say if they are for a core of the M profile, which has Thumb alone.
pub fn m_profile(content: &[u8]) -> Result<Option<&'static str>, String> {
    let mut bytes = Bytes { rest: content };
    if bytes.rest.is_empty() {
        return Ok(None);
    }
    if bytes.byte()? != b'A' {
        return Err("its attributes are of a format that is not known".into());
    }
    while !bytes.rest.is_empty() {
        let mut vendor = bytes.sized(4)?;
        let is_public = vendor.text()? == b"aeabi";
        while is_public && !vendor.rest.is_empty() {
            let length = vendor.rest.len();
            let scope = vendor.number()?;
            let taken = length - vendor.rest.len();
            let mut attributes = vendor.sized(4 + taken)?;
            if scope != 1 {
                continue; // of a section or of a symbol, which the file's own stand for
            }
            while !attributes.rest.is_empty() {
                if let Some(said) = m_attribute(&mut attributes)? {
                    return Ok(Some(said));
                }
            }
        }
    }
    Ok(None)
}

fn m_attribute(attributes: &mut Bytes) -> Result<Option<&'static str>, String> {
    const CPU_RAW_NAME: u64 = 4;
    const CPU_NAME: u64 = 5;
    const CPU_ARCH: u64 = 6;
    const CPU_ARCH_PROFILE: u64 = 7;
    const COMPATIBILITY: u64 = 32;
    match attributes.number()? {
        CPU_RAW_NAME | CPU_NAME => attributes.text().map(|_| None),
        CPU_ARCH => Ok(match attributes.number()? {
            11 => Some("v6-M"),
            12 => Some("v6S-M"),
            13 => Some("v7E-M"),
            16 => Some("v8-M, baseline"),
            17 => Some("v8-M, mainline"),
            21 => Some("v8.1-M, mainline"),
            _ => None,
        }),
        CPU_ARCH_PROFILE => {
            Ok((attributes.number()? == u64::from(b'M')).then_some("microcontroller profile"))
        }
        COMPATIBILITY => {
            attributes.number()?;
            attributes.text().map(|_| None)
        }
        tag if tag > COMPATIBILITY && tag % 2 == 1 => attributes.text().map(|_| None),
        _ => attributes.number().map(|_| None),
    }
}

/// What is left to read.
struct Bytes<'a> {
    rest: &'a [u8],
}

impl<'a> Bytes<'a> {
    fn byte(&mut self) -> Result<u8, String> {
        let (first, rest) = self
            .rest
            .split_first()
            .ok_or("its attributes are cut short")?;
        self.rest = rest;
        Ok(*first)
    }

    /// In base 128, low digits first.
    fn number(&mut self) -> Result<u64, String> {
        let mut number = 0;
        for shift in (0..63).step_by(7) {
            let byte = self.byte()?;
            number |= u64::from(byte & 127) << shift;
            if byte < 128 {
                return Ok(number);
            }
        }
        Err("a number of its attributes has no end".into())
    }

    /// Up to a zero.
    fn text(&mut self) -> Result<&'a [u8], String> {
        let end = self
            .rest
            .iter()
            .position(|byte| *byte == 0)
            .ok_or("its attributes are cut short")?;
        let text = &self.rest[..end];
        self.rest = &self.rest[end + 1..];
        Ok(text)
    }

    /// A part that begins with its own size, of which so many bytes, the size's among them, were or are now read.
    fn sized(&mut self, read: usize) -> Result<Bytes<'a>, String> {
        let mut size = [0; 4];
        for byte in &mut size {
            *byte = self.byte()?;
        }
        let size = (u32::from_le_bytes(size) as usize).checked_sub(read);
        let size = size
            .filter(|size| *size <= self.rest.len())
            .ok_or("the sizes of its attributes don't fit")?;
        let (part, rest) = self.rest.split_at(size);
        self.rest = rest;
        Ok(Bytes { rest: part })
    }
}
