//! ELF files that are made byte by byte, for what no linker makes.

/// A symbol: its name, value, size, `st_info` and the number of its section.
pub struct Name {
    pub name: String,
    pub value: u32,
    pub size: u32,
    pub info: u8,
    pub section: u16,
}

pub const LOCAL: u8 = 0;
pub const GLOBAL: u8 = 1 << 4;
pub const OBJECT: u8 = 1;
pub const FUNC: u8 = 2;

/// The section of code is number 1, and an absolute symbol is in this one.
pub const CODE: u16 = 1;
pub const ABSOLUTE: u16 = 0xfff1;

pub fn name(name: &str, value: u32, size: u32, info: u8, section: u16) -> Name {
    let name = name.into();
    Name {
        name,
        value,
        size,
        info,
        section,
    }
}

/// A linked file with one section, `.text`, and symbols.
pub fn elf(base: u32, words: &[u32], symbols: &[Name]) -> Vec<u8> {
    const HEADER: usize = 52;
    let mut strings = vec![0];
    let mut table = vec![0; 16];
    for symbol in symbols {
        table.extend((strings.len() as u32).to_le_bytes());
        table.extend(symbol.value.to_le_bytes());
        table.extend(symbol.size.to_le_bytes());
        table.extend([symbol.info, 0]);
        table.extend(symbol.section.to_le_bytes());
        strings.extend(symbol.name.bytes());
        strings.push(0);
    }
    let names = b"\0.text\0.symtab\0.strtab\0.shstrtab\0";
    let code: Vec<u8> = words.iter().flat_map(|word| word.to_le_bytes()).collect();
    let at = [0, code.len(), table.len(), strings.len(), names.len()];
    let offset = |number: usize| (HEADER + at[..number].iter().sum::<usize>()) as u32;
    let sections = offset(5);

    let mut file = b"\x7fELF\x01\x01\x01\0\0\0\0\0\0\0\0\0\x02\0\x28\0\x01\0\0\0".to_vec();
    for number in [base, 0, sections, 0x0500_0000] {
        file.extend(number.to_le_bytes());
    }
    for number in [HEADER as u16, 32, 0, 40, 5, 4] {
        file.extend(number.to_le_bytes());
    }
    file.extend(code);
    file.extend(table);
    file.extend(&strings);
    file.extend(names);
    // Name, type, flags, address, offset, size, link, info, alignment, size of an entry.
    let size = |number: usize| at[number] as u32;
    let headers = [
        [0; 10],
        [1, 1, 6, base, offset(1), size(1), 0, 0, 4, 0],
        [7, 2, 0, 0, offset(2), size(2), 3, 1, 4, 16],
        [15, 3, 0, 0, offset(3), size(3), 0, 0, 1, 0],
        [23, 3, 0, 0, offset(4), size(4), 0, 0, 1, 0],
    ];
    for number in headers.iter().flatten() {
        file.extend(number.to_le_bytes());
    }
    file
}
