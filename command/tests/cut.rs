//! What `bd cut` cuts out of ELF files, and what it refuses: each time with one line on standard error, the status 2, and nothing on
//! standard output. The files are made by clang and lld, and a number of their headers is changed where a linker would not do that.

mod common;

use common::made::{ABSOLUTE, CODE, FUNC, GLOBAL, LOCAL, OBJECT, elf, name};
use common::{Given, bd, listing, path, read, section, section_2, tool, written};
use std::fs;

const NOP: u32 = 0xe320_f000;
const WORD: &str = ".word 0x12345678\n";

/// Assembles lines, as the section `.code`.
fn assembled(name: &str, target: &str, cpu: &str, lines: &str) -> String {
    let text = format!(".syntax unified\n.section .code,\"ax\",%progbits\n{lines}\n");
    let source = written(&format!("{name}.s"), text.as_bytes());
    let object = path(&format!("{name}.o"));
    let target = format!("--target={target}-none-eabi");
    let cpu = format!("-mcpu={cpu}");
    tool("clang", &[&target, &cpu, "-c", &source, "-o", &object]);
    object
}

/// Links an object file, with `.code` at 0x8000.
fn linked(name: &str, object: &str, flags: &[&str]) -> String {
    let file = path(&format!("{name}.elf"));
    let mut arguments = vec!["-e", "0", "--image-base=0", "--section-start=.code=0x8000"];
    arguments.extend(flags);
    arguments.extend([object, "-o", &file]);
    tool("ld.lld", &arguments);
    file
}

fn made(name: &str, lines: &str) -> String {
    let object = assembled(name, "arm", "cortex-a8", &format!(".arm\n{lines}"));
    linked(name, &object, &[])
}

fn made_stripped(name: &str, lines: &str) -> String {
    let object = assembled(name, "arm", "cortex-a8", &format!(".arm\n{lines}"));
    linked(name, &object, &["-s"])
}

fn number(bytes: &[u8], at: usize) -> usize {
    u32::from_le_bytes(bytes[at..at + 4].try_into().expect("four bytes")) as usize
}

/// The offset of a section's header.
fn header(bytes: &[u8], section: &str) -> usize {
    let (table, count) = (number(bytes, 32), number(bytes, 48) & 0xffff);
    let names = number(bytes, table + 40 * (number(bytes, 48) >> 16) + 16);
    let is_named = |at: &usize| {
        let name = names + number(bytes, *at);
        bytes[name..].starts_with(format!("{section}\0").as_bytes())
    };
    (0..count)
        .map(|number| table + 40 * number)
        .find(is_named)
        .unwrap_or_else(|| panic!("no section {section}"))
}

/// A file with one number of a section's header changed.
fn changed(name: &str, from: &str, section: &str, field: &str, value: u32) -> String {
    const FIELDS: [&str; 10] = [
        "name", "type", "flags", "address", "offset", "size", "link", "info", "align", "entry",
    ];
    let mut bytes = read(from);
    let place = FIELDS.iter().position(|one| *one == field);
    let at = header(&bytes, section) + 4 * place.expect("a field");
    bytes[at..at + 4].copy_from_slice(&value.to_le_bytes());
    written(&format!("{name}.elf"), &bytes)
}

fn cut(file: &str) -> Given {
    bd(&["cut", file, "-j", ".code", "-o", "-"])
}

#[track_caller]
fn cuts(file: &str, expected: &[u8]) {
    let given = cut(file);
    assert_eq!((given.status, given.err.as_str()), (0, ""));
    assert_eq!(given.out, expected, "{file}");
}

/// A section with these ranges, and the words of version 1.
#[track_caller]
fn cuts_data(file: &str, ranges: &[(u32, u32)]) {
    let plain = bd(&["cut", file, "-j", ".code", "--v1", "-o", "-"]);
    assert_eq!(plain.status, 0, "{}", plain.err);
    assert_eq!(plain.out[..9], *b"RSX\x01\x00\x00\x80\x00\x00");
    let words: Vec<u32> = plain.out[9..]
        .chunks(4)
        .map(|word| number(word, 0) as u32)
        .collect();
    if ranges.is_empty() {
        cuts(file, &plain.out);
    } else {
        cuts(file, &section_2(0x8000, ranges, &words));
    }
}

#[test]
fn words_are_cut_out() {
    let two = made("two", "nop\nnop");
    cuts(&two, &section(0x8000, &[NOP, NOP]));
    let most = made("most", ".rept 4096\nnop\n.endr");
    cuts(&most, &section(0x8000, &[NOP; 4096]));
    let last = changed("last", &two, ".code", "address", 0xffff_fff8);
    let words = section(0xffff_fff8, &[NOP, NOP]);
    let given = cut(&last);
    assert_eq!((given.status, given.out), (0, words.clone()));
    let out = path("last.rsx");
    bd(&["cut", &last, "-j", ".code", "-o", &out]).quietly(0);
    assert_eq!(read(&out), words);
    assert_eq!(bd(&["list", &out]).quietly(0), listing(&words));
    assert_eq!(
        bd(&["list", &last, "-j", ".code"]).quietly(0),
        listing(&words)
    );
}

#[test]
fn warnings_leave_the_output_as_it_is() {
    let two = made("warned", "nop\nnop");
    let expected = listing(&section(0x8000, &[NOP, NOP]));
    let data = changed("data", &two, ".code", "flags", 2);
    let list = |file: &str| bd(&["list", file, "-j", ".code"]);
    let listed = list(&data).saying(0, "warning: .code of ");
    assert_eq!(listed, expected);
    list(&data).saying(0, "is not executable: what it has may be data");
    let stripped = made_stripped("warned_stripped", "nop\nnop");
    let listed = list(&stripped).saying(
        0,
        "has no symbols: data is taken for code, and Thumb can't be told",
    );
    assert_eq!(listed, expected);
    let object = path("warned.o");
    let listed = list(&object).saying(
        0,
        "is not linked: its sections are taken at address 0, and targets are not relocated",
    );
    assert_eq!(listed, listing(&section(0, &[NOP, NOP])));
    let listed = bd(&["-q", "list", &object]).quietly(0);
    assert_eq!(listed, listing(&section(0, &[NOP, NOP])));
}

#[test]
fn data_is_what_mapping_symbols_call_so() {
    let pool = format!("ldr r0, =0x12345678\nbx lr\n.ltorg\nnop\n{WORD}{WORD}");
    cuts_data(&made("pool", &pool), &[(2, 1), (4, 2)]);
    let first = format!("{WORD}nop\n{WORD}nop");
    cuts_data(&made("first", &first), &[(0, 1), (2, 1)]);
    let bytes = "nop\nnop\n.byte 1\n.p2align 2\nnop\n.short 1\n.short 2\nnop";
    cuts_data(&made("bytes", bytes), &[(2, 1), (4, 1)]);
    let dotted = "nop\n\"$d.x7\": nop\n\"$a.x12\": nop\nnop\n\"$d.realdata\": nop\nnop";
    cuts_data(&made("dotted", dotted), &[(1, 1), (4, 2)]);
    let touching = "nop\n\"$d.x1\": nop\n\"$d.x2\": nop\n\"$d.x3\": nop\n\"$a.x1\": nop";
    cuts_data(&made("touching", touching), &[(1, 3)]);
    let later = "here: nop\nnop\nnop\nnop\n.set \"$a.x1\", here+12\n.set \"$d.x1\", here+8";
    cuts_data(&made("later", later), &[(2, 1)]);
    let same = "nop\n\"$d.x1\":\n\"$a.x2\": nop\n\"$a.x3\":\n\"$d.x4\": nop\n\"$a.x5\": nop";
    cuts_data(&made("same", same), &[(2, 1)]);
    let eight = "here: .rept 8\nnop\n.endr\n";
    let set = |marks: &[(&str, u32)]| -> String {
        let lines = marks
            .iter()
            .map(|(mark, at)| format!(".set \"${mark}\", here+{at}\n"));
        format!("{eight}{}", lines.collect::<String>())
    };
    let parts = [
        ("d.x1", 7),
        ("a.x1", 8),
        ("d.x2", 12),
        ("a.x2", 13),
        ("d.x3", 22),
        ("a.x3", 25),
    ];
    cuts_data(&made("parts", &set(&parts)), &[(1, 1), (3, 1), (5, 2)]);
    let joined = [
        ("d.x1", 7),
        ("a.x1", 8),
        ("d.x2", 8),
        ("a.x2", 14),
        ("d.x3", 15),
        ("a.x3", 18),
    ];
    cuts_data(&made("joined", &set(&joined)), &[(1, 4)]);
    let behind = "nop\n\"$d.x1\": nop\n\"$a.x1\":\n\"$d.x2\":";
    cuts_data(&made("behind", behind), &[(1, 1)]);
}

#[test]
fn what_is_not_called_data_is_none() {
    // This assembler marks nothing in an object's section of data alone.
    let alone = format!(".global alone\nalone:\n{WORD}{WORD}");
    cuts_data(&made("alone", &alone), &[]);
    let others = "nop\n.type \"$d.x1\", %object\n\"$d.x1\": nop\n.global \"$d.x2\"\n\"$d.x2\": nop\n\"$dd\": nop\n\"$\": nop\n\"d\": nop";
    cuts_data(&made("others", others), &[]);
    let elsewhere = "nop\nnop\n.section .more,\"ax\",%progbits\n.word 1\n\"$d.x1\": nop\n.set \"$d.x2\", 0x8004";
    cuts_data(&made("elsewhere", elsewhere), &[]);
    let stripped = made_stripped("pool_stripped", "ldr r0, =0x12345678\nbx lr\n.ltorg");
    let words = section(0x8000, &[0xe59f_0000, 0xe12f_ff1e, 0x1234_5678]);
    let given = cut(&stripped);
    assert!(given.err.contains("has no symbols"), "{}", given.err);
    assert_eq!(given.out, words);
}

#[test]
fn sixty_four_ranges_are_cut_out_and_sixty_five_are_not() {
    let lines = |times: u32| format!(".rept {times}\nnop\n{WORD}.endr");
    let ranges: Vec<(u32, u32)> = (0..64).map(|n| (2 * n + 1, 1)).collect();
    cuts_data(&made("ranges64", &lines(64)), &ranges);
    let more = made("ranges65", &lines(65));
    cut(&more).refused("65 ranges of data, and a section takes 64: choose, by --from and --to, a part by addresses; bd cut --v1");
    let plain = bd(&["cut", &more, "-j", ".code", "--v1", "-o", "-"]);
    assert_eq!((plain.status, plain.out.len()), (0, 9 + 4 * 130));
    let part = ["cut", &more, "-j", ".code", "--to", "0x8010", "-o", "-"];
    let words = section_2(
        0x8000,
        &[(1, 1), (3, 1)],
        &[NOP, 0x1234_5678, NOP, 0x1234_5678],
    );
    assert_eq!(bd(&part).out, words);
}

#[test]
fn too_many_words_are_refused_with_the_routines_that_fit() {
    let routine = |name: &str, words: u32| {
        format!(
            ".type {name}, %function\n{name}: .rept {words}\nnop\n.endr\n.size {name}, .-{name}\n"
        )
    };
    let more = made("more", &(routine("one", 4000) + &routine("two", 97)));
    cut(&more).refused("4097 words, and a section takes 4096: choose, by --from and --to, a routine as one (4000 words), two (97 words)");
    bd(&["walk", &more, "-j", ".code", "--entry", "two"]).refused("4097 words");
    bd(&["home", &more, "-j", ".code", "-o", "-"]).refused("4097 words");
    let two = ["cut", &more, "--from", "two", "-o", "-"];
    assert_eq!(bd(&two).out, section(0x8000 + 16000, &[NOP; 97]));
    let upto = [
        "cut",
        &more,
        "--from",
        "one+0x3e78",
        "--to",
        "two+0x4",
        "-o",
        "-",
    ];
    assert_eq!(bd(&upto).out, section(0x8000 + 15992, &[NOP; 3]));
}

#[test]
fn files_that_are_none_of_ours_are_refused() {
    let two = made("ours", "nop\nnop");
    cut(&path("nothing.elf")).refused("there is no file");
    cut(common::folder().to_str().expect("a path")).refused("is a folder");
    let text = written("text", b"no ELF file");
    bd(&["cut", &text, "-o", "-"]).refused("nor is it an ELF file");
    cut(&text).refused("is no ELF file, so there is no section to choose by -j");
    let archive = path("ours.a");
    let _ = fs::remove_file(&archive);
    tool("arm-none-eabi-ar", &["rc", &archive, &path("ours.o")]);
    bd(&["cut", &archive, "-o", "-"])
        .refused("it is an archive: take its object files out by ar x");
    let with = |name: &str, at: usize, byte: u8| {
        let mut bytes = read(&two);
        bytes[at] = byte;
        written(&format!("{name}.elf"), &bytes)
    };
    cut(&with("aarch64", 18, 0xb7)).refused("is for machine 183 of ELF's list, and not for ARM");
    cut(&with("class64", 4, 2)).refused("is a 64-bit ELF file");
    cut(&with("class0", 4, 0)).refused("is damaged: its header says no class");
    cut(&with("order0", 5, 0)).refused("is damaged");
    cut(&with("core", 16, 4)).refused("is neither a program nor an object file: its type is 4");
    let object = assembled("big", "armeb", "cortex-a8", ".arm\nnop");
    cut(&linked("big", &object, &["-EB"])).refused("is big-endian");
}

#[test]
fn damaged_files_are_refused() {
    let thumb = made("damaged", "nop\n.thumb\nnop\nnop");
    let bytes = read(&thumb);
    cut(&written("cut.elf", &bytes[..100])).refused("is damaged: ");
    cut(&written("short.elf", &bytes[..20])).refused("is damaged: ");
    cut(&written("mark.elf", &bytes[..4])).refused("is damaged: its header says no class");
    let damages = [
        ("names", ".symtab", "link", 99),
        ("strings", ".strtab", "offset", 0x7fff_ffff),
        ("symbols", ".symtab", "size", 0x1000_0000),
        ("attributes", ".ARM.attributes", "size", 20),
        ("beyond_file", ".code", "offset", 0xffff),
        ("no_text", ".code", "name", 0xffff),
    ];
    for (name, section, field, value) in damages {
        cut(&changed(name, &thumb, section, field, value)).refused("is damaged: ");
    }
}

#[test]
fn thumb_is_refused() {
    let thumb = made("thumb", "nop\n.thumb\nnop\nnop");
    cut(&thumb).refused("has Thumb code, at 0x00008004: only A32 is read");
    let routine = made(
        "routine",
        "nop\n.thumb\n.type routine, %function\nroutine: nop\nnop",
    );
    let mut bytes = read(&routine);
    // This assembler numbers its marks, or not, by its version.
    let mark = bytes.windows(3).position(|bytes| bytes == b"\0$t");
    bytes[mark.expect("a mark") + 2] = b'a';
    let unmarked = written("unmarked.elf", &bytes);
    cut(&unmarked).refused("has Thumb code, at 0x00008004");
    for command in ["list", "count", "callers"] {
        let given = bd(&[command, &thumb]);
        assert_eq!(given.status, 2);
        assert!(given.err.contains("has Thumb code"), "{}", given.err);
    }
}

#[test]
fn cores_without_a32_are_refused_stripped_or_not() {
    for cpu in [
        "cortex-m0",
        "cortex-m3",
        "cortex-m4",
        "cortex-m23",
        "cortex-m33",
        "cortex-m55",
    ] {
        let object = assembled(cpu, "arm", cpu, ".thumb\nnop\nnop");
        for (name, flags) in [
            (format!("{cpu}-whole"), &[][..]),
            (format!("{cpu}-stripped"), &["-s"]),
        ] {
            cut(&linked(&name, &object, flags))
                .refused("is for a core that has no A32 code: its attributes say ");
        }
    }
    // By number, with no profile beside it.
    for architecture in [11, 12, 13, 16, 17, 21] {
        let lines = format!(".arm\n.eabi_attribute 6, {architecture}\n.eabi_attribute 7, 0\nnop");
        let name = format!("architecture{architecture}");
        let object = assembled(&name, "arm", "cortex-a8", &lines);
        cut(&linked(&name, &object, &["-s"])).refused("its attributes say v");
    }
}

#[test]
fn sections_that_are_no_code_are_refused() {
    let two = made("places", "nop\nnop\n.bss\n.space 16");
    cut(&changed("unaligned", &two, ".code", "address", 0x8002))
        .refused("starts at 0x8002, which is no multiple of 4");
    cut(&changed("beyond", &two, ".code", "address", 0xffff_fffc))
        .refused("goes beyond the last address, 0xffffffff");
    cut(&changed("odd", &two, ".code", "size", 6)).refused("has 6 bytes, which are no whole words");
    let cut_section = |section: &str| bd(&["cut", &two, "-j", section, "-o", "-"]);
    cut_section(".cod").refused("has no section .cod; executable are: .code");
    cut_section(".code ").refused("has no section .code ");
    cut_section("").refused("has no section ;");
    cut_section("99").refused("has no section 99;");
    cut_section(".bss").refused(".bss of ");
    cut_section(".bss").refused("has no code in the file: its type is 8; executable are: .code");
}

/// A name that two sections have is refused, in a linked file and in an object file, and one of them is chosen by its number.
#[test]
fn two_sections_of_one_name_are_told_by_number() {
    let two = made("twice", "nop\n.section .other,\"ax\",%progbits\nnop\nnop");
    let (linked, object) = (read(&two), read(&path("twice.o")));
    for (file, bytes) in [("twice-linked", linked), ("twice-object", object)] {
        let mut bytes = bytes;
        let (code, other) = (header(&bytes, ".code"), header(&bytes, ".other"));
        bytes.copy_within(code..code + 4, other);
        let numbers = [code, other].map(|at| ((at - number(&bytes, 32)) / 40).to_string());
        let file = written(&format!("{file}.elf"), &bytes);
        let one_by_number = format!(
            "choose one by its number, -j {} or -j {}",
            numbers[0], numbers[1]
        );
        cut(&file).refused(&one_by_number);
        bd(&["-q", "cut", &file, "-o", "-"]).refused("several executable sections: choose one of ");
        for (number, words) in numbers.iter().zip([1, 2]) {
            let given = bd(&["-q", "cut", &file, "-j", number, "-o", "-"]);
            assert_eq!(
                (given.status, given.out.len()),
                (0, 9 + 4 * words),
                "{}",
                given.err
            );
        }
        let listed = bd(&["-q", "list", &file]).quietly(0);
        assert_eq!(listed.matches("RSX ").count(), 2);
    }
}

#[test]
fn symbols_without_sizes_end_where_the_next_begins() {
    let words: Vec<u32> = (0..8).map(|n| 0xe3a0_0000 | n).collect();
    let names = [
        name("file.s", 0, 0, LOCAL | 4, ABSOLUTE),
        name("start", 0xffff_ffe0, 0, GLOBAL, CODE),
        name("loop", 0xffff_ffe4, 0, LOCAL, CODE),
        name("middle", 0xffff_ffe8, 0, LOCAL | FUNC, CODE),
        name("table", 0xffff_fff0, 6, GLOBAL | OBJECT, CODE),
        name("last", 0xffff_fffc, 0, GLOBAL | FUNC, CODE),
        name("rom", 0x100, 0, GLOBAL, ABSOLUTE),
    ];
    let file = written("sizes.elf", &elf(0xffff_ffe0, &words, &names));
    let words_of = |name: &str| {
        let given = bd(&["cut", &file, "--from", name, "-o", "-"]);
        assert_eq!(given.status, 0, "{name}: {}", given.err);
        (number(&given.out, 5) as u32, (given.out.len() - 9) / 4)
    };
    assert_eq!(words_of("start"), (0xffff_ffe0, 2));
    assert_eq!(words_of("loop"), (0xffff_ffe4, 1));
    assert_eq!(words_of("middle"), (0xffff_ffe8, 2));
    assert_eq!(words_of("file.s:middle"), (0xffff_ffe8, 2));
    assert_eq!(words_of("table"), (0xffff_fff0, 2));
    assert_eq!(words_of("last"), (0xffff_fffc, 1));
    assert_eq!(words_of("0xfffffffc"), (0xffff_fffc, 1));
    bd(&["cut", &file, "--from", "rom", "-o", "-"]).refused("no section of ");
    bd(&["cut", &file, "-j", ".text", "--from", "rom", "-o", "-"])
        .refused("rom is at 0x00000100, which is not in .text");
    bd(&["cut", &file, "--from", "rim", "-o", "-"]).refused("no section of ");
    bd(&["cut", &file, "-j", ".text", "--from", "Table", "-o", "-"])
        .refused("has no symbol Table; there is table");
    bd(&["cut", &file, "--from", "0xffffffe2", "-o", "-"]).refused("are no whole words");
    bd(&["cut", &file, "--from", "last", "--to", "start", "-o", "-"])
        .refused("is no part of .text, which goes from 0xffffffe0 up to 0x100000000");
    bd(&["cut", &file, "--from", "last", "--to", "last", "-o", "-"]).refused("is no part of .text");
    bd(&["cut", &file, "--from", "0x1ffffffff", "-o", "-"]).refused("is no address of 32 bits");
    bd(&["cut", &file, "--from", "last+4", "-o", "-"])
        .refused("in last+4 the offset is to begin with 0x");
}
