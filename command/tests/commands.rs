//! Every subcommand over ELF files that compilers and linkers made of the examples: what it writes, what it says, and its status.

mod common;

use common::made::{CODE, FUNC, GLOBAL, LOCAL, elf, name};
use common::{bd, bd_reads, listing, path, read, root, section, section_2, tool, written};
use serde_json::Value;
use std::path::Path;
use std::process::Command;
use std::sync::OnceLock;

/// The files of examples/elf, built once.
fn example(name: &str) -> String {
    static BUILT: OnceLock<()> = OnceLock::new();
    BUILT.get_or_init(|| build("examples/elf/build", &path("elf")));
    path(&format!("elf/{name}"))
}

/// The driver of examples/flash, built once.
fn driver(name: &str) -> String {
    static BUILT: OnceLock<()> = OnceLock::new();
    BUILT.get_or_init(|| build("examples/flash/build", &path("flash")));
    path(&format!("flash/{name}"))
}

fn build(script: &str, folder: &str) {
    for name in ["arm-none-eabi-gcc", "arm-none-eabi-ld", "clang", "ld.lld"] {
        tool(name, &["--version"]);
    }
    let mut command = Command::new(root().join(script));
    let output = command
        .arg(folder)
        .env("BD", env!("CARGO_BIN_EXE_bd"))
        .output();
    let output = output.expect("it runs");
    let said = String::from_utf8_lossy(&output.stderr);
    assert!(output.status.success(), "{script}: {said}");
}

fn objects(text: &str) -> Vec<Value> {
    text.lines()
        .map(|line| serde_json::from_str(line).unwrap_or_else(|error| panic!("{error}: {line}")))
        .collect()
}

fn cut(arguments: &[&str]) -> Vec<u8> {
    let given = bd(&[&["-q", "cut"], arguments, &["-o", "-"]].concat());
    assert_eq!(given.status, 0, "{}", given.err);
    given.out
}

/// With the compiler that made the stored sections of the driver, they come out again, byte for byte.
#[test]
fn the_driver_is_listed_as_it_is_stored() {
    let version = tool("arm-none-eabi-gcc", &["-dumpversion"]);
    assert_eq!(
        String::from_utf8_lossy(&version).trim(),
        "12.2.1",
        "\nlacks: arm-none-eabi-gcc 12.2.1 is needed: Debian 12's package gcc-arm-none-eabi has it"
    );
    for level in ["O2", "Os", "O2-inside", "Os-inside"] {
        let stored = read(&format!("examples/flash/{level}.rsx"));
        assert_eq!(read(&driver(&format!("{level}.rsx"))), stored, "{level}");
        let elf = driver(&format!("{level}.elf"));
        assert_eq!(cut(&[&elf, "-j", ".ramcode"]), stored);
        assert_eq!(bd(&["list", &elf]).quietly(0), listing(&stored));
        let file = format!("examples/flash/{level}.rsx");
        assert_eq!(bd(&["list", &file]).quietly(0), listing(&stored));
    }
}

/// What both compilers and linkers made is listed as the library lists what is cut out.
#[test]
fn sections_are_listed_as_the_library_lists_them() {
    for file in ["gcc.elf", "clang.elf", "gcc-gc.elf"] {
        for section in [".start", ".text", ".ramcode"] {
            let file = example(file);
            let expected = listing(&cut(&[&file, "-j", section]));
            assert_eq!(bd(&["list", &file, "-j", section]).quietly(0), expected);
        }
    }
    let thumb = bd(&["list", &example("gcc.elf")]);
    thumb.refused(".thumb of ");
    for object in ["gcc-ram.c.o", "clang-ram.c.o"] {
        let object = example(object);
        let expected = listing(&cut(&[&object, "-j", ".ramcode"]));
        let listed = bd(&["list", &object, "-j", ".ramcode"]);
        assert_eq!(
            listed.saying(0, "is not linked: its sections are taken at address 0"),
            expected
        );
    }
}

#[test]
fn veneers_literals_and_refused_words_are_there() {
    let ram = bd(&["list", &example("gcc.elf"), "-j", ".ramcode", "--annotate"]).quietly(0);
    for part in [
        " ldr pc [pc:-:-4:o:4] ijump ; __rom_sum_veneer, at ",
        " refused 3 ; critical+0x4, ram.c:19, CPS\n",
        " ldrls pc [pc:r3<2:0:o:4] ijump ; dispatch+0xc, ram.c:31\n",
        " bl @20000000 call ; write_word+0xc, ram.c:13, to helper\n",
        " data ; dispatch+0x14, ram.c:31, which is dispatch+0x2c\n",
        " movw r2 #403 next ; helper, ram.c:9, #403 is 0x193\n",
    ] {
        assert!(ram.contains(part), "{part}\n{ram}");
    }
    let ram = bd(&[
        "list",
        &example("clang.elf"),
        "-j",
        ".ramcode",
        "--annotate",
    ])
    .quietly(0);
    for part in [
        "; __ARMv7ABSLongThunk_rom_sum",
        ", CPS\n",
        ", which is ",
        " is 0x01000193",
    ] {
        assert!(ram.contains(part), "{part}\n{ram}");
    }
    // Each line is the proved one, and what is added stands after it.
    let plain = bd(&["list", &example("clang.elf"), "-j", ".ramcode"]).quietly(0);
    for (proved, annotated) in plain.lines().zip(ram.lines()) {
        let added = annotated.strip_prefix(proved).expect("the proved line");
        assert!(added.is_empty() || added.starts_with(" ; "), "{annotated}");
    }
    let gone = bd(&["list", &example("gcc-gc.elf"), "--from", "rom_unused"]);
    gone.refused("no section of ");
    bd(&["list", &example("gcc.elf"), "--from", "rom_unused"]).quietly(0);
}

/// What a linker is still to put into a word is no target yet, and two calls that are to be linked elsewhere are not the same.
#[test]
fn object_files_say_what_is_to_be_linked() {
    let object = example("gcc-ram.c.o");
    let listed = bd(&["-q", "list", &object, "-j", ".ramcode", "--annotate"]).quietly(0);
    assert!(listed.contains(", to be linked to rom_copy\n"), "{listed}");
    assert!(listed.contains(" data ; dispatch+0x14, to be linked to .ramcode\n"));
    assert!(
        !listed.contains("ram.c:"),
        "its lines are not relocated either"
    );
    let changed = path("relocated.o");
    let mut bytes = read(&object);
    let name = bytes.windows(9).rposition(|bytes| bytes == b"rom_copy\0");
    bytes[name.expect("a name") + 4] = b'k';
    std::fs::write(&changed, bytes).expect("it is written");
    let differ = bd(&["-q", "diff", &object, &changed, "-j", ".ramcode"]).quietly(1);
    assert!(differ.starts_with("dispatch:\n"), "{differ}");
    assert_eq!(differ.matches("\n- ").count(), 1);
    let all = bd(&["list", &example("gcc-rom.c.o")]);
    let text = all.saying(0, "is not linked");
    assert_eq!(text.matches("RSX 1 00000000").count(), 4);
}

/// Templates and overloads of C++: weak symbols, sections in groups, and names as the linker has them.
#[test]
fn names_of_cpp_are_names() {
    let source = "namespace n { template <class T> T twice(T x) { return x + x; } }\n\
                  int sum(int a, int b) { return n::twice(a) + b; }\n\
                  long long sum(long long a, long long b) { return n::twice(a) + b; }\n";
    let source = written("names.cc", source.as_bytes());
    let (object, file) = (path("names.o"), path("names.elf"));
    let flags = [
        "-O0",
        "-marm",
        "-march=armv4t",
        "-ffunction-sections",
        "-fno-exceptions",
        "-c",
    ];
    tool(
        "arm-none-eabi-g++",
        &[&flags[..], &[&source, "-o", &object]].concat(),
    );
    tool(
        "arm-none-eabi-ld",
        &["-e", "0", "-Ttext=0x8000", &object, "-o", &file],
    );
    let twice = bd(&[
        "list",
        &file,
        "--from",
        "_ZN1n5twiceIiEET_S1_",
        "--annotate",
    ])
    .quietly(0);
    assert!(twice.contains("; _ZN1n5twiceIiEET_S1_\n"), "{twice}");
    let callers = bd(&["callers", &file, "_ZN1n5twiceIiEET_S1_"]).quietly(0);
    assert_eq!(callers.lines().count(), 1);
    let listed = bd(&["-q", "list", &object, "--annotate"]).quietly(0);
    assert!(
        listed.contains(", to be linked to _ZN1n5twiceIiEET_S1_\n"),
        "{listed}"
    );
    // A mark for linkers at each bx has no symbol.
    assert!(listed.contains(" bx lr ret ; _Z3sumii+0x"), "{listed}");
    assert!(!listed.contains("linked to \n"), "{listed}");
    bd(&["-q", "list", &object, "--from", "_Z3sumxx"]).quietly(0);
}

/// Some hundred damaged files; docs/DAMAGED.md has what became of many more.
#[test]
fn damaged_files_are_done_or_said() {
    let mut program = Path::new(env!("CARGO_BIN_EXE_bd")).to_path_buf();
    program.pop();
    let mut command = Command::new(program.join("examples/damaged"));
    command
        .args(["2", "300"])
        .args(["gcc.elf", "clang.elf", "clang-ram.c.o"].map(example));
    let output = command
        .current_dir(common::folder())
        .output()
        .expect("it was built");
    let said = String::from_utf8_lossy(&output.stdout);
    assert!(output.status.success(), "{said}");
    assert!(said.contains("\n0 failures; "), "{said}");
}

/// A number is taken for an address only where that is likely.
#[test]
fn small_numbers_are_no_symbols() {
    let words = [0xe59f_0004, 0xe12f_ff1e, 0, 0x10, 4, 0x2000];
    let mark = |what: &str, at: u32| name(what, at, 0, LOCAL, CODE);
    let file = |base: u32| {
        let names = [
            mark("$a", base),
            mark("$d", base + 8),
            name("start", base, 4, GLOBAL | FUNC, CODE),
            name("next", base + 4, 20, GLOBAL | FUNC, CODE),
        ];
        elf(base, &words, &names)
    };
    let low = bd(&["list", &written("low.elf", &file(0)), "--annotate"]).quietly(0);
    assert!(
        low.contains(
            "\n00000000 e59f0004 ldr r0 [pc:-:4:o:4] next ; start, at 0000000c is 0x00000010\n"
        ),
        "{low}"
    );
    assert!(low.contains("\n00000008 00000000 data ; next+0x4\n"));
    assert!(low.contains("\n0000000c 00000010 data ; next+0x8\n"));
    assert!(low.contains("\n00000010 00000004 data ; next+0xc, which is next\n"));
    let high = bd(&["list", &written("high.elf", &file(0x1ffc)), "--annotate"]).quietly(0);
    assert!(
        high.contains("\n00002010 00002000 data ; next+0x10, which is next\n"),
        "{high}"
    );
}

/// A section of version 2 without data is listed as one, however it is written.
#[test]
fn a_section_keeps_its_version() {
    let bytes = section_2(0x8000, &[], &[0xe12f_ff1e, 0xe1a0_0000]);
    let file = written("version2.rsx", &bytes);
    let expected = listing(&bytes);
    assert!(expected.starts_with("RSX 2 "));
    assert_eq!(bd(&["list", &file]).quietly(0), expected);
    assert_eq!(bd(&["list", &file, "--annotate"]).quietly(0), expected);
    assert_eq!(
        bd(&["list", &file, "--from", "0x8000"]).quietly(0),
        expected
    );
    let json = objects(&bd(&["list", &file, "--format", "json"]).quietly(0));
    assert_eq!(
        (&json[0]["version"], &json[3]["data"]),
        (&2.into(), &0.into())
    );
    let cut = bd(&["cut", &file, "--from", "0x8004", "-o", "-"]);
    assert_eq!(cut.out, section_2(0x8004, &[], &[0xe1a0_0000]));
    let cut = bd(&["cut", &file, "--v1", "-o", "-"]);
    assert_eq!(cut.out, section(0x8000, &[0xe12f_ff1e, 0xe1a0_0000]));
}

#[test]
fn parts_are_chosen_by_symbol_and_by_address() {
    let file = example("gcc.elf");
    let whole = cut(&[&file, "-j", ".ramcode"]);
    let lines = listing(&whole);
    let between = |first: &str, last: &str| -> String {
        let from = lines.lines().skip_while(|line| !line.starts_with(first));
        from.take_while(|line| !line.starts_with(last))
            .map(|line| format!("{line}\n"))
            .collect()
    };
    let listed = |arguments: &[&str]| {
        let text = bd(&[&["list", &file], arguments].concat()).quietly(0);
        let all: Vec<&str> = text.lines().collect();
        all[1..all.len() - 1]
            .iter()
            .map(|line| format!("{line}\n"))
            .collect::<String>()
    };
    let critical = between("20000044", "20000060");
    assert_eq!(listed(&["--from", "critical"]), critical);
    assert_eq!(listed(&["--to", "critical"]), critical);
    assert_eq!(
        listed(&["--from", "critical", "--to", "dispatch"]),
        critical
    );
    assert_eq!(
        listed(&["--from", "0x20000044", "--to", "0x20000060"]),
        critical
    );
    assert_eq!(
        listed(&[
            "--from",
            "write_word+0x18",
            "--to",
            "critical+0x1c",
            "-j",
            ".ramcode"
        ]),
        critical
    );
    assert_eq!(
        listed(&["--to", "0x20000020"]),
        between("20000000", "20000020")
    );
    assert_eq!(
        listed(&["--from", "ram.c:helper"]),
        between("20000000", "20000020")
    );
    assert_eq!(listed(&["--from", "rom.c:helper"]).lines().count(), 2);
    bd(&["list", &file, "--from", "helper"])
        .refused("have helper: choose one of .text .ramcode by -j");
    bd(&["list", &file, "-j", ".text", "--from", "helper"])
        .refused("more than one symbol helper: say rom.c:helper or ram.c:helper");
    bd(&["list", &file, "-j", ".text", "--from", "critical"])
        .refused("critical is at 0x20000044, which is not in .text");
    let names = [("util.c", 0x8000), ("util.c", 0x8004)].map(|(file, at)| {
        [
            name(file, 0, 0, LOCAL | 4, 0xfff1),
            name("twin", at, 4, LOCAL | FUNC, CODE),
        ]
    });
    let names: Vec<_> = names.into_iter().flatten().collect();
    let twins = written("twins.elf", &elf(0x8000, &[0xe12f_ff1e; 2], &names));
    bd(&["list", &twins, "--from", "twin"])
        .refused("more than one symbol twin: say 0x00008000 or 0x00008004");
    // Assembler without types and sizes: up to the next name that is no label, from a label too.
    assert_eq!(listed(&["--from", "start"]).lines().count(), 8);
    assert_eq!(listed(&["--from", "wait"]).lines().count(), 6);
    let part = written("part.rsx", &whole);
    let arguments = ["list", &part, "--from", "0x20000044", "--to", "0x20000060"];
    assert!(bd(&arguments).quietly(0).contains(&critical));
    bd(&["list", &part, "--from", "critical"])
        .refused("has no symbol critical; it has no symbols at all: name an address, as 0x8000");
    bd(&["list", &part, "-j", ".ramcode"])
        .refused("is no ELF file, so there is no section to choose by -j");
}

#[test]
fn files_are_listed_one_after_the_other() {
    let flash = "examples/flash/O2.rsx";
    let short = listing(&read("examples/short.rsx"));
    let both = bd(&["list", "examples/short.rsx", flash]).quietly(0);
    assert_eq!(both, short.clone() + &listing(&read(flash)));
    let some = bd(&["list", "nothing.rsx", "examples/short.rsx"]);
    assert_eq!(
        some.saying(2, "bd: error: there is no file nothing.rsx"),
        short
    );
    let input = bd_reads(&["list", "-"], &read("examples/short.rsx"));
    assert_eq!(input.quietly(0), short);
    let input = bd_reads(&["list", "-", "-j", ".text"], &read(&example("gcc.elf")));
    let expected = bd(&["list", &example("gcc.elf"), "-j", ".text"]).quietly(0);
    assert_eq!(input.quietly(0), expected);
    let refused = bd_reads(&["list", "-"], b"RSX\x03\x00\x00\x80\x00\x00");
    assert_eq!(
        refused.saying(2, "standard input: refused 6: version neither 1 nor 2"),
        "refused 6\n"
    );
    let empty = bd_reads(&["list", "-"], b"");
    assert_eq!(empty.saying(2, "refused 7: "), "refused 7\n");
}

/// More words than a section takes, and more ranges: pieces, cut at routines, each as the library lists it.
#[test]
fn longer_sections_are_gone_through_in_pieces() {
    let words: Vec<u32> = (0..9000).map(|place| 0xe3a0_0000 | place % 4096).collect();
    let mut names = vec![name("$a", 0x8000, 0, LOCAL, CODE)];
    names.extend((0..9).map(|n| {
        name(
            &format!("r{n}"),
            0x8000 + 4000 * n,
            4000,
            GLOBAL | FUNC,
            CODE,
        )
    }));
    let file = written("long.elf", &elf(0x8000, &words, &names));
    let parts = [(0, 4000), (4000, 8000), (8000, 9000)];
    let expected: String = parts
        .iter()
        .map(|(first, end)| listing(&section(0x8000 + 4 * *first as u32, &words[*first..*end])))
        .collect();
    assert_eq!(bd(&["list", &file]).quietly(0), expected);
    let count = bd(&["count", &file]).quietly(0);
    assert!(count.starts_with("3 sections\n9000 words\n"), "{count}");

    // 70 ranges of data, and no symbol but one: the piece ends before the range that is too many.
    let words: Vec<u32> = (0..140).map(|place| 0xe3a0_0000 | place).collect();
    let marks = (0..140u32).map(|place| {
        name(
            ["$a", "$d"][place as usize % 2],
            0x8000 + 4 * place,
            0,
            LOCAL,
            CODE,
        )
    });
    let file = written(
        "pools.elf",
        &elf(0x8000, &words, &marks.collect::<Vec<_>>()),
    );
    let ranges = |count: u32| -> Vec<(u32, u32)> { (0..count).map(|n| (2 * n + 1, 1)).collect() };
    let first = section_2(0x8000, &ranges(64), &words[..129]);
    let last = section_2(
        0x8000 + 4 * 129,
        &[(0, 1), (2, 1), (4, 1), (6, 1), (8, 1), (10, 1)],
        &words[129..],
    );
    assert_eq!(
        bd(&["list", &file]).quietly(0),
        listing(&first) + &listing(&last)
    );
    assert_eq!(bd(&["diff", &file, &file, "-j", ".text"]).quietly(0), "");

    // Without symbols a piece is full.
    let file = written("bare.elf", &elf(0x8000, &[0xe12f_ff1e; 4097], &[]));
    let bare = bd(&["list", &file]).saying(0, "has no symbols");
    assert_eq!(
        bare,
        listing(&section(0x8000, &[0xe12f_ff1e; 4096]))
            + &listing(&section(0xc000, &[0xe12f_ff1e]))
    );
}

#[test]
fn a_patch_is_laid_over_what_is_listed_and_walked() {
    let flash = read("examples/flash/O2.rsx");
    let patch = section(0x0020_0238, &[0xe12f_ff1e, 0xef00_0000]);
    let file = written("patch.rsx", &patch);
    let mut out = vec![0; brassdozen::SECTION];
    let length = brassdozen::patched(&flash, &patch, &mut out).expect("it is laid over");
    let arguments = ["list", "examples/flash/O2.rsx", "--patch", &file];
    assert_eq!(bd(&arguments).quietly(0), listing(&out[..length]));
    let walked = bd(&[
        "walk",
        "examples/flash/O2.rsx",
        "--entry",
        "0x200238",
        "--patch",
        &file,
    ]);
    assert_eq!(
        walked.quietly(0),
        "00200238 e12fff1e bx lr ret\n1 reached 0 out 0 thumb 0 unknown 0 end 0 stopped\n"
    );

    // Over a longer section it may lie in two pieces; a literal is shown as it is then.
    let words = vec![0xe51f_0008; 5000];
    let names = [name("$a", 0x8000, 0, LOCAL, CODE)];
    let long = written("patched.elf", &elf(0x8000, &words, &names));
    let over = written(
        "over.rsx",
        &section(0xbffc, &[0xe1a0_0000, 0xe1a0_1001, 0xe51f_0010]),
    );
    let listed = bd(&["list", &long, "--patch", &over, "--annotate"]).quietly(0);
    assert!(
        listed.contains("\n0000bffc e1a00000 mov r0 r0 next\n"),
        "{listed}"
    );
    assert!(listed.contains("\n0000c000 e1a01001 mov r1 r1 next\n"));
    assert!(
        listed.contains(
            "\n0000c004 e51f0010 ldr r0 [pc:-:-16:o:4] next ; at 0000bffc is 0xe1a00000\n"
        )
    );
    let beyond = written("beyond.rsx", &section(0x7ff8, &[0xe1a0_0000; 3]));
    bd(&["list", &long, "--patch", &beyond])
        .saying(0, "2 of its 3 words are not in what was chosen");
    let away = written("away.rsx", &section(0x4000, &[0xe1a0_0000]));
    bd(&["list", &long, "--patch", &away])
        .refused("goes from 0x4000 up to 0x4004, which is not in what was chosen");
    bd(&["list", &long, "--patch", &long])
        .refused("is an ELF file: cut the patch out of it by bd cut");
    bd(&["list", &long, "--patch", "LICENSE"]).refused("LICENSE is no section: refused 5");
}

#[test]
fn sections_are_converted() {
    let short = section(0x8000, &[0xe12f_ff1e]);
    let file = written("v1.rsx", &short);
    let out = path("v2.rsx");
    bd(&["convert", &file, "--to", "2", "-o", &out]).quietly(0);
    assert_eq!(read(&out), section_2(0x8000, &[], &[0xe12f_ff1e]));
    let back = bd(&["convert", &out, "--to", "1", "-o", "-"]);
    assert_eq!((back.status, back.out), (0, short));
    bd(&["convert", "examples/flash/O2.rsx", "--to", "1", "-o", "-"]).refused("refused 12: ");
    bd(&["convert", &example("gcc.elf"), "--to", "1", "-o", "-"])
        .refused("is an ELF file: cut a section out of it by bd cut");
    bd(&["convert", "LICENSE", "--to", "1", "-o", "-"]).refused("refused 5: ");
    assert_eq!(bd(&["convert", &file, "--to", "3", "-o", "-"]).status, 2);
}

#[test]
fn walks_show_ways_out_and_end_with_their_status() {
    let file = example("gcc.elf");
    let start = bd(&["walk", &file, "--entry", "start"]).quietly(1);
    assert!(start.ends_with(
        "00000014 fa000003 blx @00000028 call\n00000014 out @00000028\n00000014 thumb @00000028\n\
         00000018 eafffffe b @00000018 jump\n00000020 e51ff004 ldr pc [pc:-:-4:o:4] ijump\n00000020 unknown\n\
         8 reached 1 out 1 thumb 1 unknown 0 end 0 stopped\n"
    ), "{start}");
    assert_eq!(bd(&["walk", &file, "--entry", "0x0"]).quietly(1), start);
    assert_eq!(
        bd(&["walk", &file, "-j", ".start", "--entry", "0"]).quietly(1),
        start
    );
    let critical = bd(&["walk", &file, "--entry", "critical"]).quietly(3);
    assert!(
        critical
            .contains("\n20000048 stopped\n2 reached 0 out 0 thumb 0 unknown 0 end 1 stopped\n"),
        "{critical}"
    );
    let helper = bd(&["walk", &file, "--entry", "ram.c:helper"]).quietly(0);
    assert!(helper.ends_with("8 reached 0 out 0 thumb 0 unknown 0 end 0 stopped\n"));
    let end = bd(&[
        "walk",
        &written("end.rsx", &section(0, &[0xe1a0_0000])),
        "--entry",
        "0",
    ]);
    assert_eq!(
        end.quietly(1),
        "00000000 e1a00000 mov r0 r0 next\n00000000 end\n1 reached 0 out 0 thumb 0 unknown 1 end 0 stopped\n"
    );

    // Of several each has a report, and the gravest is the status: 1, then 3, then 0.
    let both = bd(&["walk", &file, "--entry", "ram.c:helper", "critical"]).quietly(3);
    assert_eq!(
        both,
        format!("entry 20000000\n{helper}entry 20000044\n{critical}")
    );
    assert_eq!(
        bd(&["walk", &file, "--entry", "start", "--entry", "critical"]).status,
        1
    );
    let stripped = path("stripped.elf");
    tool("arm-none-eabi-strip", &[&file, "-o", &stripped]);
    let warned = bd(&[
        "walk",
        &stripped,
        "-j",
        ".ramcode",
        "--entry",
        "0",
        "0x20000020",
    ]);
    warned.saying(
        0,
        "has no symbols: data is taken for code, and Thumb can't be told",
    );

    bd(&["walk", &file, "--entry", "80", "-j", ".ramcode"])
        .refused("80 is no place of .ramcode, which has 80 words; an address begins with 0x");
    bd(&["walk", &file, "--entry", "7"])
        .refused("several executable sections: choose one of .start .thumb .text .ramcode by -j");
    bd(&["walk", &file, "--entry", "0x20000002"]).refused("which is no multiple of 4");
    bd(&["walk", &file, "--entry", "0x30000000"]).refused("no section of ");
    bd(&["walk", &file, "--entry", "nowhere"]).refused("no section of ");
    bd(&["walk", &file, "--entry", "start", "-j", ".text"])
        .refused("start is at 0x00000000, which is not in .text");
}

/// The walks that are stored of the driver are those of bd.
#[test]
fn walks_are_those_that_are_stored() {
    for line in String::from_utf8(read("examples/flash/walks"))
        .expect("a text")
        .lines()
    {
        let (named, shown) = line.split_once(": ").expect("a walk");
        let [file, _, place] = named.split(' ').collect::<Vec<&str>>()[..] else {
            panic!("{line}");
        };
        let given = bd(&[
            "walk",
            &format!("examples/flash/{file}.rsx"),
            "--entry",
            place,
            "--format",
            "json",
        ]);
        if given.status == 2 {
            assert!(shown.starts_with("refused "), "{line}: {}", given.err);
            continue;
        }
        let all = objects(given.text());
        let words = all.iter().filter(|object| object["kind"] == "word").count();
        let others: Vec<String> = all
            .iter()
            .filter_map(|object| {
                let base = 0x0020_0000;
                let place = (object["address"].as_u64()? - base) / 4;
                match object["kind"].as_str()? {
                    "out" => Some(format!("{place} out {:08x}", object["target"].as_u64()?)),
                    kind @ ("unknown" | "end" | "thumb") => Some(format!("{place} {kind}")),
                    "stopped" => Some(format!("{place} stopped")),
                    _ => None,
                }
            })
            .collect();
        assert!(shown.starts_with(&format!("{words} words")), "{line}");
        assert_eq!(
            shown.matches(", ").count(),
            others.len(),
            "{line}: {others:?}"
        );
        for other in others {
            assert!(shown.contains(&other), "{line}: {other}");
        }
    }
}

#[test]
fn a_walk_is_drawn() {
    let graph = bd(&[
        "walk",
        &example("gcc.elf"),
        "--entry",
        "start",
        "--format",
        "dot",
    ])
    .quietly(1);
    assert!(graph.starts_with("digraph walk {"));
    assert!(
        graph.contains("[label=\"out @00000028 thumb_delay\", color=red"),
        "{graph}"
    );
    let file = written("walk.dot", graph.as_bytes());
    let drawn = String::from_utf8(tool("dot", &["-Tsvg", &file])).expect("a text");
    assert!(drawn.contains("<svg") && drawn.contains("thumb_delay"));
}

#[test]
fn what_there_is_is_counted() {
    let files = ["examples/flash/O2.rsx", "examples/flash/Os.rsx"];
    let mut tally = [0; brassdozen::TALLY];
    for file in files {
        brassdozen::tally(&read(file), &mut tally).expect("it is counted");
    }
    let counted = bd(&["count", files[0], files[1]]).quietly(0);
    let first: Vec<&str> = counted.lines().take(3).collect();
    let of = |place: usize, what: &str| format!("{} {what}", tally[place]);
    assert_eq!(first, [of(0, "sections"), of(1, "words"), of(2, "data")]);
    let nonzero = tally.iter().filter(|number| **number > 0).count();
    assert_eq!(counted.lines().count(), nonzero);
    let flows: Vec<&str> = counted.lines().rev().take(6).collect();
    assert!(flows[0].ends_with(" ret"), "{counted}");

    let some = bd(&["count", files[0], "LICENSE", files[1]]);
    assert_eq!(some.saying(2, "LICENSE is no section: refused 5"), counted);
    let all = objects(&bd(&["count", files[0], files[1], "--format", "json"]).quietly(0));
    let texts: Vec<String> = all
        .iter()
        .map(|object| {
            format!(
                "{} {}",
                object["number"],
                object["of"].as_str().expect("a name")
            )
        })
        .collect();
    assert_eq!(texts.join("\n") + "\n", counted);
    let elf = bd(&["count", &example("clang.elf"), "-j", ".ramcode"]).quietly(0);
    assert!(elf.contains("2 refused 3\n"), "{elf}");
}

#[test]
fn callers_are_those_of_the_index() {
    let flash = "examples/flash/O2.rsx";
    let mut index = vec![0; brassdozen::INDEX];
    let count = brassdozen::index(&read(flash), &mut index).expect("an index");
    let expected: String = index
        .chunks(2)
        .take(count)
        .map(|call| format!("{:08x} {:08x}\n", call[0], call[1]))
        .collect();
    assert_eq!(bd(&["callers", flash]).quietly(0), expected);
    assert!(expected.contains("00100040 00200074\n"));
    // A target outside the section: a symbol of the ROM, by its name or its address.
    let elf = driver("O2.elf");
    assert_eq!(bd(&["callers", &elf]).quietly(0), expected);
    assert_eq!(
        bd(&["callers", &elf, "rom_watchdog"]).quietly(0),
        "00100040 00200074\n"
    );
    assert_eq!(
        bd(&["callers", &elf, "0x100040"]).quietly(0),
        "00100040 00200074\n"
    );
    assert_eq!(bd(&["callers", &elf, "rom_reset"]).quietly(0), "");
    assert_eq!(
        bd(&["callers", &elf, "rom_reset", "--jumps"]).quietly(0),
        "00100000 002002c0 jump\n"
    );
    // A tail call is no call.
    let jumps = bd(&["callers", &elf, "flash_program_word", "--jumps"]).quietly(0);
    assert!(
        jumps.contains(" 00200258 jump\n") && jumps.contains(" 00200238\n"),
        "{jumps}"
    );
    let json =
        objects(&bd(&["callers", &elf, "rom_reset", "--jumps", "--format", "json"]).quietly(0));
    assert_eq!(
        json,
        [
            serde_json::json!({ "schema": 1, "kind": "jump", "target": 0x10_0000, "caller": 0x20_02c0 })
        ]
    );
    // A routine of Thumb has an odd value, and is called at the even one.
    assert_eq!(
        bd(&[
            "callers",
            &example("gcc.elf"),
            "-j",
            ".start",
            "thumb_delay"
        ])
        .quietly(0),
        "00000028 00000014\n"
    );
    bd(&["callers", &elf, "rom_watch"]).refused("has no symbol rom_watch; there is rom_watchdog");

    // More calls than an index takes.
    let words: Vec<u32> = vec![0xebff_fffe; 3000];
    let many = written("many.rsx", &section(0x8000, &words));
    let lines = bd(&["callers", &many]).quietly(0);
    assert_eq!(lines.lines().count(), 3000);
    assert!(lines.lines().zip(lines.lines().skip(1)).all(|(a, b)| a < b));
}

#[test]
fn home_words_take_the_place_of_others() {
    let words = [0xe1a0_0000, 0xe001_5392, 0xecd0_0001, 0xe12f_ff1e];
    let section = section(0x8000, &words);
    let mut expected = section.clone();
    let mut numbers = vec![0; brassdozen::CHANGES];
    let changes = brassdozen::home_form(&mut expected, &mut numbers).expect("a home form");
    assert_eq!((changes.words, changes.unindexed), (2, 1));
    let file = written("strange.rsx", &section);
    let given = bd(&["home", &file, "-o", "-"]);
    assert_eq!((given.status, &given.out), (0, &expected));
    let lines: Vec<&str> = given.err.lines().collect();
    let warning = "bd: warning: 00008008: ecd00001 is of the unindexed form, and ecf00001 writes its base back: don't run it";
    assert_eq!(
        lines,
        [
            warning,
            "00008004 e0015392 e0010392",
            "00008008 ecd00001 ecf00001"
        ]
    );
    let (out, list) = (path("home.rsx"), path("changes"));
    bd(&["-q", "home", &file, "-o", &out, "--changes", &list]).quietly(0);
    assert_eq!(read(&out), expected);
    assert_eq!(
        read(&list),
        b"00008004 e0015392 e0010392\n00008008 ecd00001 ecf00001\n"
    );
    bd(&["-q", "home", &file, "-o", &out]).quietly(0);
    bd(&["home", &out, "-o", "-", "--changes", "-"]).refused("can't both go to standard output");
    let again = bd(&["home", &out, "-o", "-"]);
    assert_eq!(
        (again.status, again.out, again.err.as_str()),
        (0, expected, "")
    );
    let version_2 = bd(&["home", "examples/flash/O2.rsx", "-o", "-"]);
    assert_eq!(version_2.out, read("examples/flash/O2.rsx"));
    let from_elf = bd(&["home", &driver("O2.elf"), "-o", "-"]);
    assert_eq!(from_elf.out, version_2.out);
}

#[test]
fn builds_are_compared_routine_by_routine() {
    let (o2, os) = (driver("O2.elf"), driver("Os.elf"));
    assert_eq!(bd(&["diff", &o2, &o2, "-j", ".ramcode"]).quietly(0), "");
    assert_eq!(
        bd(&["diff", &o2, "examples/flash/O2.rsx", "-j", ".ramcode"]).status,
        1
    );
    let differ = bd(&["diff", &o2, &os, "-j", ".ramcode"]).quietly(1);
    assert!(
        differ.lines().any(|line| line == "journal_append:"),
        "{differ}"
    );
    assert!(!differ.contains("irq_off:"), "it only moved");
    for line in differ.lines() {
        assert!(
            line.ends_with(':') || ["  ", "- ", "+ "].iter().any(|mark| line.starts_with(mark)),
            "{line}"
        );
    }
    for object in objects(&bd(&["diff", &o2, &os, "-j", ".ramcode", "--format", "json"]).quietly(1))
    {
        assert!(["removed", "added"].contains(&object["kind"].as_str().expect("a kind")));
        assert!(object["line"].is_string() && object["routine"].is_string());
    }
    bd(&["diff", &o2, &os]).refused("is an ELF file: choose a section of it by -j");
    let gc = bd(&[
        "diff",
        &example("gcc.elf"),
        &example("gcc-gc.elf"),
        "-j",
        ".text",
    ])
    .quietly(1);
    assert!(gc.starts_with("rom_unused:\n- "), "{gc}");
    assert_eq!(gc.matches(":\n").count(), 1);
}

/// Two static routines of one name are compared each with its own, and a call of the one is not a call of the other.
#[test]
fn routines_of_one_name_are_told_by_their_files() {
    let file = |target: u32, last: u32| {
        let names = [
            name("one.c", 0, 0, LOCAL | 4, 0xfff1),
            name("helper", 0x8000, 4, LOCAL | FUNC, CODE),
            name("two.c", 0, 0, LOCAL | 4, 0xfff1),
            name("helper", 0x8004, 4, LOCAL | FUNC, CODE),
            name("main", 0x8008, 8, GLOBAL | FUNC, CODE),
        ];
        elf(0x8000, &[0xe3a0_0001, last, target, 0xe12f_ff1e], &names)
    };
    let one = written("helpers1.elf", &file(0xebff_fffc, 0xe3a0_0002));
    let other = written("helpers2.elf", &file(0xebff_fffd, 0xe3a0_0003));
    let differ = bd(&["diff", &one, &other, "-j", ".text"]).quietly(1);
    assert_eq!(
        differ,
        "two.c:helper:\n- 00008004 e3a00002 mov r0 #2 next\n+ 00008004 e3a00003 mov r0 #3 next\nmain:\n\
         - 00008008 ebfffffc bl @00008000 call\n+ 00008008 ebfffffd bl @00008004 call\n  0000800c e12fff1e bx lr ret\n"
    );
}

/// Bits that no row reads make no difference, but in the unindexed form; code that only moved is the same, and data is data.
#[test]
fn what_does_the_same_does_not_differ() {
    let names = |base: u32| {
        [
            name("$a", base, 0, LOCAL, CODE),
            name("$d", base + 12, 0, LOCAL, CODE),
            name("f", base, 0, GLOBAL | FUNC, CODE),
        ]
    };
    let file =
        |file: &str, base: u32, words: &[u32]| written(file, &elf(base, words, &names(base)));
    let plain = [0xe001_0392, 0xecf0_0001, 0xeaff_fffe, 0xe001_0392];
    let a = file("plain.elf", 0x8000, &plain);
    let moved = file(
        "moved.elf",
        0x9000,
        &[0xe001_5392, 0xecf0_0001, 0xeaff_fffe, 0xe001_0392],
    );
    assert_eq!(bd(&["diff", &a, &moved, "-j", ".text"]).quietly(0), "");
    let unindexed = file(
        "unindexed.elf",
        0x8000,
        &[0xe001_0392, 0xecd0_0001, 0xeaff_fffe, 0xe001_0392],
    );
    assert_eq!(bd(&["diff", &a, &unindexed, "-j", ".text"]).status, 1);
    let data = file(
        "data.elf",
        0x8000,
        &[0xe001_0392, 0xecf0_0001, 0xeaff_fffe, 0xe001_5392],
    );
    let differ = bd(&["diff", &a, &data, "-j", ".text"]).quietly(1);
    assert!(
        differ.ends_with("- 0000800c e0010392 data\n+ 0000800c e0015392 data\n"),
        "{differ}"
    );
}

#[test]
fn words_are_explained_and_encoded() {
    let said = bd(&["explain", "e51ff004@20000130"]).quietly(0);
    for part in [
        "line       20000130 e51ff004 ldr pc [pc:-:-4:o:4] ijump\n",
        "name       ldr, number ",
        "flow       ijump: ",
        "LDR (literal)",
    ] {
        assert!(said.contains(part), "{part}\n{said}");
    }
    assert!(
        bd(&["explain", "f10c0080"])
            .quietly(0)
            .contains("manual     DDI 0406C: CPS, of ")
    );
    assert!(
        bd(&["explain", "0xecd00001"])
            .quietly(0)
            .contains("departure  unindexed: ")
    );
    let json = objects(&bd(&["explain", "e1a00000", "--format", "json"]).quietly(0));
    assert_eq!(json[0]["line"], "00000000 e1a00000 mov r0 r0 next");
    assert_eq!(bd(&["explain", "e1a0000000"]).status, 2);
    assert_eq!(bd(&["explain", "e1a00000@xyz"]).status, 2);

    let encoded = bd(&["encode", "bl @002000f0 call", "@00200238"]).quietly(0);
    assert_eq!(encoded, "00200238 ebffffac bl @002000f0 call\n");
    let json = objects(&bd(&["encode", "add r0 r6 #60 next", "--format", "json"]).quietly(0));
    assert_eq!(json[0]["word"], 0xe286_003cu32);
    bd(&["encode", "add r0 r6 #257 next"])
        .refused("'add r0 r6 #257 next': refused 4: no word has this answer");
    bd(&["encode", "added r0 next"]).refused("'added r0 next' can't be read: ");
    bd(&["encode", "add  r0 r6 #60 next"]).refused("'add  r0 r6 #60 next' ");
    assert_eq!(bd(&["encode", "add r0 r6 #60 next", "8000"]).status, 2);
    // All lines of the driver, back to their home words.
    for line in bd(&["list", "examples/flash/O2.rsx"])
        .quietly(0)
        .lines()
        .filter(|line| !line.contains("data") && !line.starts_with("RSX"))
    {
        let mut parts = line.splitn(3, ' ');
        let (address, word, text) = (
            parts.next().expect("it"),
            parts.next().expect("it"),
            parts.next().expect("it"),
        );
        let home =
            brassdozen::home(u32::from_str_radix(word, 16).expect("a word")).expect("a home word");
        assert_eq!(
            bd(&["encode", text, &format!("@{address}")]).quietly(0),
            format!("{address} {home:08x} {text}\n")
        );
    }
}

#[test]
fn shells_are_given_completions() {
    for (shell, part) in [
        ("bash", "complete -F"),
        ("zsh", "#compdef bd"),
        ("fish", "complete -c bd"),
    ] {
        let given = bd(&["completions", shell]).quietly(0);
        assert!(given.contains(part) && given.contains("callers"), "{shell}");
    }
}

#[test]
fn usage_versions_and_help() {
    let version = bd(&["--version"]).quietly(0);
    assert!(
        version.starts_with("bd 1.0.0, over the library 3."),
        "{version}"
    );
    assert!(version.contains(", proved by logic "), "{version}");
    assert!(bd(&["--help"]).quietly(0).contains("status 0  done"));
    assert!(bd(&["walk", "--help"]).quietly(0).contains("--entry"));
    for wrong in [
        &[][..],
        &["lists"],
        &["list"],
        &["list", "--format", "dot", "x"],
        &["cut", "x"],
        &["walk", "x"],
        &["diff", "x"],
    ] {
        let given = bd(wrong);
        assert_eq!((given.status, given.text()), (2, ""), "{wrong:?}");
        assert!(!given.err.is_empty());
    }
    assert!(Path::new(&root().join("command/bd.1")).exists());
}
