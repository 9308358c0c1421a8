//! What `--format json` writes is what docs/JSON.md says of it, and the other way round.

mod common;

use common::{bd, read, section, section_2, written};
use serde_json::Value;
use std::collections::{BTreeMap, BTreeSet};

/// A field as the page has it.
struct Field {
    is: &'static str,
    is_always: bool,
}

/// The fields of each kind, off the page.
fn page() -> BTreeMap<String, BTreeMap<String, Field>> {
    let text = String::from_utf8(read("docs/JSON.md")).expect("a text");
    let mut kinds: BTreeMap<String, BTreeMap<String, Field>> = BTreeMap::new();
    let mut kind = String::new();
    for line in text.lines() {
        if let Some(name) = line.strip_prefix("## `") {
            kind = name.trim_end_matches('`').into();
            let both = ["schema", "kind"].map(|name| {
                let is = if name == "kind" { "text" } else { "number" };
                let is_always = true;
                (name.to_string(), Field { is, is_always })
            });
            assert!(
                kinds.insert(kind.clone(), both.into()).is_none(),
                "{kind} twice"
            );
        } else if let Some(row) = line.strip_prefix("| `") {
            let cells: Vec<&str> = row.split('|').map(str::trim).collect();
            let is = ["list of texts", "number", "text", "true"]
                .into_iter()
                .find(|is| cells[1].starts_with(is))
                .unwrap_or_else(|| panic!("{line}"));
            let is_always = !cells[1].ends_with(", not always");
            let name = cells[0].trim_end_matches('`').to_string();
            kinds
                .get_mut(&kind)
                .expect("a kind")
                .insert(name, Field { is, is_always });
        }
    }
    kinds
}

fn is(value: &Value) -> &'static str {
    match value {
        Value::Number(number) if number.is_u64() => "number",
        Value::String(_) => "text",
        Value::Bool(true) => "true",
        Value::Array(texts) if texts.iter().all(Value::is_string) => "list of texts",
        _ => "something else",
    }
}

#[test]
fn the_page_and_the_objects_are_one() {
    let kinds = page();
    // Code, data, both refusals, each way out, and a branch from one half to the other.
    let words = [
        0xeb00_0010,
        0xfa00_0010,
        0xfaff_fffd,
        0xe12f_ff33,
        0x0a00_0001,
        0xef00_0000,
        0xee00_0a10,
        0xe12f_ff13,
        0x1234_5678,
        0x0a00_0000,
    ];
    let one = written("one.rsx", &section_2(0x8000, &[(8, 1)], &words));
    let other = written("other.rsx", &section(0x8000, &words[..7]));
    let calls = [
        &["list", &one, &other, "--annotate"][..],
        &["list", &other],
        &["walk", &one, "--entry", "0", "9"],
        &["walk", &other, "--entry", "3"],
        &["count", &one, &other],
        &["callers", &one, "--jumps"],
        &["diff", &one, &other],
        &["diff", &other, &one],
        &["explain", "e0810002@8000"],
        &["explain", "ef000000"],
        &["encode", "add r0 r1 r2 next", "@8000"],
    ];
    let mut seen: BTreeMap<String, BTreeSet<String>> = BTreeMap::new();
    for call in calls {
        let given = bd(&[call, &["--format", "json"]].concat());
        assert_ne!(given.status, 2, "{call:?}: {}", given.err);
        for line in given.text().lines() {
            let object: Value = serde_json::from_str(line).expect("an object");
            let object = object.as_object().expect("an object");
            assert_eq!(object["schema"], bd::SCHEMA, "{line}");
            let kind = object["kind"].as_str().expect("a kind");
            let fields = kinds
                .get(kind)
                .unwrap_or_else(|| panic!("the page has no kind {kind}"));
            for (name, value) in object {
                let field = fields
                    .get(name)
                    .unwrap_or_else(|| panic!("the page has no {name} of {kind}"));
                assert_eq!(is(value), field.is, "{name} of {line}");
                seen.entry(kind.into()).or_default().insert(name.clone());
            }
            for (name, _) in fields.iter().filter(|(_, field)| field.is_always) {
                assert!(object.contains_key(name), "no {name} in {line}");
            }
        }
    }
    for (kind, fields) in &kinds {
        let seen = seen
            .get(kind)
            .unwrap_or_else(|| panic!("no {kind} was written"));
        for name in fields.keys() {
            assert!(seen.contains(name), "no {name} of {kind} was written");
        }
    }
}
