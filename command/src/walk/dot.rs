//! A walk as a graph: a node for each run of words, and ways out in a colour of their own.

use super::{KINDS, Report};
use crate::lines::parts;
use crate::say::Result;
use brassdozen::kind;
use std::collections::BTreeSet;
use std::io::Write;

pub fn write(report: &Report, entry: usize, out: &mut dyn Write) -> Result<()> {
    let reached: BTreeSet<usize> = report
        .records
        .iter()
        .filter(|record| record.kind == kind::REACHED)
        .map(|record| record.place)
        .collect();
    let steps: Vec<(usize, Vec<usize>)> = reached
        .iter()
        .map(|place| (*place, steps(report, *place, &reached)))
        .collect();
    let first = firsts(entry, &steps);

    writeln!(out, "digraph walk {{")?;
    writeln!(
        out,
        "    node [shape=box, fontname=monospace, fontsize=10];"
    )?;
    writeln!(
        out,
        "    start [label={}, shape=plaintext];",
        quoted(&name(report, entry))
    )?;
    writeln!(out, "    start -> w{entry};")?;
    let mut node = entry;
    let mut label = String::new();
    for (at, (place, leads)) in steps.iter().enumerate() {
        if first.contains(place) {
            node = *place;
            label = format!("{}\\l", escaped(&name(report, node)));
        }
        label.push_str(&escaped(report.lines[*place]));
        label.push_str("\\l");
        let is_last = steps
            .get(at + 1)
            .is_none_or(|(next, _)| first.contains(next));
        if is_last {
            writeln!(out, "    w{node} [label=\"{label}\"];")?;
            for to in leads {
                let style = if *to == place + 1 {
                    ""
                } else {
                    " [style=bold]"
                };
                writeln!(out, "    w{node} -> w{to}{style};")?;
            }
        }
        let ways = report
            .records
            .iter()
            .filter(|record| record.place == *place && record.kind != kind::REACHED);
        for way in ways {
            let called = KINDS[way.kind as usize];
            let to = match way.kind {
                kind::OUT | kind::THUMB => {
                    let symbol = report
                        .code
                        .symbolic(way.value)
                        .map(|symbol| format!(" {symbol}"))
                        .unwrap_or_default();
                    format!("{called} @{:08x}{symbol}", way.value)
                }
                _ => called.into(),
            };
            let colour = if matches!(way.kind, kind::OUT | kind::END) {
                "red"
            } else {
                "orange"
            };
            writeln!(
                out,
                "    x{place}_{} [label={}, color={colour}, fontcolor={colour}, shape=ellipse];",
                way.kind,
                quoted(&to)
            )?;
            writeln!(
                out,
                "    w{node} -> x{place}_{} [color={colour}];",
                way.kind
            )?;
        }
    }
    Ok(writeln!(out, "}}")?)
}

/// The places that begin a node: the entry, where more than one step or one from elsewhere leads, and what is behind more than one way.
fn firsts(entry: usize, steps: &[(usize, Vec<usize>)]) -> BTreeSet<usize> {
    let mut firsts = BTreeSet::from([entry]);
    for (at, (place, leads)) in steps.iter().enumerate() {
        let goes_on = leads.as_slice() == [place + 1];
        if !goes_on {
            firsts.extend(leads);
            firsts.extend(steps.get(at + 1).map(|(next, _)| *next));
        }
    }
    firsts
}

/// Where the word at a place leads: on, if its next word is reached and its line does not end the way, and to its target.
fn steps(report: &Report, place: usize, reached: &BTreeSet<usize>) -> Vec<usize> {
    let line = parts(report.lines[place]);
    let said: Vec<&str> = line.rest.split(' ').collect();
    let stops = report
        .records
        .iter()
        .any(|record| record.place == place && record.kind == kind::STOPPED);
    let is_conditional = line.word.starts_with(|digit: char| digit < 'e');
    let goes_on = match said.last() {
        _ if stops => false,
        Some(&"next" | &"call" | &"icall" | &"jump?") => true,
        Some(&"jump") => false,
        _ => is_conditional,
    };
    let mut leads = Vec::new();
    if goes_on && reached.contains(&(place + 1)) {
        leads.push(place + 1);
    }
    let enters =
        matches!(said.last(), Some(&"jump" | &"jump?" | &"call")) && !said[0].starts_with("blx");
    let target = said
        .iter()
        .find_map(|part| part.strip_prefix('@'))
        .filter(|_| enters);
    let target = target
        .and_then(|target| u32::from_str_radix(target, 16).ok())
        .and_then(|target| report.code.place(target));
    leads.extend(target.filter(|target| reached.contains(target) && !leads.contains(target)));
    leads
}

fn name(report: &Report, place: usize) -> String {
    let address = report.code.address(place);
    report
        .code
        .symbolic(address)
        .unwrap_or_else(|| format!("{address:08x}"))
}

fn quoted(text: &str) -> String {
    format!("\"{}\"", escaped(text))
}

fn escaped(text: &str) -> String {
    text.replace('\\', "\\\\").replace('"', "\\\"")
}
