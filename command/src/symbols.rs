//! The symbols of a file, and which of them an address lies in.

use std::collections::BTreeSet;
use std::ops::Deref;

/// A name of an address.
#[derive(Debug, Clone, PartialEq, Eq)]
pub struct Symbol {
    pub address: u32,
    /// How many bytes it names: its size, or, if it has none, those up to the next symbol of its kind or to the end of its section.
    pub size: u32,
    pub name: String,
    /// The source file of a local symbol, which tells it from others of its name.
    pub file: Option<String>,
    /// Whether the file says that it is a routine.
    pub is_routine: bool,
    /// Whether a routine of another file could call it: a global name that is not said to be data.
    pub is_entry: bool,
}

impl Symbol {
    /// The address behind its last byte.
    pub fn end(&self) -> u64 {
        u64::from(self.address) + u64::from(self.size)
    }

    /// Its name with what tells it from others: the file, or else the address.
    pub fn qualified(&self) -> String {
        match &self.file {
            Some(file) => format!("{file}:{}", self.name),
            None => format!("0x{:08x}", self.address),
        }
    }
}

/// Symbols in order of address. Of those at one address the one that stands for it is the last: a routine rather than a label, and a global
/// name rather than a local one.
#[derive(Debug, Default)]
pub struct Symbols {
    all: Vec<Symbol>,
    /// From each address on, up to the next of the list, the symbol that what lies there is told by.
    spans: Vec<(u64, Option<usize>)>,
}

impl Symbols {
    pub fn new(mut all: Vec<Symbol>) -> Symbols {
        let rank = |symbol: &Symbol| {
            (
                symbol.address,
                symbol.is_routine,
                symbol.is_entry,
                symbol.file.is_none(),
            )
        };
        all.sort_by(|a, b| rank(a).cmp(&rank(b)).then_with(|| a.name.cmp(&b.name)));
        let spans = spans(&all);
        Symbols { all, spans }
    }

    /// The routine that an address lies in, or else the last symbol that it lies in.
    pub fn at(&self, address: u32) -> Option<&Symbol> {
        let before = self
            .spans
            .partition_point(|(first, _)| *first <= u64::from(address));
        let (_, symbol) = self.spans[..before].last()?;
        symbol.map(|symbol| &self.all[symbol])
    }

    /// Those from an address on, up to another.
    pub fn between(&self, first: u32, end: u64) -> &[Symbol] {
        let before = self.all.partition_point(|symbol| symbol.address < first);
        let inside = self.all[before..].partition_point(|symbol| u64::from(symbol.address) < end);
        &self.all[before..before + inside]
    }
}

impl Deref for Symbols {
    type Target = [Symbol];

    fn deref(&self) -> &[Symbol] {
        &self.all
    }
}

/// Goes over all addresses at which a symbol begins or ends. Of those that are open the one that counts is the last routine, or else the last.
fn spans(all: &[Symbol]) -> Vec<(u64, Option<usize>)> {
    let begin = all
        .iter()
        .enumerate()
        .map(|(at, symbol)| (u64::from(symbol.address), true, at));
    let end = all
        .iter()
        .enumerate()
        .map(|(at, symbol)| (symbol.end(), false, at));
    let mut bounds: Vec<(u64, bool, usize)> = begin.chain(end).collect();
    bounds.sort_unstable();
    let mut open = BTreeSet::new();
    let mut spans: Vec<(u64, Option<usize>)> = Vec::new();
    for (address, begins, at) in bounds {
        let symbol = (all[at].is_routine, at);
        if begins {
            open.insert(symbol);
        } else {
            open.remove(&symbol);
        }
        let counts = open.last().map(|(_, at)| *at);
        match spans.last_mut() {
            Some((last, symbol)) if *last == address => *symbol = counts,
            _ => spans.push((address, counts)),
        }
    }
    spans
}

#[cfg(test)]
mod tests {
    use super::*;

    fn symbol(name: &str, address: u32, size: u32, is_routine: bool) -> Symbol {
        let (name, file) = (name.into(), None);
        Symbol {
            address,
            size,
            name,
            file,
            is_routine,
            is_entry: is_routine,
        }
    }

    #[test]
    fn an_address_is_told_by_its_routine() {
        let symbols = Symbols::new(vec![
            symbol("outer", 0, 100, true),
            symbol("label", 20, 80, false),
            symbol("inner", 40, 20, true),
            symbol("data", 120, 4, false),
            symbol("last", u32::MAX - 3, 4, true),
        ]);
        let at = |address| symbols.at(address).map(|symbol| symbol.name.as_str());
        assert_eq!(at(0), Some("outer"));
        assert_eq!(at(24), Some("outer"));
        assert_eq!(at(40), Some("inner"));
        assert_eq!(at(60), Some("outer"));
        assert_eq!(at(100), None);
        assert_eq!(at(123), Some("data"));
        assert_eq!(at(124), None);
        assert_eq!(at(u32::MAX), Some("last"));
    }

    #[test]
    fn of_several_at_one_address_a_routine_stands_for_it() {
        let symbols = Symbols::new(vec![
            symbol("foo", 8, 4, true),
            symbol("__start", 8, 4, false),
        ]);
        assert_eq!(
            symbols.at(8).map(|symbol| symbol.name.as_str()),
            Some("foo")
        );
        assert_eq!(
            symbols
                .between(8, 9)
                .last()
                .map(|symbol| symbol.name.as_str()),
            Some("foo")
        );
    }
}
