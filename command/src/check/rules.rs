//! A file of rules: a statement a line. docs/RULES.md has the grammar.

use std::fmt;

/// Where something stands in the file: line and column, from 1 on.
#[derive(Debug, Clone, Copy, PartialEq, Eq)]
pub struct Spot {
    pub line: usize,
    pub column: usize,
}

/// A part of a statement, and where it stands.
#[derive(Debug, Clone, PartialEq, Eq)]
pub struct At<T> {
    pub spot: Spot,
    pub what: T,
}

/// A place as a user names it: `SYMBOL`, `SYMBOL+0xN` or `0xADDRESS`.
#[derive(Debug, Clone, PartialEq, Eq)]
pub enum Place {
    Symbol(String),
    Offset(String, u32),
    Address(u32),
}

/// What is assumed of code outside the section.
#[derive(Debug, Clone, Copy, PartialEq, Eq)]
pub enum Outside {
    MayStore,
    Quiet,
    Barrier,
    NoReturn,
}

/// A kind of barrier, with the options that count.
#[derive(Debug, Clone, PartialEq, Eq)]
pub enum Barrier {
    Dsb(Vec<String>),
    Dmb(Vec<String>),
    McrDsb,
    McrDmb,
}

/// A place with the word that has to stand there, and the reason.
#[derive(Debug, Clone, PartialEq, Eq)]
pub struct Fixed {
    pub place: At<Place>,
    pub word: At<u32>,
    pub because: Option<String>,
}

#[derive(Debug, Clone, PartialEq, Eq)]
pub enum Statement {
    Section(At<String>),
    Entry(Vec<At<Place>>),
    Outside {
        places: Vec<At<Place>>,
        how: Outside,
        if_used: bool,
    },
    Targets {
        from: At<Place>,
        to: Targets,
    },
    Next(Fixed),
    Barrier(Barrier),
    CommitMarked,
    CommitCalls(Vec<At<Place>>),
    CommitAt(Fixed),
    Unreached(Vec<At<Place>>),
    Elsewhere(Vec<At<String>>),
    StoresAll,
    RuleClosed,
    RuleCommit,
    WaiveStore(Fixed),
}

#[derive(Debug, Clone, PartialEq, Eq)]
pub enum Targets {
    Places(Vec<At<Place>>),
    Outside,
}

/// What is wrong, and where.
#[derive(Debug, Clone, PartialEq, Eq)]
pub struct Wrong {
    pub spot: Spot,
    pub what: String,
}

impl fmt::Display for Wrong {
    fn fmt(&self, f: &mut fmt::Formatter<'_>) -> fmt::Result {
        write!(f, "{}:{}: {}", self.spot.line, self.spot.column, self.what)
    }
}

type Result<T> = std::result::Result<T, Wrong>;

/// Reads a file of rules.
pub fn read(text: &str) -> Result<Vec<At<Statement>>> {
    let mut statements = Vec::new();
    for (number, line) in text.lines().enumerate() {
        let mut words = Words::new(number + 1, line)?;
        if let Some(first) = words.next() {
            let what = statement(&first, &mut words)?;
            words.end()?;
            statements.push(At {
                spot: first.spot,
                what,
            });
        }
    }
    Ok(statements)
}

fn statement(first: &At<Word>, words: &mut Words) -> Result<Statement> {
    match first.what.text() {
        "section" => Ok(Statement::Section(words.name("a section's name")?)),
        "entry" => Ok(Statement::Entry(words.places("an entry")?)),
        "outside" => outside(words),
        "targets" => targets(words),
        "next" => {
            words.keyword("at")?;
            Ok(Statement::Next(words.fixed(true)?))
        }
        "barrier" => barrier(words),
        "commit" => commit(words),
        "unreached" => Ok(Statement::Unreached(words.places("a routine")?)),
        "elsewhere" => Ok(Statement::Elsewhere(words.names("a section's name")?)),
        "stores" => words.keyword("all").map(|()| Statement::StoresAll),
        "rule" => match words.one_of(&["closed", "commit"])? {
            "closed" => Ok(Statement::RuleClosed),
            _ => Ok(Statement::RuleCommit),
        },
        "waive" => {
            words.keyword("store")?;
            words.keyword("at")?;
            Ok(Statement::WaiveStore(words.fixed(true)?))
        }
        other => Err(Wrong {
            spot: first.spot,
            what: format!(
                "there is no statement {other}: section, entry, outside, targets, next, barrier, commit, unreached, elsewhere, stores, rule or waive"
            ),
        }),
    }
}

/// `outside PLACE.. [quiet | barrier | noreturn] [if used]`
fn outside(words: &mut Words) -> Result<Statement> {
    let mut places = Vec::new();
    let (mut how, mut if_used) = (Outside::MayStore, false);
    while let Some(word) = words.next() {
        match word.what.text() {
            "quiet" => how = Outside::Quiet,
            "barrier" => how = Outside::Barrier,
            "noreturn" => how = Outside::NoReturn,
            "if" => {
                words.keyword("used")?;
                if_used = true;
            }
            _ => {
                if how != Outside::MayStore || if_used {
                    return Err(Wrong {
                        spot: word.spot,
                        what: "places stand before what is said of them".into(),
                    });
                }
                places.push(place(&word)?);
            }
        }
        if if_used {
            break;
        }
    }
    match places.is_empty() {
        true => Err(words.wanted("a place")),
        false => Ok(Statement::Outside {
            places,
            how,
            if_used,
        }),
    }
}

/// `targets PLACE = PLACE..` or `targets PLACE = outside`
fn targets(words: &mut Words) -> Result<Statement> {
    let from = words.place("the place of a branch")?;
    words.keyword("=")?;
    let to = match words.peek() {
        Some("outside") => {
            words.next();
            Targets::Outside
        }
        _ => Targets::Places(words.places("a target")?),
    };
    Ok(Statement::Targets { from, to })
}

/// `barrier dsb OPTION..`, `barrier dmb OPTION..`, `barrier mcr dsb`, `barrier mcr dmb`
fn barrier(words: &mut Words) -> Result<Statement> {
    let options = |words: &mut Words| {
        words
            .names("an option, as sy")
            .map(|names| names.into_iter().map(|name| name.what).collect())
    };
    let kind = match words.one_of(&["dsb", "dmb", "mcr"])? {
        "dsb" => Barrier::Dsb(options(words)?),
        "dmb" => Barrier::Dmb(options(words)?),
        _ => match words.one_of(&["dsb", "dmb"])? {
            "dsb" => Barrier::McrDsb,
            _ => Barrier::McrDmb,
        },
    };
    Ok(Statement::Barrier(kind))
}

/// `commit marked`, `commit calls PLACE..`, `commit at PLACE word WORD`
fn commit(words: &mut Words) -> Result<Statement> {
    match words.one_of(&["marked", "calls", "at"])? {
        "marked" => Ok(Statement::CommitMarked),
        "calls" => Ok(Statement::CommitCalls(words.places("a routine")?)),
        _ => Ok(Statement::CommitAt(words.fixed(false)?)),
    }
}

/// A place of its text.
fn place(word: &At<Word>) -> Result<At<Place>> {
    let wrong = |what: String| Wrong {
        spot: word.spot,
        what,
    };
    let Word::Plain(text) = &word.what else {
        return Err(wrong(
            "a place is a symbol, a symbol and +0x.., or an address 0x..".into(),
        ));
    };
    let number = |digits: &str| {
        u32::from_str_radix(digits, 16)
            .map_err(|_| wrong(format!("{text}: 0x{digits} is no number of 32 bits")))
    };
    let what = match (text.strip_prefix("0x"), text.rsplit_once("+0x")) {
        (Some(digits), _) => Place::Address(number(digits)?),
        (None, Some((symbol, digits))) => Place::Offset(symbol.into(), number(digits)?),
        (None, None) if text.contains(['+', '=']) => {
            return Err(wrong(format!(
                "{text} is no place: an offset begins with +0x"
            )));
        }
        (None, None) => Place::Symbol(text.clone()),
    };
    Ok(At {
        spot: word.spot,
        what,
    })
}

/// A word of a line: plain, or in quotes.
#[derive(Debug, Clone, PartialEq, Eq)]
enum Word {
    Plain(String),
    Quoted(String),
}

impl Word {
    fn text(&self) -> &str {
        match self {
            Word::Plain(text) | Word::Quoted(text) => text,
        }
    }
}

/// What is left of a line.
struct Words {
    words: std::vec::IntoIter<At<Word>>,
    end: Spot,
}

impl Words {
    fn new(line: usize, text: &str) -> Result<Words> {
        let mut words = Vec::new();
        let mut rest = text.char_indices().peekable();
        let column = |at: usize| text[..at].chars().count() + 1;
        while let Some((at, first)) = rest.next() {
            let spot = Spot {
                line,
                column: column(at),
            };
            match first {
                '#' => break,
                _ if first.is_whitespace() => continue,
                '"' => {
                    let mut quoted = String::new();
                    loop {
                        match rest.next() {
                            Some((_, '"')) => break,
                            Some((_, other)) => quoted.push(other),
                            None => {
                                return Err(Wrong {
                                    spot,
                                    what: "the text has no closing quote".into(),
                                });
                            }
                        }
                    }
                    words.push(At {
                        spot,
                        what: Word::Quoted(quoted),
                    });
                }
                _ => {
                    let mut plain = String::from(first);
                    while let Some((_, next)) = rest
                        .next_if(|(_, next)| !next.is_whitespace() && !matches!(next, '#' | '"'))
                    {
                        plain.push(next);
                    }
                    words.push(At {
                        spot,
                        what: Word::Plain(plain),
                    });
                }
            }
        }
        let end = Spot {
            line,
            column: text.chars().count() + 1,
        };
        Ok(Words {
            words: words.into_iter(),
            end,
        })
    }

    fn next(&mut self) -> Option<At<Word>> {
        self.words.next()
    }

    fn peek(&self) -> Option<&str> {
        self.words.as_slice().first().map(|word| word.what.text())
    }

    /// What is wrong where something else was wanted.
    fn wanted(&self, what: &str) -> Wrong {
        match self.words.as_slice().first() {
            Some(word) => Wrong {
                spot: word.spot,
                what: format!("{} is not {what}", word.what.text()),
            },
            None => Wrong {
                spot: self.end,
                what: format!("{what} is missing"),
            },
        }
    }

    fn keyword(&mut self, word: &'static str) -> Result<()> {
        self.one_of(&[word]).map(|_| ())
    }

    fn one_of(&mut self, words: &[&'static str]) -> Result<&'static str> {
        let found = self
            .peek()
            .and_then(|next| words.iter().find(|word| **word == next));
        match found {
            Some(word) => {
                self.next();
                Ok(word)
            }
            None => Err(self.wanted(&words.join(" or "))),
        }
    }

    fn name(&mut self, what: &str) -> Result<At<String>> {
        match self.peek() {
            Some(_) => self
                .next()
                .map(|word| At {
                    spot: word.spot,
                    what: word.what.text().into(),
                })
                .ok_or_else(|| self.wanted(what)),
            None => Err(self.wanted(what)),
        }
    }

    fn names(&mut self, what: &str) -> Result<Vec<At<String>>> {
        let mut names = vec![self.name(what)?];
        while self.peek().is_some() {
            names.push(self.name(what)?);
        }
        Ok(names)
    }

    fn place(&mut self, what: &str) -> Result<At<Place>> {
        let wanted = self.wanted(what);
        place(&self.next().ok_or(wanted)?)
    }

    fn places(&mut self, what: &str) -> Result<Vec<At<Place>>> {
        let mut places = vec![self.place(what)?];
        while self.peek().is_some() {
            places.push(self.place(what)?);
        }
        Ok(places)
    }

    /// `PLACE word WORD [because "REASON"]`
    fn fixed(&mut self, with_reason: bool) -> Result<Fixed> {
        let place = self.place("a place")?;
        self.keyword("word")?;
        let word = self.name("a word in hexadecimal")?;
        let number = u32::from_str_radix(&word.what, 16)
            .ok()
            .filter(|_| word.what.len() == 8);
        let number = number.ok_or_else(|| Wrong {
            spot: word.spot,
            what: format!("{} is no word of eight hexadecimal digits", word.what),
        })?;
        let because = if with_reason {
            self.keyword("because")?;
            match self.next() {
                Some(At {
                    what: Word::Quoted(reason),
                    spot,
                }) if reason.trim().is_empty() => {
                    return Err(Wrong {
                        spot,
                        what: "the reason is empty".into(),
                    });
                }
                Some(At {
                    what: Word::Quoted(reason),
                    ..
                }) => Some(reason),
                Some(other) => {
                    return Err(Wrong {
                        spot: other.spot,
                        what: "a reason stands in quotes".into(),
                    });
                }
                None => return Err(self.wanted("a reason in quotes")),
            }
        } else {
            None
        };
        Ok(Fixed {
            place,
            word: At {
                spot: word.spot,
                what: number,
            },
            because,
        })
    }

    fn end(&mut self) -> Result<()> {
        match self.next() {
            None => Ok(()),
            Some(word) => Err(Wrong {
                spot: word.spot,
                what: format!("{} is more than the statement takes", word.what.text()),
            }),
        }
    }
}

#[cfg(test)]
mod tests {
    use super::*;

    fn one(line: &str) -> Statement {
        let mut statements = read(line).unwrap_or_else(|wrong| panic!("{line}: {wrong}"));
        assert_eq!(statements.len(), 1, "{line}");
        statements.remove(0).what
    }

    fn wrong(line: &str) -> String {
        read(line).expect_err(line).to_string()
    }

    #[test]
    fn statements_are_read() {
        assert!(
            matches!(one("section .ramfunc   # code"), Statement::Section(At { what, .. }) if what == ".ramfunc")
        );
        assert!(
            matches!(one("entry a b+0x10 0x1000"), Statement::Entry(places) if places.len() == 3)
        );
        assert!(matches!(
            one("outside rom_crc quiet"),
            Statement::Outside {
                how: Outside::Quiet,
                if_used: false,
                ..
            }
        ));
        assert!(matches!(
            one("outside a 0x1fff1234 if used"),
            Statement::Outside {
                how: Outside::MayStore,
                if_used: true,
                ..
            }
        ));
        assert!(
            matches!(one("targets f+0x24 = g h"), Statement::Targets { to: Targets::Places(to), .. } if to.len() == 2)
        );
        assert!(matches!(
            one("targets hook = outside"),
            Statement::Targets {
                to: Targets::Outside,
                ..
            }
        ));
        assert!(
            matches!(one("barrier dsb sy st"), Statement::Barrier(Barrier::Dsb(options)) if options == ["sy", "st"])
        );
        assert_eq!(one("barrier mcr dmb"), Statement::Barrier(Barrier::McrDmb));
        assert_eq!(one("commit marked"), Statement::CommitMarked);
        assert_eq!(one("rule closed"), Statement::RuleClosed);
        assert!(
            matches!(one("waive store at f+0x2c word e5843038 because \"CR1, # HW-112\""), Statement::WaiveStore(fixed)
            if fixed.word.what == 0xe584_3038 && fixed.because.as_deref() == Some("CR1, # HW-112"))
        );
        assert!(read("\n  # nothing\n").is_ok_and(|statements| statements.is_empty()));
    }

    #[test]
    fn what_is_wrong_has_its_place() {
        assert_eq!(wrong("entry"), "1:6: an entry is missing");
        assert_eq!(wrong("\nrule comit"), "2:6: comit is not closed or commit");
        assert_eq!(
            wrong("commit at f word e58430"),
            "1:18: e58430 is no word of eight hexadecimal digits"
        );
        assert_eq!(
            wrong("waive store at f word e5843038"),
            "1:31: because is missing"
        );
        assert_eq!(
            wrong("waive store at f word e5843038 because CR1"),
            "1:40: a reason stands in quotes"
        );
        assert_eq!(
            wrong("commit marked twice"),
            "1:15: twice is more than the statement takes"
        );
        assert!(wrong("commits marked").starts_with("1:1: there is no statement commits"));
        assert_eq!(
            wrong("next at f word e5843038 because \"x"),
            "1:33: the text has no closing quote"
        );
    }
}
