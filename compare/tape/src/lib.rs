//! A tape: what a raw lexer says of one script. The stand-ins for the raw
//! lexer and for the unescaping answer from the tape that their thread plays.

use std::{
    cell::RefCell,
    error::Error,
    fmt::{self, Display},
    rc::Rc,
    str::FromStr,
};

/// Raw kinds are numbers here, flags included: 0 up to, not including, this.
/// The end of the file has the number after them and stands on no tape.
pub const KINDS: u8 = 71;

/// Escape faults: 0 up to, not including, this.
pub const FAULTS: u8 = 23;

/// The raw kinds that a rule names. Of a pair, the one with its flag set is
/// the next number.
pub mod kind {
    pub const FRONTMATTER: u8 = 9;
    pub const WHITESPACE: u8 = 13;
    pub const IDENT: u8 = 14;
    pub const INVALID_IDENT: u8 = 15;
    pub const RAW_IDENT: u8 = 16;
    pub const GUARDED_PREFIX: u8 = 17;
    pub const INT: u8 = 18;
    pub const FLOAT: u8 = 20;
    pub const CHAR: u8 = 22;
    pub const BYTE: u8 = 24;
    pub const STR: u8 = 26;
    pub const BYTE_STR: u8 = 28;
    pub const C_STR: u8 = 30;
    pub const RAW_STR: u8 = 32;
    pub const RAW_BYTE_STR: u8 = 34;
    pub const RAW_C_STR: u8 = 36;
    pub const LIFETIME: u8 = 38;
    pub const UNKNOWN_PREFIX_LIFETIME: u8 = 40;
    pub const RAW_LIFETIME: u8 = 41;
    /// The first of the single marks, which are in the order of [`MARKS`].
    ///
    /// [`MARKS`]: crate::MARKS
    pub const SEMI: u8 = 42;
    pub const POUND: u8 = 52;
    pub const MINUS: u8 = 61;
    pub const UNKNOWN: u8 = 69;
    pub const UNKNOWN_PREFIX: u8 = 70;
}

/// The single marks, in the order of their raw kinds.
pub const MARKS: &str = ";,.(){}[]@#~?:$=!<>-&|+*/^%";

#[derive(Clone, Debug, PartialEq, Eq, Hash)]
pub struct Mark {
    pub place: usize,
    pub kind: u8,
    pub len: usize,
    pub faults: Vec<u8>,
}

/// Marks ascend by place. At a place without one there is an unknown token of
/// one character. A shebang length of 0 says that there is no shebang.
#[derive(Clone, Debug, Default, PartialEq, Eq, Hash)]
pub struct Tape {
    pub shebang: usize,
    pub marks: Vec<Mark>,
}

impl Tape {
    /// What is wrong with the tape for this script: the number of the first
    /// bad mark, or the number of marks if it is the shebang length.
    pub fn fault(&self, script: &str) -> Option<usize> {
        let bad = (0..self.marks.len()).find(|&at| {
            let mark = &self.marks[at];
            let rises = at == 0 || self.marks[at - 1].place < mark.place;
            !rises || !mark.fits(script)
        });
        let shebang = self.shebang == 0
            || (2..=script.len()).contains(&self.shebang) && script.is_char_boundary(self.shebang);
        bad.or((!shebang).then_some(self.marks.len()))
    }

    fn at(&self, place: usize) -> Option<&Mark> {
        let found = self.marks.binary_search_by_key(&place, |mark| mark.place);
        found.ok().map(|at| &self.marks[at])
    }
}

impl Mark {
    /// The mark may stand over this script.
    pub fn fits(&self, script: &str) -> bool {
        let end = self.place.checked_add(self.len);
        let Some(text) = end.and_then(|end| script.get(self.place..end)) else {
            return false;
        };
        let spelled = match self.kind {
            kind::GUARDED_PREFIX => text.len() == 2 && text.is_ascii(),
            kind::C_STR..kind::RAW_STR => text.starts_with('c'),
            kind::RAW_C_STR..kind::LIFETIME => text.starts_with("cr"),
            kind::RAW_LIFETIME => text.starts_with("'r"),
            number => number < KINDS,
        };
        !text.is_empty()
            && spelled
            && self.faults.len() <= text.len()
            && self.faults.iter().all(|&fault| fault < FAULTS)
    }
}

impl Display for Mark {
    fn fmt(&self, f: &mut fmt::Formatter<'_>) -> fmt::Result {
        write!(f, "{}:{}:{}", self.place, self.kind, self.len)?;
        for (at, fault) in self.faults.iter().enumerate() {
            let joint = if at == 0 { ':' } else { '.' };
            write!(f, "{joint}{fault}")?;
        }
        Ok(())
    }
}

/// `SHEBANG;MARKS`, with `-` for no marks.
impl Display for Tape {
    fn fmt(&self, f: &mut fmt::Formatter<'_>) -> fmt::Result {
        write!(f, "{};", self.shebang)?;
        for (at, mark) in self.marks.iter().enumerate() {
            if at > 0 {
                f.write_str(",")?;
            }
            write!(f, "{mark}")?;
        }
        if self.marks.is_empty() {
            f.write_str("-")?;
        }
        Ok(())
    }
}

impl FromStr for Mark {
    type Err = Box<dyn Error>;

    fn from_str(text: &str) -> Result<Mark, Self::Err> {
        let parts: Vec<&str> = text.split(':').collect();
        let (place, kind, len, faults) = match parts[..] {
            [place, kind, len] => (place, kind, len, Vec::new()),
            [place, kind, len, faults] => {
                let faults: Result<_, _> = faults.split('.').map(str::parse).collect();
                (place, kind, len, faults?)
            }
            _ => return Err(format!("no mark: {text}").into()),
        };
        Ok(Mark {
            place: place.parse()?,
            kind: kind.parse()?,
            len: len.parse()?,
            faults,
        })
    }
}

impl FromStr for Tape {
    type Err = Box<dyn Error>;

    fn from_str(text: &str) -> Result<Tape, Self::Err> {
        let (shebang, marks) = text
            .split_once(';')
            .ok_or_else(|| format!("no tape: {text}"))?;
        let marks: Result<_, _> = match marks {
            "-" => Ok(Vec::new()),
            marks => marks.split(',').map(str::parse).collect(),
        };
        Ok(Tape {
            shebang: shebang.parse()?,
            marks: marks?,
        })
    }
}

/// The tape in play, and where its script lies in memory.
struct Played {
    start: usize,
    length: usize,
    tape: Rc<Tape>,
}

thread_local! {
    static PLAYED: RefCell<Option<Played>> = const { RefCell::new(None) };
}

/// Works with the tape in play. The one before comes back afterwards, after a
/// panic too.
pub fn play<T>(script: &str, tape: &Tape, work: impl FnOnce() -> T) -> T {
    struct Before(Option<Played>);
    impl Drop for Before {
        fn drop(&mut self) {
            PLAYED.replace(self.0.take());
        }
    }

    let played = Played {
        start: script.as_ptr().addr(),
        length: script.len(),
        tape: Rc::new(tape.clone()),
    };
    let _before = Before(PLAYED.replace(Some(played)));
    work()
}

/// The mark of the token that begins so many bytes before `text`, which is a
/// part of the script in play.
pub fn mark_before(text: &str, bytes: usize) -> Option<Mark> {
    PLAYED.with_borrow(|played| {
        let played = played.as_ref().expect("no tape is in play");
        let place = text.as_ptr().addr() - played.start;
        assert!(place + text.len() <= played.length, "not of this script");
        played.tape.at(place - bytes).cloned()
    })
}

/// The shebang length that the tape in play has.
pub fn shebang() -> usize {
    PLAYED.with_borrow(|played| played.as_ref().expect("no tape is in play").tape.shebang)
}

#[cfg(test)]
mod tests {
    use super::*;

    fn tape(text: &str) -> Tape {
        text.parse().unwrap()
    }

    #[test]
    fn lines() {
        for line in ["0;-", "2;0:14:3", "0;0:23:5:3.0.22,5:13:1"] {
            assert_eq!(tape(line).to_string(), line);
        }
        for line in ["0", "0;", "0;1", "0;1:2", "0;1:2:3:", "0;0:1:2:3.", ";-"] {
            assert!(line.parse::<Tape>().is_err(), "{line}");
        }
    }

    #[test]
    fn faults_of_a_tape() {
        let fault = |script, line| tape(line).fault(script);
        assert_eq!(fault("a日", "0;0:14:1,1:14:3"), None);
        assert_eq!(fault("a日", "0;0:14:1,1:14:2"), Some(1)); // inside a character
        assert_eq!(fault("a日", "0;0:14:1,2:14:2"), Some(1));
        assert_eq!(fault("ab", "0;1:14:1,0:14:1"), Some(1)); // not ascending
        assert_eq!(fault("ab", "0;0:14:1,0:14:1"), Some(1));
        assert_eq!(fault("ab", "0;0:14:0"), Some(0)); // no length, past the end
        assert_eq!(fault("ab", "0;0:14:3"), Some(0));
        assert_eq!(fault("ab", "0;2:14:1"), Some(0));
        assert_eq!(fault("ab", "0;0:71:1"), Some(0)); // no kinds
        assert_eq!(fault("ab", "0;0:27:1:23"), Some(0));
        assert_eq!(fault("ab", "0;0:27:1:0.0"), Some(0)); // more faults than bytes
        assert_eq!(fault("ab", "0;0:27:2:0.0"), None);
        assert_eq!(fault("##", "0;0:17:2"), None); // spelling
        assert_eq!(fault("é", "0;0:17:2"), Some(0));
        assert_eq!(fault("###", "0;0:17:3"), Some(0));
        assert_eq!(fault("c", "0;0:30:1"), None);
        assert_eq!(fault("b", "0;0:31:1"), Some(0));
        assert_eq!(fault("cr", "0;0:37:2"), None);
        assert_eq!(fault("cr", "0;0:36:1"), Some(0));
        assert_eq!(fault("'r", "0;0:41:2"), None);
        assert_eq!(fault("'s", "0;0:41:2"), Some(0));
        assert_eq!(fault("ab", "2;0:14:1"), None); // shebang lengths
        assert_eq!(fault("ab", "1;0:14:1"), Some(1));
        assert_eq!(fault("ab", "3;0:14:1"), Some(1));
        assert_eq!(fault("aé", "2;-"), Some(0));
    }

    #[test]
    fn found_by_address() {
        let script = "ab'c'";
        let outcome = play(script, &tape("3;2:23:3:6"), || {
            assert_eq!(shebang(), 3);
            assert_eq!(mark_before(&script[1..], 0), None);
            mark_before(&script[3..4], 1)
        });
        assert_eq!(outcome.map(|mark| mark.faults), Some(vec![6]));
    }
}
