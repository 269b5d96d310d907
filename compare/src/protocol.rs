//! The lines that both sides speak.

use std::{
    fmt::{self, Display, Write as _},
    str::FromStr,
};

use tape::Tape;

use crate::Res;

/// One question; it prints as its line.
#[derive(Clone, Debug, PartialEq, Eq, Hash)]
pub enum Question {
    Frontmatter(Vec<u8>),
    /// Edition 0..=3 for 2015, 2018, 2021, 2024; others are to be refused.
    Keyword(u8, String),
    Trivia(u16),
    Lexing(Lexing),
}

/// A question on a script and its tape.
#[derive(Clone, Debug, PartialEq, Eq, Hash)]
pub struct Lexing {
    pub asked: Asked,
    pub edition: u8,
    pub script: Vec<u8>,
    pub tape: Tape,
}

#[derive(Clone, Copy, Debug, PartialEq, Eq, PartialOrd, Ord, Hash)]
pub enum Asked {
    /// The token columns: kinds, starts, errors.
    Columns,
    /// The parser input that is made from the columns.
    Input,
    /// The one token that the script is.
    Single,
}

impl Asked {
    pub const ALL: [Asked; 3] = [Asked::Columns, Asked::Input, Asked::Single];

    pub fn letter(self) -> char {
        match self {
            Asked::Columns => 'L',
            Asked::Input => 'I',
            Asked::Single => 'S',
        }
    }
}

impl Display for Question {
    fn fmt(&self, f: &mut fmt::Formatter<'_>) -> fmt::Result {
        match self {
            Question::Frontmatter(script) => write!(f, "F {}", Hex(script)),
            Question::Keyword(edition, ident) => write!(f, "K {edition} {}", Hex(ident.as_bytes())),
            Question::Trivia(kind) => write!(f, "T {kind}"),
            Question::Lexing(Lexing {
                asked,
                edition,
                script,
                tape,
            }) => write!(f, "{} {edition} {} {tape}", asked.letter(), Hex(script)),
        }
    }
}

impl FromStr for Question {
    type Err = Box<dyn std::error::Error>;

    fn from_str(line: &str) -> Res<Self> {
        let words: Vec<&str> = line.split(' ').collect();
        match words[..] {
            ["F", script] => Ok(Question::Frontmatter(bytes(script)?)),
            ["K", edition, ident] => Ok(Question::Keyword(
                edition.parse()?,
                String::from_utf8(bytes(ident)?)?,
            )),
            ["T", kind] => Ok(Question::Trivia(kind.parse()?)),
            [letter, edition, script, tape] => {
                let asked = Asked::ALL
                    .into_iter()
                    .find(|asked| letter == asked.letter().to_string())
                    .ok_or_else(|| format!("no question: {line}"))?;
                Ok(Question::Lexing(Lexing {
                    asked,
                    edition: edition.parse()?,
                    script: bytes(script)?,
                    tape: tape.parse()?,
                }))
            }
            _ => Err(format!("no question: {line}").into()),
        }
    }
}

fn bytes(hex: &str) -> Res<Vec<u8>> {
    if hex == "-" {
        return Ok(Vec::new());
    }
    let pairs = hex.as_bytes().chunks(2);
    pairs
        .map(|pair| Ok(u8::from_str_radix(str::from_utf8(pair)?, 16)?))
        .collect()
}

impl Question {
    /// The bytes in question as a person can read them.
    pub fn escaped(&self) -> String {
        match self {
            Question::Frontmatter(script) => escaped(script),
            Question::Keyword(_, ident) => escaped(ident.as_bytes()),
            Question::Trivia(kind) => kind.to_string(),
            Question::Lexing(lexing) => escaped(&lexing.script),
        }
    }
}

struct Hex<'a>(&'a [u8]);

impl Display for Hex<'_> {
    fn fmt(&self, f: &mut fmt::Formatter<'_>) -> fmt::Result {
        const DIGITS: &[u8; 16] = b"0123456789abcdef";
        if self.0.is_empty() {
            return f.write_str("-");
        }
        let mut text = String::with_capacity(2 * self.0.len());
        for byte in self.0 {
            text.push(DIGITS[usize::from(byte >> 4)] as char);
            text.push(DIGITS[usize::from(byte & 15)] as char);
        }
        f.write_str(&text)
    }
}

/// Characters as in a string literal, everything outside ASCII by number, and
/// bytes that are not UTF-8 one by one.
fn escaped(bytes: &[u8]) -> String {
    let mut text = String::from("\"");
    for chunk in bytes.utf8_chunks() {
        text.extend(chunk.valid().chars().flat_map(char::escape_default));
        for byte in chunk.invalid() {
            // Writing to a string cannot fail.
            let _ = write!(text, "\\x{byte:02x}");
        }
    }
    text.push('"');
    text
}

#[cfg(test)]
mod tests {
    use super::*;

    #[test]
    fn lines() {
        assert_eq!(Question::Frontmatter(vec![]).to_string(), "F -");
        assert_eq!(
            Question::Frontmatter(vec![0, 0x2d, 0xff]).to_string(),
            "F 002dff"
        );
        assert_eq!(Question::Keyword(3, "fn".into()).to_string(), "K 3 666e");
        assert_eq!(Question::Trivia(17).to_string(), "T 17");
    }

    #[test]
    fn lines_come_back() {
        for line in [
            "F 2d",
            "K 0 -",
            "T 3",
            "L 0 - 0;-",
            "I 3 2b61 2;0:64:1,1:14:1",
            "S 2 6227612e27 0;0:25:5:3.22",
        ] {
            assert_eq!(line.parse::<Question>().unwrap().to_string(), line);
        }
        for line in ["", "L", "L 0 -", "X 0 - 0;-", "L 0 - -", "L x - 0;-"] {
            assert!(line.parse::<Question>().is_err(), "{line}");
        }
    }

    #[test]
    fn escapes() {
        let question = Question::Frontmatter(b"-\n\xc3\xa9\xc0\"".to_vec());
        assert_eq!(question.escaped(), r#""-\n\u{e9}\xc0\"""#);
    }
}
