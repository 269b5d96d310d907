//! The cases: exhaustive over short alphabets, random from a seed.

use std::{collections::BTreeSet, fmt, str};

use tape::Tape;

use crate::{
    protocol::{Asked, Lexing, Question},
    random::Random,
    tables, tapes,
};

/// How a case came about.
#[derive(Clone, Copy, Debug, PartialEq, Eq, PartialOrd, Ord)]
pub enum Source {
    ScriptsExhaustive,
    ScriptsRandom,
    ScriptsLong,
    BytesExhaustive,
    BytesBoundary,
    BytesDamaged,
    KeywordsTables,
    KeywordsShort,
    KeywordsRandom,
    KeywordsRefused,
    Trivia,
    TapesEach,
    TapesRandom,
    TapesLong,
}

/// What the report counts: the source, with what is asked of a tape, and with
/// scripts that are not UTF-8 apart.
#[derive(Clone, Copy, Debug, PartialEq, Eq, PartialOrd, Ord)]
pub struct Class {
    pub asked: Option<Asked>,
    pub source: Source,
    pub not_utf8: bool,
}

impl fmt::Display for Class {
    fn fmt(&self, f: &mut fmt::Formatter<'_>) -> fmt::Result {
        let name = match self.source {
            Source::ScriptsExhaustive => "scripts, exhaustive",
            Source::ScriptsRandom => "scripts, random",
            Source::ScriptsLong => "scripts, long",
            Source::BytesExhaustive => "bytes, exhaustive",
            Source::BytesBoundary => "bytes, boundary",
            Source::BytesDamaged => "bytes, damaged",
            Source::KeywordsTables => "keywords, tables",
            Source::KeywordsShort => "keywords, short",
            Source::KeywordsRandom => "keywords, random",
            Source::KeywordsRefused => "keywords, refused",
            Source::Trivia => "trivia",
            Source::TapesEach => "each kind",
            Source::TapesRandom => "random",
            Source::TapesLong => "long",
        };
        let asked = match self.asked {
            None => "",
            Some(Asked::Columns) => "columns, ",
            Some(Asked::Input) => "parser input, ",
            Some(Asked::Single) => "single token, ",
        };
        let utf8 = if self.not_utf8 { " (not UTF-8)" } else { "" };
        f.pad(&format!("{asked}{name}{utf8}"))
    }
}

pub struct Case {
    pub source: Source,
    pub question: Question,
}

impl Case {
    pub fn class(&self) -> Class {
        let (asked, not_utf8) = match &self.question {
            Question::Frontmatter(script) => (None, str::from_utf8(script).is_err()),
            Question::Keyword(..) | Question::Trivia(_) => (None, false),
            Question::Lexing(lexing) => (Some(lexing.asked), false),
        };
        Class {
            asked,
            source: self.source,
            not_utf8,
        }
    }
}

/// Which cases to make.
#[derive(Clone, Copy, PartialEq, Eq)]
pub enum Part {
    All,
    /// Scripts, keywords and kinds.
    Scripts,
    /// Scripts with tapes.
    Tapes,
}

/// The cases. `random` is the number of random scripts; the other random
/// parts are fixed shares of it.
pub fn cases(part: Part, seed: u64, random: usize) -> Vec<Case> {
    let mut cases = Vec::new();
    if part != Part::Tapes {
        cases.extend(scripts(seed, random));
    }
    if part != Part::Scripts {
        cases.extend(tapes(seed, random));
    }
    cases
}

/// The cases without tapes.
pub fn scripts(seed: u64, random: usize) -> Vec<Case> {
    let mut cases = Cases(Vec::new());
    cases.scripts_exhaustive();
    cases.scripts_random(seed, random);
    cases.scripts_long(seed);
    cases.bytes_exhaustive();
    cases.bytes_boundary(seed, random / 6);
    cases.bytes_damaged(seed, random / 3);
    cases.keywords(seed, random / 15);
    cases.trivia();
    cases.0
}

/// The cases with tapes.
pub fn tapes(seed: u64, random: usize) -> Vec<Case> {
    let mut cases = Cases(Vec::new());
    cases.tapes_each();
    cases.tapes_random(seed, random);
    cases.0
}

const EDITIONS: u8 = 4;

/// Line ends, and what only looks like one.
const LINE_ENDS: &[(usize, &str)] = &[(70, "\n"), (18, "\r\n"), (3, "\r"), (3, "\r\r\n"), (6, "")];

/// The white space of the Rust language, then three others of Unicode's.
const SPACES: &[&str] = &[
    "\t", "\n", "\u{b}", "\u{c}", "\r", " ", "\u{85}", "\u{200e}", "\u{200f}", "\u{2028}",
    "\u{2029}", "\u{a0}", "\u{2003}", "\u{3000}",
];

const TEXTS: &[&str] = &[
    "x",
    "cargo",
    "[package]",
    "name = \"a\"",
    "fn main() {}",
    "é",
    "日",
    "😀",
    "a-b",
    "//",
    "#",
    "!",
    "[",
    "\0",
    "\u{feff}",
];

/// Every byte at which a rule of UTF-8 turns.
const BOUNDARY: &[u8] = &[
    0x00, 0x7f, 0x80, 0x8f, 0x90, 0x9f, 0xa0, 0xbf, 0xc0, 0xc1, 0xc2, 0xdf, 0xe0, 0xe1, 0xec, 0xed,
    0xee, 0xef, 0xf0, 0xf1, 0xf3, 0xf4, 0xf5, 0xff,
];

/// Sequences just outside UTF-8, and some just inside to stand beside them.
const SEQUENCES: &[&[u8]] = &[
    // Continuations alone, bytes that never come.
    b"\x80",
    b"\xbf",
    b"\xfe",
    b"\xff",
    b"\xc0",
    b"\xf5\x80\x80\x80",
    b"\xf8\x88\x80\x80\x80",
    // Too long for what they say.
    b"\xc0\x80",
    b"\xc1\xbf",
    b"\xe0\x80\x80",
    b"\xe0\x9f\xbf",
    b"\xf0\x80\x80\x80",
    b"\xf0\x8f\xbf\xbf",
    // Surrogates, and past the last character.
    b"\xed\xa0\x80",
    b"\xed\xbf\xbf",
    b"\xf4\x90\x80\x80",
    b"\xf4\xbf\xbf\xbf",
    // Cut off.
    b"\xc2",
    b"\xdf",
    b"\xe0\xa0",
    b"\xe2\x82",
    b"\xed\x9f",
    b"\xef\xbf",
    b"\xf0\x90",
    b"\xf0\x9f\x98",
    b"\xf4\x8f\xbf",
    b"\xe2",
    b"\xf1",
    // Good ones at the edges.
    b"\x00",
    b"\x7f",
    b"\xc2\x80",
    b"\xdf\xbf",
    b"\xe0\xa0\x80",
    b"\xed\x9f\xbf",
    b"\xee\x80\x80",
    b"\xef\xbf\xbf",
    b"\xf0\x90\x80\x80",
    b"\xf4\x8f\xbf\xbf",
];

struct Cases(Vec<Case>);

impl Cases {
    fn push(&mut self, source: Source, question: Question) {
        self.0.push(Case { source, question });
    }

    fn script(&mut self, source: Source, script: impl Into<Vec<u8>>) {
        self.push(source, Question::Frontmatter(script.into()));
    }

    fn keyword(&mut self, source: Source, ident: &str) {
        for edition in 0..EDITIONS {
            self.push(source, Question::Keyword(edition, ident.into()));
        }
    }

    fn scripts_exhaustive(&mut self) {
        // Prefix, alphabet, greatest number of letters after the prefix.
        let families: &[(&str, &[&str], usize)] = &[
            ("", &["-", "\n"], 12),
            ("", &["-", "\n", "\r", " "], 8),
            ("---", &["-", "\n", "x", "\t"], 7),
            // Shebangs, with one white space that only Unicode has and one
            // that only the language has.
            (
                "#!",
                &["#", "!", "[", "\n", " ", "\u{a0}", "\u{200e}", "-"],
                6,
            ),
            // Closing fences with fewer dashes than the opening one.
            ("-----", &["-", "\n", "x"], 10),
            // After the closing fence.
            ("---\n---", &["-", "\n", "\r", " ", "x", "\u{200e}"], 6),
        ];
        for (prefix, alphabet, longest) in families {
            words(alphabet, *longest, |word| {
                self.script(Source::ScriptsExhaustive, format!("{prefix}{word}"));
            });
        }
    }

    fn scripts_random(&mut self, seed: u64, count: usize) {
        let mut random = Random::new(seed, 1);
        for _ in 0..count {
            let script = script(&mut random);
            self.script(Source::ScriptsRandom, script);
        }
    }

    /// Scripts whose places need more than two bytes.
    fn scripts_long(&mut self, seed: u64) {
        let mut random = Random::new(seed, 2);
        for round in 0..40 {
            let length = 60_000 + random.below(90_000);
            let mut body = String::new();
            while body.len() < length {
                text_line(&mut random, &mut body);
            }
            let mut script = shaped(&mut random, &body).into_bytes();
            if round % 4 == 0 {
                damage(&mut random, &mut script);
            }
            self.script(Source::ScriptsLong, script);
        }
    }

    /// All strings of one and two bytes, and three of the boundary bytes.
    fn bytes_exhaustive(&mut self) {
        for first in 0..=u8::MAX {
            self.script(Source::BytesExhaustive, [first]);
        }
        for (first, second) in (0..=u8::MAX).flat_map(|a| (0..=u8::MAX).map(move |b| (a, b))) {
            self.script(Source::BytesExhaustive, [first, second]);
        }
        for &first in BOUNDARY {
            for &second in BOUNDARY {
                for &third in BOUNDARY {
                    self.script(Source::BytesExhaustive, [first, second, third]);
                }
            }
        }
    }

    /// Some of the strings of four boundary bytes.
    fn bytes_boundary(&mut self, seed: u64, count: usize) {
        let mut random = Random::new(seed, 3);
        for _ in 0..count {
            let bytes: [u8; 4] = std::array::from_fn(|_| random.pick(BOUNDARY));
            self.script(Source::BytesBoundary, bytes);
        }
    }

    fn bytes_damaged(&mut self, seed: u64, count: usize) {
        let mut random = Random::new(seed, 4);
        for _ in 0..count {
            let mut bytes = script(&mut random).into_bytes();
            // A decoder that goes by blocks meets the damage at every offset.
            if random.percent(30) {
                let padding = random.below(70);
                bytes.splice(0..0, std::iter::repeat_n(b'p', padding));
            }
            for _ in 0..=random.below(3) {
                damage(&mut random, &mut bytes);
            }
            self.script(Source::BytesDamaged, bytes);
        }
    }

    fn keywords(&mut self, seed: u64, count: usize) {
        let table: Vec<&str> = tables::STRICT_WORDS
            .iter()
            .chain(tables::CONTEXTUAL_WORDS)
            .copied()
            .collect();

        let near: BTreeSet<String> = table.iter().flat_map(|word| neighbours(word)).collect();
        for ident in &near {
            self.keyword(Source::KeywordsTables, ident);
        }

        let letters: Vec<String> = ('a'..='z').map(String::from).collect();
        let letters: Vec<&str> = letters.iter().map(String::as_str).collect();
        words(&letters, 3, |ident| {
            self.keyword(Source::KeywordsShort, ident)
        });

        let mut random = Random::new(seed, 5);
        for _ in 0..count {
            let ident = ident(&mut random, &table);
            let edition = random.below(EDITIONS.into()) as u8;
            self.push(Source::KeywordsRandom, Question::Keyword(edition, ident));
        }

        for (edition, ident) in [(4, "fn"), (5, ""), (9, "dyn"), (255, "x")] {
            self.push(
                Source::KeywordsRefused,
                Question::Keyword(edition, ident.into()),
            );
        }
    }

    fn trivia(&mut self) {
        for kind in (0..=400).chain([u16::MAX]) {
            self.push(Source::Trivia, Question::Trivia(kind));
        }
    }

    fn tape(&mut self, source: Source, asked: Asked, edition: u8, drawn: (String, Tape)) {
        let (script, tape) = drawn;
        let lexing = Lexing {
            asked,
            edition,
            script: script.into(),
            tape,
        };
        self.push(source, Question::Lexing(lexing));
    }

    fn tapes_each(&mut self) {
        for drawn in tapes::each() {
            for edition in 0..EDITIONS {
                for asked in Asked::ALL {
                    self.tape(Source::TapesEach, asked, edition, drawn.clone());
                }
            }
        }
    }

    fn tapes_random(&mut self, seed: u64, count: usize) {
        for (asked, stream, count) in [
            (Asked::Columns, 7, count / 2),
            (Asked::Input, 8, count / 3),
            (Asked::Single, 9, count / 4),
        ] {
            let mut random = Random::new(seed, stream);
            for _ in 0..count {
                let edition = random.below(EDITIONS.into()) as u8;
                let (source, drawn) = match asked {
                    Asked::Single => (Source::TapesRandom, tapes::single(&mut random)),
                    _ if random.percent(6) => {
                        let tokens = 45 + random.below(51);
                        (Source::TapesLong, tapes::columns(&mut random, tokens))
                    }
                    _ => {
                        let most = random.weighted(&[(40, 4), (40, 8), (20, 16)]);
                        let tokens = random.below(most);
                        (Source::TapesRandom, tapes::columns(&mut random, tokens))
                    }
                };
                self.tape(source, asked, edition, drawn);
            }
        }
    }
}

/// Calls `visit` with every string of up to `longest` letters.
fn words(alphabet: &[&str], longest: usize, mut visit: impl FnMut(&str)) {
    for length in 0..=longest {
        let mut digits = vec![0; length];
        loop {
            let word: String = digits.iter().map(|&digit| alphabet[digit]).collect();
            visit(&word);
            // Counts up, last digit first; the word after the last is none.
            let Some(place) = digits.iter().rposition(|&digit| digit + 1 < alphabet.len()) else {
                break;
            };
            digits[place] += 1;
            digits[place + 1..].fill(0);
        }
    }
}

fn script(random: &mut Random) -> String {
    if random.percent(35) {
        return soup(random);
    }
    let mut body = String::new();
    for _ in 0..random.below(4) {
        body_line(random, &mut body);
    }
    shaped(random, &body)
}

/// Pieces in no order.
pub fn soup(random: &mut Random) -> String {
    let mut script = String::new();
    for _ in 0..random.below(14) {
        match random.below(20) {
            0 => script.push_str("#!"),
            1 => script.push_str("#!/usr/bin/env cargo"),
            2 => script.push('['),
            3..=8 => {
                let count = 1 + random.below(6);
                dashes(&mut script, count);
            }
            9..=14 => script.push_str(random.weighted(LINE_ENDS)),
            15..=17 => script.push_str(random.pick(SPACES)),
            _ => script.push_str(random.pick(TEXTS)),
        }
    }
    script
}

/// A script with all its parts in order, some of them missing or wrong.
pub fn shaped(random: &mut Random, body: &str) -> String {
    let mut script = String::new();
    shebang(random, &mut script);
    blank_lines(random, &mut script);

    let fence = random.weighted(&[(3, 0), (4, 1), (4, 2), (60, 3), (15, 4), (8, 5), (6, 6)]);
    dashes(&mut script, fence);
    after_fence(random, &mut script, 40);
    script.push_str(random.weighted(LINE_ENDS));
    script.push_str(body);

    let close = match random.below(100) {
        0..75 => fence,
        75..83 => fence.saturating_sub(1 + random.below(3)),
        83..90 => fence + 1 + random.below(3),
        _ => 0,
    };
    dashes(&mut script, close);
    after_fence(random, &mut script, 12);
    script.push_str(random.weighted(LINE_ENDS));
    blank_lines(random, &mut script);
    if random.percent(20) {
        let count = 1 + random.below(5);
        dashes(&mut script, count);
    }
    if random.percent(60) {
        text_line(random, &mut script);
    }
    script
}

fn shebang(random: &mut Random, script: &mut String) {
    match random.below(100) {
        0..20 => script.push_str("#!/usr/bin/env cargo"),
        20..32 => {
            script.push_str("#!");
            for _ in 0..random.below(4) {
                script.push_str(random.pick(SPACES));
            }
            if random.percent(50) {
                script.push('[');
            }
            script.push_str(random.pick(TEXTS));
        }
        _ => return,
    }
    script.push_str(random.weighted(LINE_ENDS));
}

/// Lines of white space; the last sometimes runs into what follows.
fn blank_lines(random: &mut Random, script: &mut String) {
    if random.percent(60) {
        return;
    }
    for _ in 0..random.below(4) {
        for _ in 0..random.below(3) {
            script.push_str(random.pick(SPACES));
        }
        script.push_str(random.weighted(LINE_ENDS));
    }
}

/// What stands on the line of a fence.
fn after_fence(random: &mut Random, script: &mut String, text_chance: usize) {
    let spaces = [
        (80, ""),
        (10, " "),
        (5, "\t"),
        (2, "  \t"),
        (1, "\u{a0}"),
        (1, "\u{200e}"),
        (1, "\r"),
    ];
    script.push_str(random.weighted(&spaces));
    if random.percent(text_chance) {
        script.push_str(random.pick(TEXTS));
        script.push_str(random.weighted(&spaces));
    }
}

/// A line of a body, with dashes where they could be taken for a fence.
pub fn body_line(random: &mut Random, body: &mut String) {
    match random.below(10) {
        0 => {
            let count = 1 + random.below(3);
            dashes(body, count);
        }
        1 => {
            body.push_str(random.pick(SPACES));
            let count = 1 + random.below(6);
            dashes(body, count);
        }
        2 => body.push_str(random.pick(SPACES)),
        _ => {}
    }
    text_line(random, body);
}

fn text_line(random: &mut Random, text: &mut String) {
    for _ in 0..random.below(4) {
        text.push_str(random.pick(TEXTS));
    }
    text.push_str(random.weighted(LINE_ENDS));
}

fn dashes(text: &mut String, count: usize) {
    text.extend(std::iter::repeat_n('-', count));
}

/// One blow at a script, which may or may not stay UTF-8.
fn damage(random: &mut Random, bytes: &mut Vec<u8>) {
    let at = random.below(bytes.len() + 1);
    match random.below(10) {
        0 => bytes.truncate(at),
        1 => bytes.insert(at, random.below(256) as u8),
        2 if at < bytes.len() => bytes[at] = random.below(256) as u8,
        3 if at < bytes.len() => drop(bytes.remove(at)),
        4 | 5 => bytes.extend(random.pick(SEQUENCES)),
        _ => drop(bytes.splice(at..at, random.pick(SEQUENCES).iter().copied())),
    }
}

/// The word and all that is one small step away from it.
fn neighbours(word: &str) -> Vec<String> {
    const ADDED: &[u8] = b"_az0A \0";
    let bytes = word.as_bytes();
    let mut near = vec![
        bytes.to_vec(),
        bytes.to_ascii_uppercase(),
        bytes.to_ascii_lowercase(),
    ];
    for at in 0..=bytes.len() {
        for &byte in ADDED {
            near.push([&bytes[..at], &[byte], &bytes[at..]].concat());
        }
    }
    for (at, &byte) in bytes.iter().enumerate() {
        near.push([&bytes[..at], &bytes[at + 1..]].concat());
        for other in [byte - 1, byte + 1, b'_', byte ^ 0x20] {
            near.push([&bytes[..at], &[other], &bytes[at + 1..]].concat());
        }
    }
    near.into_iter()
        .filter_map(|ident| String::from_utf8(ident).ok())
        .collect()
}

fn ident(random: &mut Random, table: &[&str]) -> String {
    const LETTERS: &[u8] = b"abcdefghijklmnopqrstuvwxyzetaoinsrhld__ABCXYZ0189";
    let mut ident = String::new();
    match random.below(10) {
        0..=2 => ident.push_str(random.pick(table)),
        3 => {
            ident.push_str(random.pick(table));
            ident.push_str(random.pick(table));
        }
        4 => {
            ident.push_str(random.pick(table));
            ident.push_str(random.pick(TEXTS));
        }
        5 => {
            let word = random.pick(table);
            ident.push_str(&word[..random.below(word.len() + 1)]);
        }
        6 => {
            ident.push_str("r#");
            ident.push_str(random.pick(table));
        }
        _ => {
            for _ in 0..random.below(16) {
                ident.push(random.pick(LETTERS).into());
            }
        }
    }
    ident
}

#[cfg(test)]
mod tests {
    use super::*;

    #[test]
    fn all_words_come_once() {
        let mut seen = Vec::new();
        words(&["a", "bc"], 2, |word| seen.push(word.to_string()));
        assert_eq!(seen, ["", "a", "bc", "aa", "abc", "bca", "bcbc"]);
    }

    #[test]
    fn same_seed_same_cases() {
        let lines = |seed| -> Vec<String> {
            cases(Part::All, seed, 300)
                .iter()
                .map(|case| case.question.to_string())
                .collect()
        };
        assert!(lines(1) == lines(1));
        assert!(lines(1) != lines(2));
    }
}
