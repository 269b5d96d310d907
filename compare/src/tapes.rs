//! Scripts with tapes over them: for each raw kind and each fault, and random
//! from a seed.

use std::collections::BTreeMap;

use tape::{FAULTS, KINDS, Mark, Tape, kind};

use crate::{cases, random::Random, tables};

/// A text and the mark that stands over it.
#[derive(Clone)]
struct Piece {
    text: String,
    kind: u8,
    faults: Vec<u8>,
}

impl Piece {
    fn new(kind: u8, text: impl Into<String>) -> Piece {
        Piece {
            text: text.into(),
            kind,
            faults: Vec::new(),
        }
    }
}

/// A script that grows, and the marks over it by their places.
#[derive(Default)]
struct Draft {
    script: String,
    marks: BTreeMap<usize, Mark>,
}

impl Draft {
    /// A mark, unless one stands there or it doesn't fit.
    fn mark(&mut self, place: usize, kind: u8, len: usize, faults: Vec<u8>) {
        let mark = Mark {
            place,
            kind,
            len,
            faults,
        };
        if !self.marks.contains_key(&place) && mark.fits(&self.script) {
            self.marks.insert(place, mark);
        }
    }

    fn put(&mut self, piece: Piece) {
        let place = self.script.len();
        self.script.push_str(&piece.text);
        self.mark(place, piece.kind, piece.text.len(), piece.faults);
    }

    fn tape(self, shebang: usize) -> (String, Tape) {
        let marks = self.marks.into_values().collect();
        (self.script, Tape { shebang, marks })
    }

    /// The places from `from` on, as long as there is a character.
    fn places(&self, from: usize) -> Vec<usize> {
        let rest = self.script.get(from..).unwrap_or_default();
        rest.char_indices().map(|(at, _)| from + at).collect()
    }

    /// Where a token from `place` on may end.
    fn ends(&self, place: usize) -> Vec<usize> {
        let mut ends = self.places(place);
        ends.push(self.script.len());
        ends.remove(0);
        ends
    }
}

const IDENTS: &[&str] = &[
    "a", "x1", "foo", "c", "cr", "r", "b", "br", "Well", "rho_bulk", "_x", "__", "é", "naïve",
    "日本", "ﬁ", "i", "f", "ifx", "builtins", "Builtin",
];

const WHITE: &[&str] = &[
    " ",
    " ",
    "\n",
    "\n\n",
    "\t",
    "  ",
    "\r\n",
    "\r\n\r\n",
    " \n\n ",
    "\n \n",
    "\u{85}",
    "\u{200e}",
    "\u{2028}",
    "\u{b}\u{c}",
];

/// Of each raw kind of comment, 0 to 8, some texts. A line comment may end
/// anywhere for a tape.
const COMMENTS: [&[&str]; 9] = [
    &["//", "// n", "////", "//// n", "// é"],
    &["///", "/// n", "/// (;"],
    &["//!", "//! n"],
    &["/*", "/* n", "/*/", "/* /* */"],
    &["/**/", "/* n */", "/***/", "/* é\n\n */", "/* /* */ */"],
    &["/**", "/** n"],
    &["/** n */", "/**\n\n*/"],
    &["/*!", "/*! n"],
    &["/*! n */", "/*!*/"],
];

const INTS: &[&str] = &["0", "1", "12", "1_000", "7u8", "0xff", "0b1"];
const EMPTY_INTS: &[&str] = &["0x", "0b", "0o_", "0xu8"];
const FLOATS: &[&str] = &[
    "1.5", "0.0", "2.65f64", "1.", "12.", "1e3", "1.0e-5", "9.e.", "1.x",
];
const EMPTY_EXPONENTS: &[&str] = &["1e", "1e+", "1.0E-", "1e_", "1e."];

/// Of each quoted literal: raw kind, what opens it, what closes it.
const QUOTED: [(u8, &str, &str); 5] = [
    (kind::CHAR, "'", "'"),
    (kind::BYTE, "b'", "'"),
    (kind::STR, "\"", "\""),
    (kind::BYTE_STR, "b\"", "\""),
    (kind::C_STR, "c\"", "\""),
];

const BODIES: &[&str] = &[
    "",
    "a",
    "ab",
    "\\n",
    "\\",
    "\\'",
    "\\\"",
    "é",
    "日",
    "\\u{1F600}",
    "\\u{",
    "\\xf",
    "\r",
    "\0",
    "a\\\n\n b",
    "(",
    "//",
];

/// Insides of strings that do and don't look like one that was left open.
const SUSPECT: &[&str] = &[
    "f(x); // n",
    "(//",
    "//(",
    "(;\n",
    ";\n(",
    "f();\ng()",
    "(",
    "//",
    ";\n",
    "(;",
    "(; \n",
    "( / /",
    "(;\r\n",
    "",
];

/// Texts on which the Rust panics if they are called terminated.
const QUOTELESS: &[&str] = &[
    "'", "\"", "b", "c", "x", "b'", "b\"", "c\"", "é'", "bé'", "bé\"", "cé\"", "日", "abc", "'a",
    "c\"a", "b\"é",
];

const RAW: [(u8, &[&str], &[&str]); 3] = [
    (
        kind::RAW_STR,
        &["r\"x\"", "r#\"x\"#", "r\"\"", "r#\"(\"# // \"#"],
        &["r\"x", "r#x", "r##\"x\"#"],
    ),
    (
        kind::RAW_BYTE_STR,
        &["br\"x\"", "br#\"x\"#", "br\"é\""],
        &["br\"x", "br#"],
    ),
    (
        kind::RAW_C_STR,
        &["cr\"x\"", "cr#\"x\"#", "cr##\"x\"##", "cr"],
        &["cr\"x", "cr#", "cr"],
    ),
];

const LIFETIMES: &[&str] = &["'a", "'static", "'_", "'é", "'r"];
const RAW_LIFETIMES: &[&str] = &["'r#a", "'r#fn", "'r", "'r#", "'r##"];
const UNKNOWN: &[&str] = &["\0", "\\", "`", "😀", "\u{a0}", "é", "\"", "'", "€", "#"];
const FENCED: &[&str] = &["---\na\n---", "---x\n---", "  ---\n---\n", "---"];

/// Some natural texts of a raw kind.
fn texts(number: u8) -> Vec<String> {
    let own = |texts: &[&str]| texts.iter().map(|text| text.to_string()).collect();
    let pair = |first: u8| (first..first + 2).contains(&number);
    let flag = number % 2 == 1;
    let quoted = QUOTED.iter().find(|(first, ..)| pair(*first));
    let raw = RAW.iter().find(|(first, ..)| pair(*first));
    match number {
        0..9 => own(COMMENTS[usize::from(number)]),
        kind::FRONTMATTER..kind::WHITESPACE => own(FENCED),
        kind::WHITESPACE => own(&[" ", "\n\n", "\u{2029}"]),
        kind::IDENT => own(&[
            "a", "_", "if", "async", "dyn", "gen", "union", "builtin", "é",
        ]),
        kind::INVALID_IDENT => own(&["a😀", "if"]),
        kind::RAW_IDENT => own(&["r#if", "r#union", "union"]),
        kind::GUARDED_PREFIX => own(&["##", "#\"", "ab"]),
        kind::UNKNOWN_PREFIX_LIFETIME => own(&["'a", "'if"]),
        kind::RAW_LIFETIME => own(RAW_LIFETIMES),
        kind::UNKNOWN => own(UNKNOWN),
        kind::UNKNOWN_PREFIX => own(&["if", "_", "builtin", "a", "async", "gen", "é"]),
        _ if pair(kind::INT) => own(if flag { EMPTY_INTS } else { INTS }),
        _ if pair(kind::FLOAT) => own(if flag { EMPTY_EXPONENTS } else { FLOATS }),
        _ if pair(kind::LIFETIME) => own(if flag { &["'1a", "'0"] } else { LIFETIMES }),
        _ => match (quoted, raw) {
            (Some((_, open, close)), _) => {
                let close = if flag { close } else { "" };
                ["", "a", "é\\"]
                    .iter()
                    .map(|body| format!("{open}{body}{close}"))
                    .collect()
            }
            (_, Some((_, good, bad))) => own(if flag { good } else { bad }),
            _ => {
                let at = usize::from(number - kind::SEMI);
                own(&[&tape::MARKS[at..=at]])
            }
        },
    }
}

/// A script and its tape for each raw kind with each of its texts: alone, and
/// between others; and for each fault of each quoted literal.
pub fn each() -> Vec<(String, Tape)> {
    let mut all = Vec::new();
    let mut push = |pieces: &[Piece]| {
        let mut draft = Draft::default();
        for piece in pieces {
            draft.put(piece.clone());
        }
        all.push(draft.tape(0));
    };
    let (plus, semi) = (Piece::new(64, "+"), Piece::new(kind::SEMI, ";"));
    for number in 0..KINDS {
        for text in texts(number) {
            let piece = Piece::new(number, text);
            push(std::slice::from_ref(&piece));
            push(&[plus.clone(), piece, semi.clone()]);
        }
    }
    for (first, open, close) in QUOTED {
        for fault in 0..FAULTS {
            // Alone, twice, and around one that has no message.
            for faults in [vec![fault], vec![fault, fault], vec![2, fault, 3]] {
                for terminated in [0, 1] {
                    let mut piece = Piece::new(first + terminated, format!("{open}ab{close}"));
                    piece.faults = faults.clone();
                    push(&[piece]);
                }
            }
        }
    }
    for (first, ..) in QUOTED {
        for text in QUOTELESS {
            let mut piece = Piece::new(first + 1, *text);
            piece.faults = vec![3, 2, 19][..text.len().min(3)].to_vec();
            push(&[piece]);
        }
    }
    // Around the ends of the words that hold the joint marks.
    let (ident, float) = (Piece::new(kind::IDENT, "a"), Piece::new(kind::FLOAT, "1.5"));
    for count in [63, 64, 65, 127, 128, 129] {
        for cycle in [
            vec![plus.clone()],
            vec![ident.clone()],
            vec![float.clone()],
            vec![ident.clone(), plus.clone(), plus.clone()],
            vec![plus.clone(), ident.clone(), semi.clone(), float.clone()],
        ] {
            let pieces: Vec<Piece> = cycle.iter().cycle().take(count).cloned().collect();
            push(&pieces);
        }
    }
    // The string that may have been left open, and so many tokens after it
    // a prefix.
    for suspect in SUSPECT {
        for (number, quotes) in [(kind::STR + 1, "\""), (kind::STR, ""), (kind::RAW_STR, "")] {
            for between in 0..7 {
                let mut pieces = vec![Piece::new(number, format!("\"{suspect}{quotes}"))];
                pieces.extend((0..between).map(|at| match at % 3 {
                    0 => semi.clone(),
                    1 => Piece::new(kind::WHITESPACE, " "),
                    _ => Piece::new(0, "//"),
                }));
                pieces.push(Piece::new(kind::UNKNOWN_PREFIX, "if"));
                push(&pieces);
            }
        }
    }
    all
}

/// A random script of about so many tokens.
pub fn columns(random: &mut Random, tokens: usize) -> (String, Tape) {
    let mut draft = Draft::default();
    let front = random.percent(14);
    if front {
        let text = front_text(random);
        cover(random, &mut draft, &text);
    }
    let white = random.weighted(&[(3, 0), (5, 12), (4, 30)]);
    for _ in 0..tokens {
        if random.percent(white) {
            draft.put(Piece::new(kind::WHITESPACE, random.pick(WHITE)));
        }
        some(random, &mut draft);
    }
    sprinkle(random, &mut draft);
    let shebang = shebang(random, &draft, if front { 45 } else { 8 });
    draft.tape(shebang)
}

/// A random script that is mostly a single token.
pub fn single(random: &mut Random) -> (String, Tape) {
    let mut draft = Draft::default();
    match random.below(100) {
        0..3 => {}
        3..8 => draft.script.push_str(random.pick(UNKNOWN)),
        8..14 => {
            some(random, &mut draft);
            some(random, &mut draft);
        }
        14..22 => {
            // A mark of any kind over all of a text.
            let piece = piece(random);
            draft.script = piece.text;
            let len = draft.script.len();
            let (number, faults) = (any_kind(random, &draft.script), faults(random, len));
            draft.mark(0, number, len, faults);
        }
        22..27 => {
            // One that ends early, if it can.
            let piece = piece(random);
            draft.script = piece.text;
            if let [.., _] = draft.places(0)[..] {
                let ends = draft.ends(0);
                let len = random.pick(&ends);
                draft.mark(0, piece.kind, len, Vec::new());
            }
        }
        27..45 => draft.put(cut_by_edition(random)),
        _ => draft.put(piece(random)),
    }
    sprinkle(random, &mut draft);
    let shebang = shebang(random, &draft, 8);
    draft.tape(shebang)
}

/// A shebang length, mostly 0.
fn shebang(random: &mut Random, draft: &Draft, chance: usize) -> usize {
    let mut ends = draft.places(0);
    ends.push(draft.script.len());
    ends.retain(|&end| end >= 2);
    if ends.is_empty() || !random.percent(chance) {
        return 0;
    }
    match draft.script.find('\n') {
        // Without its line end, or with it.
        Some(end) if random.percent(60) => {
            let end = end + random.below(2);
            if end >= 2 { end } else { 0 }
        }
        _ => random.pick(&ends),
    }
}

/// The beginning of a script with shebang and frontmatter, good or faulty.
fn front_text(random: &mut Random) -> String {
    if random.percent(25) {
        return cases::soup(random);
    }
    let mut body = String::new();
    for _ in 0..random.below(3) {
        cases::body_line(random, &mut body);
    }
    cases::shaped(random, &body)
}

/// Marks over a text that is there already.
fn cover(random: &mut Random, draft: &mut Draft, text: &str) {
    let class = |c: char| match c {
        '-' => 0,
        c if c.is_whitespace() => 1,
        _ => 2,
    };
    let mut rest = text;
    while let Some(first) = rest.chars().next() {
        let end = rest.find(|c| class(c) != class(first));
        let (run, after) = rest.split_at(end.unwrap_or(rest.len()));
        match class(first) {
            _ if random.percent(12) => draft.script.push_str(run),
            0 if random.percent(75) => {
                for _ in 0..run.len() {
                    draft.put(Piece::new(kind::MINUS, "-"));
                }
            }
            0 => draft.put(Piece::new(kind::FRONTMATTER + random.below(4) as u8, run)),
            1 => draft.put(Piece::new(kind::WHITESPACE, run)),
            _ if random.percent(60) => draft.put(Piece::new(kind::IDENT, run)),
            _ => {
                let mut piece = Piece::new(any_kind(random, run), run);
                piece.faults = faults(random, run.len());
                draft.put(piece);
            }
        }
        rest = after;
    }
}

/// One token or a few that belong together, sometimes with a mark that does
/// not fit them.
fn some(random: &mut Random, draft: &mut Draft) {
    match random.below(100) {
        0..3 => return suspicion(random, draft),
        3..6 => {
            // An unknown prefix, and what it stands before.
            draft.put(Piece::new(kind::UNKNOWN_PREFIX, prefix(random)));
            let after = [
                Piece::new(kind::STR + 1, "\"x\""),
                Piece::new(kind::CHAR + 1, "'x'"),
                Piece::new(kind::POUND, "#"),
            ];
            let at = random.below(after.len());
            return draft.put(after[at].clone());
        }
        6..8 => {
            // No mark at all.
            let text = piece(random).text;
            return draft.script.push_str(&text);
        }
        8..14 => return cut(random, draft),
        _ => {}
    }
    let mut piece = piece(random);
    match random.below(100) {
        0..5 => {
            piece.kind = any_kind(random, &piece.text);
            piece.faults = faults(random, piece.text.len());
        }
        5..8 => {
            // Another length: up to somewhere in the text.
            let place = draft.script.len();
            draft.script.push_str(&piece.text);
            let ends = draft.ends(place);
            let len = random.pick(&ends) - place;
            let number = calm(random, piece.kind, &piece.text[..len]);
            return draft.mark(place, number, len, Vec::new());
        }
        8..10 if piece.faults.is_empty() => piece.faults = faults(random, piece.text.len()),
        _ => {}
    }
    draft.put(piece);
}

/// A string that may have been left open, up to seven tokens, and a prefix.
fn suspicion(random: &mut Random, draft: &mut Draft) {
    let suspect = random.pick(SUSPECT);
    let (number, open, close) = random.pick(&[
        (kind::STR + 1, "\"", "\""),
        (kind::STR + 1, "\"", "\""),
        (kind::STR, "\"", ""),
        (kind::RAW_STR + 1, "r\"", "\""),
        (kind::BYTE_STR + 1, "b\"", "\""),
    ]);
    draft.put(Piece::new(number, format!("{open}{suspect}{close}")));
    for _ in 0..random.below(7) {
        draft.put(piece(random));
    }
    draft.put(Piece::new(kind::UNKNOWN_PREFIX, prefix(random)));
}

/// A token that some editions cut, and mostly a mark where they do.
fn cut(random: &mut Random, draft: &mut Draft) {
    let place = draft.script.len();
    let piece = cut_by_edition(random);
    let bytes = match piece.kind {
        kind::UNKNOWN_PREFIX_LIFETIME => return draft.put(piece),
        kind::GUARDED_PREFIX | kind::C_STR..kind::RAW_STR => 1,
        _ => 2,
    };
    draft.put(piece);
    // What comes after may belong to the second part.
    let inner = place + bytes;
    if random.percent(30) {
        draft
            .script
            .push_str(random.pick(&["#", "\"", "\"x\"", "a"]));
    }
    if inner < draft.script.len() && random.percent(85) {
        let rest = &draft.script[inner..];
        let number = match rest.as_bytes()[0] {
            b'"' => kind::STR + u8::from(rest.len() > 1 && rest.ends_with('"')),
            b'#' if rest.starts_with("##") || rest.starts_with("#\"") => {
                random.pick(&[kind::POUND, kind::GUARDED_PREFIX])
            }
            b'#' => kind::POUND,
            _ => kind::IDENT,
        };
        let len = match number {
            kind::POUND => 1,
            kind::GUARDED_PREFIX => 2,
            _ => rest.len(),
        };
        let faults = faults(random, len);
        draft.mark(inner, number, len, faults);
    }
}

fn cut_by_edition(random: &mut Random) -> Piece {
    match random.below(10) {
        0..3 => Piece::new(kind::GUARDED_PREFIX, random.pick(&["##", "#\""])),
        3..6 => {
            let text = random.pick(&["c\"\"", "c\"a\"", "c\"é\"", "c\"\\0\"", "c\"a\"u"]);
            let mut piece = Piece::new(kind::C_STR + 1, text);
            piece.faults = faults(random, text.len());
            if random.percent(25) {
                let text = random.pick(&["c", "c\"", "c\"a", "ca"]);
                return Piece::new(kind::C_STR, text);
            }
            piece
        }
        6..8 => {
            let (number, good, bad) = RAW[2];
            let flag = random.below(2) as u8;
            Piece::new(
                number + flag,
                random.pick(if flag == 1 { good } else { bad }),
            )
        }
        8 => Piece::new(kind::RAW_LIFETIME, random.pick(RAW_LIFETIMES)),
        _ => Piece::new(kind::UNKNOWN_PREFIX_LIFETIME, random.pick(LIFETIMES)),
    }
}

fn prefix(random: &mut Random) -> &'static str {
    match random.below(10) {
        0..2 => "builtin",
        2 => "_",
        3..6 => random.pick(tables::STRICT_WORDS),
        6 => random.pick(tables::CONTEXTUAL_WORDS),
        _ => random.pick(IDENTS),
    }
}

/// A token with a text of its kind.
fn piece(random: &mut Random) -> Piece {
    match random.below(100) {
        0..6 => Piece::new(kind::IDENT, random.pick(tables::STRICT_WORDS)),
        6..11 => Piece::new(kind::IDENT, random.pick(tables::CONTEXTUAL_WORDS)),
        11..13 => Piece::new(kind::IDENT, random.pick(&["_", "builtin"])),
        13..25 => Piece::new(kind::IDENT, random.pick(IDENTS)),
        25..34 => {
            let number = random.below(COMMENTS.len()) as u8;
            Piece::new(number, random.pick(COMMENTS[usize::from(number)]))
        }
        34..56 => {
            let at = random.below(tape::MARKS.len());
            Piece::new(kind::SEMI + at as u8, &tape::MARKS[at..=at])
        }
        56..60 if random.percent(25) => Piece::new(kind::INT + 1, random.pick(EMPTY_INTS)),
        56..60 => Piece::new(kind::INT, random.pick(INTS)),
        60..67 if random.percent(20) => Piece::new(kind::FLOAT + 1, random.pick(EMPTY_EXPONENTS)),
        60..67 => Piece::new(kind::FLOAT, random.pick(FLOATS)),
        67..82 => quoted(random),
        82..86 => {
            let (number, good, bad) = random.pick(&RAW);
            let flag = u8::from(random.percent(65));
            let text = random.pick(if flag == 1 { good } else { bad });
            let mut piece = Piece::new(number + flag, text);
            if random.percent(10) {
                piece.faults = faults(random, text.len());
            }
            piece
        }
        86..89 if random.percent(30) => Piece::new(kind::LIFETIME + 1, random.pick(&["'1a", "'0"])),
        86..89 => Piece::new(kind::LIFETIME, random.pick(LIFETIMES)),
        89..91 => Piece::new(
            kind::RAW_IDENT,
            random.pick(&["r#if", "r#union", "r#x", "union"]),
        ),
        91 => Piece::new(kind::INVALID_IDENT, random.pick(&["a😀", "union", "if"])),
        92 => Piece::new(
            kind::FRONTMATTER + random.below(4) as u8,
            random.pick(FENCED),
        ),
        93 => Piece::new(kind::UNKNOWN, random.pick(UNKNOWN)),
        94..96 => Piece::new(kind::UNKNOWN_PREFIX, prefix(random)),
        96 => Piece::new(kind::WHITESPACE, random.pick(WHITE)),
        _ => cut_by_edition(random),
    }
}

/// A quoted literal, terminated or not, with faults.
fn quoted(random: &mut Random) -> Piece {
    let (first, open, close) = random.pick(&QUOTED);
    let terminated = random.percent(80);
    if random.below(600) == 0 {
        let mut piece = Piece::new(first + 1, random.pick(QUOTELESS));
        piece.faults = faults(random, piece.text.len());
        return piece;
    }
    let bodies = if random.percent(80) { BODIES } else { SUSPECT };
    let body = random.pick(bodies);
    let mut text = format!("{open}{body}");
    if terminated {
        text.push_str(close);
        text.push_str(random.weighted(&[(90, ""), (5, "u8"), (5, "é")]));
    }
    let mut piece = Piece::new(first + u8::from(terminated), text);
    piece.faults = faults(random, piece.text.len());
    piece
}

/// Faults of a token of so many bytes.
fn faults(random: &mut Random, len: usize) -> Vec<u8> {
    let most = random.weighted(&[(45, 0), (30, 1), (15, 2), (8, 4), (2, 12)]);
    (0..most.min(len))
        .map(|_| random.below(FAULTS.into()) as u8)
        .collect()
}

/// Any raw kind that may stand over a text.
fn any_kind(random: &mut Random, text: &str) -> u8 {
    loop {
        let kind = random.below(KINDS.into()) as u8;
        let mark = Mark {
            place: 0,
            kind,
            len: text.len(),
            faults: Vec::new(),
        };
        if mark.fits(text) {
            return calm(random, kind, text);
        }
    }
}

/// The raw kind, but mostly not terminated if the text has no quotes for it.
fn calm(random: &mut Random, number: u8, text: &str) -> u8 {
    let Some((first, open, close)) = QUOTED.iter().find(|(first, ..)| first + 1 == number) else {
        return number;
    };
    let body = text.get(open.len()..).unwrap_or_default();
    if body.contains(close) || random.below(100) == 0 {
        number
    } else {
        *first
    }
}

/// Marks where there are none yet: under others, in gaps, in the shebang.
/// Most of them no walk reaches.
fn sprinkle(random: &mut Random, draft: &mut Draft) {
    if !random.percent(35) {
        return;
    }
    let places = draft.places(0);
    if places.is_empty() {
        return;
    }
    for _ in 0..=random.below(3) {
        let place = random.pick(&places);
        let ends = draft.ends(place);
        let nearest = ends.len().min(if random.percent(80) { 3 } else { 12 });
        let end = random.pick(&ends[..nearest]);
        let number = any_kind(random, &draft.script[place..end]);
        let faults = faults(random, end - place);
        draft.mark(place, number, end - place, faults);
    }
}

#[cfg(test)]
mod tests {
    use std::collections::BTreeSet;

    use super::*;
    use crate::{
        SyntaxKind,
        cases::Case,
        lexing::{self, Lexed},
        messages, oracle,
        protocol::{Asked, Lexing, Question},
    };

    /// The questions, and what the Rust makes of them.
    fn answered(asked: Asked) -> Vec<(Lexing, Option<Lexed>)> {
        let cases = cases::tapes(1, 24_000).into_iter();
        let lexing = cases.filter_map(|Case { question, .. }| match question {
            Question::Lexing(lexing) if lexing.asked == asked => Some(lexing),
            _ => None,
        });
        lexing
            .map(|lexing| {
                let lexed = oracle::lexed(&lexing);
                (lexing, lexed)
            })
            .collect()
    }

    #[test]
    fn tapes_are_valid() {
        for Case { question, .. } in cases::tapes(2, 9000) {
            if let Question::Lexing(lexing) = &question {
                assert_eq!(lexing::refusal(lexing), None, "{question}");
            }
        }
    }

    #[test]
    fn all_is_reached_in_every_edition() {
        let (mut kinds, mut codes) = (BTreeSet::new(), BTreeSet::new());
        for (lexing, lexed) in answered(Asked::Columns) {
            if let Some(Lexed::Columns { starts, errors, .. }) = lexed {
                let marks = lexing.tape.marks.iter();
                let reached = marks.filter(|mark| starts.binary_search(&mark.place).is_ok());
                kinds.extend(reached.map(|mark| (lexing.edition, mark.kind)));
                codes.extend(errors.iter().map(|(_, code)| (lexing.edition, *code)));
            }
        }
        let all = (0..4).flat_map(|edition| (0..KINDS).map(move |kind| (edition, kind)));
        assert!(kinds.into_iter().eq(all));
        // The reserved guarded prefix is of 2024 alone.
        let all = (0..4).flat_map(|edition| (1..=messages::LAST).map(move |code| (edition, code)));
        assert!(
            codes
                .into_iter()
                .eq(all.filter(|pair| pair.1 != 5 || pair.0 == 3))
        );
    }

    /// The rule of the joint marks without the steps that the Rust takes: a
    /// float that does not end in a dot; or what is neither a float nor an
    /// identifier, if the next token is neither trivia nor an identifier.
    /// Identifiers are left out.
    #[test]
    fn joint_marks_have_a_rule() {
        let [float, ident] = [SyntaxKind::FLOAT_NUMBER, SyntaxKind::IDENT].map(u16::from);
        let is_trivia = |kind: u16| SyntaxKind::from(kind).is_trivia();
        let mut counts = [0; 2];
        for (lexing, lexed) in answered(Asked::Input) {
            let columns = Lexing {
                asked: Asked::Columns,
                ..lexing.clone()
            };
            let (Some(Lexed::Input { joint, .. }), Some(Lexed::Columns { kinds, starts, .. })) =
                (lexed, oracle::lexed(&columns))
            else {
                continue;
            };
            let tokens = (0..kinds.len() - 1).filter(|&at| !is_trivia(kinds[at]));
            for (at, joint) in tokens.zip(joint) {
                let (kind, next) = (kinds[at], kinds[at + 1]);
                let rule = if kind == ident {
                    continue;
                } else if kind == float {
                    lexing.script[starts[at + 1] - 1] != b'.'
                } else {
                    at + 2 < kinds.len() && !is_trivia(next) && next != ident
                };
                assert_eq!(joint, rule, "token {at}: {}", Question::Lexing(lexing));
                counts[usize::from(joint)] += 1;
            }
        }
        assert!(counts.iter().all(|count| *count > 10_000), "{counts:?}");
    }

    #[test]
    fn some_scripts_are_long() {
        let lengths: Vec<usize> = answered(Asked::Input)
            .into_iter()
            .filter_map(|(_, lexed)| match lexed? {
                Lexed::Input { kinds, .. } => Some(kinds.len()),
                _ => None,
            })
            .collect();
        for length in [0, 1, 63, 64, 65, 127, 128, 129] {
            assert!(lengths.contains(&length), "{length}");
        }
    }
}
