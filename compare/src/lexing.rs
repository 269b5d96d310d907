//! What the Rust makes of a script and its tape.

use std::fmt::{self, Display};

use crate::{
    Edition, LexedStr, SyntaxKind, messages,
    protocol::{Asked, Lexing},
};

pub const EDITIONS: [Edition; 4] = [
    Edition::Edition2015,
    Edition::Edition2018,
    Edition::Edition2021,
    Edition::Edition2024,
];

/// The number of a token and the code of its message.
pub type Fault = (usize, u16);

/// An answer; it prints as its line.
#[derive(Clone, Debug, PartialEq, Eq)]
pub enum Lexed {
    Columns {
        /// With the end of the file, as are the starts.
        kinds: Vec<u16>,
        starts: Vec<usize>,
        errors: Vec<Fault>,
    },
    Input {
        kinds: Vec<u16>,
        contextual: Vec<u16>,
        joint: Vec<bool>,
    },
    Single(Option<(u16, Option<u16>)>),
}

/// Why the Rust is not asked. Our side refuses it, in this order.
pub fn refusal(lexing: &Lexing) -> Option<String> {
    let text = match str::from_utf8(&lexing.script) {
        Ok(text) => text,
        Err(error) => return Some(format!("refused 2 {}", error.valid_up_to())),
    };
    if let Some(number) = lexing.tape.fault(text) {
        return Some(format!("refused 5 {number}"));
    }
    (usize::from(lexing.edition) >= EDITIONS.len()).then(|| "refused 3".into())
}

/// Asks the Rust, which may panic. The question is one that is not refused.
pub fn lexed(lexing: &Lexing) -> Lexed {
    let script = str::from_utf8(&lexing.script).expect("text");
    let edition = EDITIONS[usize::from(lexing.edition)];
    tape::play(script, &lexing.tape, || match lexing.asked {
        Asked::Columns => columns(&LexedStr::new(edition, script)),
        Asked::Input => input(&LexedStr::new(edition, script).to_input(edition)),
        Asked::Single => {
            let single = LexedStr::single_token(edition, script);
            Lexed::Single(single.map(|(kind, error)| {
                let code = error.map(|text| messages::code(&text));
                (kind.into(), code)
            }))
        }
    })
}

fn columns(lexed: &LexedStr<'_>) -> Lexed {
    let mut kinds: Vec<u16> = (0..lexed.len()).map(|at| lexed.kind(at).into()).collect();
    // It stands in the Rust's column as well, where nobody can ask for it.
    kinds.push(SyntaxKind::EOF.into());
    let errors = lexed.errors();
    Lexed::Columns {
        kinds,
        starts: (0..=lexed.len()).map(|at| lexed.text_start(at)).collect(),
        errors: errors
            .map(|(token, text)| (token, messages::code(text)))
            .collect(),
    }
}

fn input(input: &crate::Input) -> Lexed {
    let entries = 0..input.len();
    Lexed::Input {
        kinds: entries.clone().map(|at| input.kind(at).into()).collect(),
        contextual: entries
            .clone()
            .map(|at| input.contextual_kind(at).into())
            .collect(),
        joint: entries.map(|at| input.is_joint(at)).collect(),
    }
}

impl Display for Lexed {
    fn fmt(&self, f: &mut fmt::Formatter<'_>) -> fmt::Result {
        match self {
            Lexed::Columns {
                kinds,
                starts,
                errors,
            } => {
                let errors = errors.iter().map(|(token, code)| format!("{token}:{code}"));
                write!(f, "{}|{}|{}", list(kinds), list(starts), list(errors))
            }
            Lexed::Input {
                kinds,
                contextual,
                joint,
            } => {
                let mut row: String = joint
                    .iter()
                    .map(|&mark| if mark { '1' } else { '0' })
                    .collect();
                if row.is_empty() {
                    row.push('-');
                }
                write!(f, "{}|{}|{row}", list(kinds), list(contextual))
            }
            Lexed::Single(None) => f.write_str("-"),
            Lexed::Single(Some((kind, None))) => write!(f, "{kind}"),
            Lexed::Single(Some((kind, Some(code)))) => write!(f, "{kind}:{code}"),
        }
    }
}

fn list(items: impl IntoIterator<Item = impl Display>) -> String {
    let items: Vec<String> = items.into_iter().map(|item| item.to_string()).collect();
    if items.is_empty() {
        "-".into()
    } else {
        items.join(",")
    }
}

#[cfg(test)]
mod tests {
    use crate::{difference, oracle, protocol::Question};

    /// Question, what the Rust answers, and what our side has to if that is
    /// another answer. Worked out by hand.
    const LINES: &[(&str, &str, &str)] = &[
        // Nothing, and no marks: an unknown token for each character.
        ("L 2 - 0;-", "1|0|-", ""),
        ("I 2 - 0;-", "-|-|-", ""),
        ("S 2 - 0;-", "-", ""),
        ("L 2 c3a900 0;-", "151,151,1|0,2,3|-", ""),
        ("S 2 c3a9 0;-", "151", ""),
        // `if"x"` and `_"x"`, with `if` and `_` as unknown prefixes.
        (
            "L 1 6966227822 0;0:70:2,2:27:3",
            "153,149,1|0,2,5|0:9",
            "71,149,1|0,2,5|-",
        ),
        ("L 2 6966227822 0;0:70:2,2:27:3", "153,149,1|0,2,5|0:9", ""),
        (
            "L 1 5f227822 0;0:70:1,1:27:3",
            "153,149,1|0,1,4|0:9",
            "24,149,1|0,1,4|-",
        ),
        ("L 2 5f227822 0;0:70:1,1:27:3", "153,149,1|0,1,4|0:9", ""),
        // `builtin` is a prefix without an error.
        (
            "L 2 6275696c74696e227822 0;0:70:7,7:27:3",
            "153,149,1|0,7,10|-",
            "",
        ),
        ("S 1 6966 0;0:70:2", "153:9", "71"),
        // `'a` as an unknown prefix of a lifetime.
        ("S 1 2761 0;0:40:2", "155:7", "155"),
        ("S 2 2761 0;0:40:2", "155:7", ""),
        // `##` as a guarded prefix.
        ("S 2 2323 0;0:17:2", "14", "-"),
        ("S 3 2323 0;0:17:2", "151:5", ""),
        (
            "L 2 232361 0;0:17:2,1:52:1,2:14:1",
            "14,14,153,1|0,1,2,3|-",
            "",
        ),
        (
            "L 3 232361 0;0:17:2,1:52:1,2:14:1",
            "151,153,1|0,2,3|0:5",
            "",
        ),
        // `c"a"`, `cr#"x"#` and `'r#a`.
        (
            "L 1 63226122 0;0:31:4:20,1:27:3",
            "146,1|0,4|0:38",
            "153,149,1|0,1,4|-",
        ),
        ("L 2 63226122 0;0:31:4:20,1:27:3", "146,1|0,4|0:38", ""),
        ("S 1 63226122 0;0:31:4", "146", "-"),
        ("S 1 63 0;0:30:1", "146:17", "153"),
        (
            "L 1 63722322782223 0;0:37:7,2:52:1,3:27:3,6:52:1",
            "146,1|0,7|-",
            "153,14,149,14,1|0,2,3,6,7|-",
        ),
        (
            "L 0 27722361 0;0:41:4,2:52:1,3:14:1",
            "155,1|0,4|-",
            "155,14,153,1|0,2,3,4|-",
        ),
        // Faults: a string tells all but those without a text, a character
        // only the first.
        ("L 2 22616222 0;0:27:4:3.2.20", "149,1|0,4|0:21,0:38", ""),
        ("L 2 27616227 0;0:23:4:3.1", "145,1|0,4|0:21", ""),
        ("L 2 27616227 0;0:23:4:2.3", "145,1|0,4|-", ""),
        ("S 2 62226122 0;0:29:4:3.19", "144:36", ""),
        ("S 2 622261 0;0:28:3:3.19", "144:16", ""),
        // `"(//"`, semicolons and a prefix: the string is looked for among
        // the last five tokens.
        (
            "L 2 22282f2f223b3b3b3b78 0;0:27:5,5:42:1,6:42:1,7:42:1,8:42:1,9:70:1",
            "149,3,3,3,3,153,1|0,5,6,7,8,9,10|5:8",
            "",
        ),
        (
            "L 2 22282f2f223b3b3b3b3b78 0;0:27:5,5:42:1,6:42:1,7:42:1,8:42:1,9:42:1,10:70:1",
            "149,3,3,3,3,3,153,1|0,5,6,7,8,9,10,11|6:9",
            "",
        ),
        // Joint: `+a-`, `+-a`, and `1.5-1.-`.
        (
            "I 2 2b612d 0;0:64:1,1:14:1,2:61:1",
            "19,153,36|1,153,1|010",
            "19,153,36|1,153,1|000",
        ),
        (
            "I 2 2b2d61 0;0:64:1,1:61:1,2:14:1",
            "19,36,153|1,1,153|100",
            "",
        ),
        (
            "I 2 312e352d312e2d 0;0:20:3,3:61:1,4:20:2,6:61:1",
            "147,36,147,36|1,1,1,1|1100",
            "",
        ),
        // `dyn` is contextual in 2015.
        ("I 0 64796e 0;0:14:3", "153|113|0", ""),
        ("I 1 64796e 0;0:14:3", "113|1|0", ""),
        // A shebang and a frontmatter; a fault, with the tape's shebang.
        (
            "L 3 2321780a2d2d2d0a2d2d2d0a666e 0;12:14:2",
            "158,152,69,1|0,4,12,14|-",
            "",
        ),
        (
            "L 3 2321780a2d2d 4;4:61:1,5:61:1",
            "158,36,36,1|0,4,5,6|-",
            "",
        ),
        // `#!` U+00A0 `[`, `#!` U+200E `[`.
        (
            "L 3 2321c2a05b 0;0:52:1,1:58:1,4:49:1",
            "14,34,151,9,1|0,1,2,4,5|-",
            "158,1|0,5|-",
        ),
        (
            "I 3 2321e2808e5b 0;0:52:1,1:58:1,5:49:1",
            "158|1|0",
            "14,34,151,9|1,1,1,1|1110",
        ),
        // `'` as a terminated character, `bé"` as a byte string: faults 3 and
        // 19, in a byte string 3 and 2.
        ("L 2 27 0;0:23:1:3", "panic", "145,1|0,1|0:21"),
        ("S 2 27 0;0:23:1:3", "panic", "145:21"),
        (
            "L 2 62c3a922 0;0:29:4:3.2.19",
            "panic",
            "144,1|0,4|0:20,0:36",
        ),
        ("I 2 62c3a922 0;0:29:4:3.2.19", "panic", "144|1|0"),
        // Refused: no text, a bad mark, a bad shebang length, no edition.
        ("L 4 61ff 1;0:71:1", "refused 2 1", ""),
        ("L 4 6162 1;0:14:1,1:14:2", "refused 5 1", ""),
        ("L 4 61 1;0:14:1", "refused 5 1", ""),
        ("L 4 61 0;0:14:1", "refused 3", ""),
    ];

    #[test]
    fn worked_out_by_hand() {
        for (line, rust, ours) in LINES {
            let question: Question = line.parse().unwrap();
            assert_eq!(oracle::answer(&question), *rust, "{line}");
            let expected = difference::expected(&question, rust);
            let ours = if ours.is_empty() { rust } else { ours };
            assert_eq!(expected.answer, *ours, "{line}");
            assert_eq!(expected.names.is_empty(), ours == rust, "{line}");
        }
    }
}
