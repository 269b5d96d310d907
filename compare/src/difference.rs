//! The differences that we mean to have. Whether a case has one is told from
//! the case alone; what our side has to answer then is what the Rust answers
//! to a question that our rule makes of it.

use std::str;

use tape::{Mark, Tape, kind};

use crate::{
    SyntaxKind,
    lexing::{self, Lexed},
    messages, oracle,
    protocol::{Asked, Lexing, Question},
};

/// `#!` is no shebang when `[` comes next past white space. The Rust skips
/// Unicode's White_Space there; our rule skips the white space of the Rust
/// language, as everywhere else.
pub const SHEBANG_WHITE_SPACE: &str = "shebang-white-space";

/// Before 2021 there are no C strings, raw lifetimes and reserved prefixes.
/// The Rust gives them in every edition.
pub const EDITION_CUT: &str = "edition-cut";

/// A token that lexing cuts is no single token. The Rust gives its first part
/// or does not cut it.
pub const SINGLE_TOKEN_CUT: &str = "single-token-cut";

/// The Rust panics on a literal that is called terminated and has not the
/// quotes of its kind. Ours gives its kind and the faults on the tape.
pub const LITERAL_WITHOUT_ITS_QUOTES: &str = "literal-without-its-quotes";

/// No identifier is joint. In the Rust one is between two other tokens.
pub const JOINT_IDENT: &str = "joint-ident";

/// What our side has to answer, and by which differences that is another
/// answer than the Rust's; none where it is the same.
pub struct Expected {
    pub answer: String,
    pub names: Vec<&'static str>,
}

/// `rust` is what the Rust answers.
pub fn expected(question: &Question, rust: &str) -> Expected {
    let changed = match question {
        Question::Frontmatter(script) => str::from_utf8(script)
            .ok()
            .and_then(by_our_white_space)
            .map(|script| Expected {
                answer: oracle::answer(&Question::Frontmatter(script.into())),
                names: vec![SHEBANG_WHITE_SPACE],
            }),
        Question::Keyword(..) | Question::Trivia(_) => None,
        Question::Lexing(lexing) => expected_of_tape(lexing),
    };
    changed
        .filter(|expected| expected.answer != rust)
        .unwrap_or_else(|| Expected {
            answer: rust.into(),
            names: Vec::new(),
        })
}

fn is_language_white_space(c: char) -> bool {
    matches!(
        c,
        '\t'..='\r' | ' ' | '\u{85}' | '\u{200E}' | '\u{200F}' | '\u{2028}' | '\u{2029}'
    )
}

/// A script for which the Rust finds the shebang that our rule finds in this
/// one, if the two are not of one mind.
///
/// Where only the language's white space leads to `[`, there is no shebang,
/// and so no frontmatter: so it is with a letter in place of `#`. Where only
/// Unicode's does, there is one: so it is once that `[` is a letter. No other
/// rule tells these letters from what they replace, as none of the three is
/// white space, a dash, a quote or in a text that is looked for; and as no
/// keyword begins with this letter.
fn by_our_white_space(script: &str) -> Option<String> {
    let rest = script.strip_prefix("#!")?;
    let by_language = rest
        .trim_start_matches(is_language_white_space)
        .starts_with('[');
    let by_unicode = rest
        .trim_start_matches(char::is_whitespace)
        .starts_with('[');
    if by_language == by_unicode {
        return None;
    }
    let place = if by_language {
        0
    } else {
        script.len() - rest.trim_start().len()
    };
    let mut changed = String::from(script);
    changed.replace_range(place..=place, "x");
    Some(changed)
}

/// Each rule changes the question or the answer in turn. It has a part in the
/// difference if the answer is another one afterwards.
fn expected_of_tape(lexing: &Lexing) -> Option<Expected> {
    if lexing::refusal(lexing).is_some() {
        return None;
    }
    let mut names = Vec::new();
    let mut asked = lexing.clone();
    let mut answer = oracle::lexed(&asked);

    let script = str::from_utf8(&lexing.script).ok()?;
    if lexing.asked != Asked::Single
        && let Some(changed) = by_our_white_space(script)
    {
        asked.script = changed.into();
        if turn(&mut answer, oracle::lexed(&asked)) {
            names.push(SHEBANG_WHITE_SPACE);
        }
    }

    asked.tape.marks = asked
        .tape
        .marks
        .into_iter()
        .map(|mark| cut(lexing, mark))
        .collect();
    if asked.tape != lexing.tape && turn(&mut answer, oracle::lexed(&asked)) {
        names.push(match answer {
            Some(Lexed::Single(None)) => SINGLE_TOKEN_CUT,
            _ => EDITION_CUT,
        });
    }

    if answer.is_none() && turn(&mut answer, without_quotes(&asked)) {
        names.push(LITERAL_WITHOUT_ITS_QUOTES);
    }

    let marked = answer.clone().map(unmark_identifiers);
    if turn(&mut answer, marked) {
        names.push(JOINT_IDENT);
    }

    let answer = answer?.to_string();
    Some(Expected { answer, names })
}

/// Puts the next answer in the place of one, and tells whether it is another.
fn turn(answer: &mut Option<Lexed>, next: Option<Lexed>) -> bool {
    let other = *answer != next;
    *answer = next;
    other
}

/// The mark for which the Rust does what our rules do with this one: the first
/// part of what the edition cuts, and what it knows in place of a prefix.
fn cut(lexing: &Lexing, mark: Mark) -> Mark {
    let before_2021 = lexing.edition < 2;
    let before_2024 = lexing.edition < 3;
    let (kind, len) = match mark.kind {
        kind::C_STR..kind::RAW_STR if before_2021 => (kind::IDENT, 1),
        kind::RAW_C_STR..kind::LIFETIME if before_2021 => (kind::IDENT, 2),
        kind::RAW_LIFETIME if before_2021 => (kind::LIFETIME, 2),
        kind::UNKNOWN_PREFIX if before_2021 => (kind::IDENT, mark.len),
        kind::UNKNOWN_PREFIX_LIFETIME if before_2021 => (kind::LIFETIME, mark.len),
        // The Rust cuts this one itself, but for a single token.
        kind::GUARDED_PREFIX if before_2024 && lexing.asked == Asked::Single => (kind::POUND, 1),
        _ => return mark,
    };
    Mark {
        place: mark.place,
        kind,
        len,
        faults: Vec::new(),
    }
}

/// A sound literal of each raw kind whose quotes the Rust looks for.
const QUOTED: [(u8, &str); 5] = [
    (kind::CHAR, "'x'"),
    (kind::BYTE, "b'x'"),
    (kind::STR, "\"x\""),
    (kind::BYTE_STR, "b\"x\""),
    (kind::C_STR, "c\"x\""),
];

/// The answer for a question on which the Rust panics: the marks that make it
/// panic are not terminated, which gives the same tokens; the message that
/// comes of that is replaced by those of the faults.
fn without_quotes(lexing: &Lexing) -> Option<Lexed> {
    let mut calm = lexing.clone();
    let mut replaced = Vec::new();
    for mark in &mut calm.tape.marks {
        let found = QUOTED.iter().find(|(kind, _)| mark.kind == kind + 1);
        if let Some((kind, sound)) = found
            && !is_quoted(lexing, mark)
        {
            let codes = codes(lexing, mark, sound)?;
            replaced.push((mark.place, messages::unterminated(*kind), codes));
            mark.kind = *kind;
        }
    }

    let messages = |place: usize, code: u16| {
        let found = replaced
            .iter()
            .find(|(at, unterminated, _)| (*at, *unterminated) == (place, code));
        found.map_or_else(|| vec![code], |(.., codes)| codes.clone())
    };
    Some(match oracle::lexed(&calm)? {
        Lexed::Columns {
            kinds,
            starts,
            errors,
        } => {
            let errors = errors.into_iter().flat_map(|(token, code)| {
                let codes = messages(starts[token], code);
                codes.into_iter().map(move |code| (token, code))
            });
            let errors = errors.collect();
            Lexed::Columns {
                kinds,
                starts,
                errors,
            }
        }
        Lexed::Single(Some((kind, Some(code)))) => {
            Lexed::Single(Some((kind, messages(0, code).last().copied())))
        }
        other => other,
    })
}

/// The Rust does not panic on the token of this mark by itself.
fn is_quoted(lexing: &Lexing, mark: &Mark) -> bool {
    let text = &lexing.script[mark.place..][..mark.len];
    lexed_alone(lexing, Asked::Single, text, mark).is_some()
}

/// The codes that the Rust gives for the faults of this mark on a sound text.
fn codes(lexing: &Lexing, mark: &Mark, text: &str) -> Option<Vec<u16>> {
    match lexed_alone(lexing, Asked::Columns, text.as_bytes(), mark)? {
        Lexed::Columns { errors, .. } => Some(errors.into_iter().map(|(_, code)| code).collect()),
        _ => None,
    }
}

/// What the Rust makes of a script that is nothing but this mark's token.
fn lexed_alone(lexing: &Lexing, asked: Asked, text: &[u8], mark: &Mark) -> Option<Lexed> {
    let mark = Mark {
        place: 0,
        len: text.len(),
        ..mark.clone()
    };
    oracle::lexed(&Lexing {
        asked,
        edition: lexing.edition,
        script: text.to_vec(),
        tape: Tape {
            shebang: 0,
            marks: vec![mark],
        },
    })
}

fn unmark_identifiers(lexed: Lexed) -> Lexed {
    let Lexed::Input {
        kinds,
        contextual,
        mut joint,
    } = lexed
    else {
        return lexed;
    };
    for (kind, mark) in kinds.iter().zip(&mut joint) {
        *mark &= *kind != u16::from(SyntaxKind::IDENT);
    }
    Lexed::Input {
        kinds,
        contextual,
        joint,
    }
}

#[cfg(test)]
mod tests {
    use super::*;
    use crate::tables;

    fn question(script: &str) -> Question {
        Question::Frontmatter(script.into())
    }

    fn ours(question: &Question) -> (String, Vec<&'static str>) {
        let expected = expected(question, &oracle::answer(question));
        (expected.answer, expected.names)
    }

    #[test]
    fn white_space_is_that_of_the_language() {
        for c in '\0'..=char::MAX {
            assert_eq!(
                is_language_white_space(c),
                crate::reference::frontmatter::is_whitespace(c),
                "{c:?}"
            );
        }
    }

    #[test]
    fn only_disagreements_are_named() {
        for script in ["", "#!", "#![", "#! \n[", "#!x\u{a0}[", "\u{a0}#!\u{a0}["] {
            assert!(ours(&question(script)).1.is_empty(), "{script:?}");
        }
        for script in [
            "#!\u{a0}[",
            "#! \u{2003}\n [",
            "#!\u{200e}[",
            "#!\u{200f}\t[",
        ] {
            assert_eq!(
                ours(&question(script)).1,
                [SHEBANG_WHITE_SPACE],
                "{script:?}"
            );
        }
    }

    #[test]
    fn the_letter_begins_no_keyword() {
        let words = tables::STRICT_WORDS.iter().chain(tables::CONTEXTUAL_WORDS);
        assert_eq!(words.filter(|word| word.starts_with('x')).count(), 0);
    }

    #[test]
    fn names_of_tapes() {
        for (line, names) in [
            ("L 1 6966 0;0:70:2", vec![EDITION_CUT]),
            ("L 2 6966 0;0:70:2", vec![]),
            ("L 1 6275696c74696e 0;0:70:7", vec![]), // `builtin`, no error in either
            ("S 1 63226122 0;0:31:4", vec![SINGLE_TOKEN_CUT]),
            ("S 1 63 0;0:30:1", vec![EDITION_CUT]),
            ("S 2 2323 0;0:17:2", vec![SINGLE_TOKEN_CUT]),
            ("L 2 2323 0;0:17:2", vec![]),
            ("L 2 27 0;0:23:1", vec![LITERAL_WITHOUT_ITS_QUOTES]),
            ("L 1 63 0;0:31:1", vec![EDITION_CUT]),
            ("I 2 2b612d 0;0:64:1,1:14:1,2:61:1", vec![JOINT_IDENT]),
            (
                "I 1 2b6327 0;0:64:1,1:37:1,2:23:1",
                vec![], // no tape
            ),
            (
                "I 1 2b637227 0;0:64:1,1:37:2,3:23:1",
                vec![LITERAL_WITHOUT_ITS_QUOTES, JOINT_IDENT],
            ),
            (
                "I 0 2321e2808e5b2b63222d 0;0:52:1,6:64:1,7:30:2,8:61:1",
                vec![SHEBANG_WHITE_SPACE, EDITION_CUT, JOINT_IDENT],
            ),
        ] {
            assert_eq!(ours(&line.parse().unwrap()).1, names, "{line}");
        }
    }

    #[test]
    fn our_answers() {
        let plain =
            |end| format!("ok shebang=- open=- info=- frontmatter=- close=- content=0..{end}");
        assert_eq!(ours(&question("#!\u{200e}[\n--")).0, plain(9));
        assert_eq!(ours(&question("#!\u{a0}[\n--")).0, "fault A 8..8 6..8");
    }
}
