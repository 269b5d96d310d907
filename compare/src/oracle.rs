//! What the Rust answers.

use std::{
    ops::Range,
    panic::{self, UnwindSafe},
    str,
};

use crate::{
    SyntaxKind,
    lexing::{self, EDITIONS, Lexed},
    protocol::{Lexing, Question},
    reference::frontmatter::{FrontmatterError, ScriptSource},
};

/// The answer of the Rust where it panics.
pub const PANIC: &str = "panic";

pub fn answer(question: &Question) -> String {
    match question {
        Question::Frontmatter(script) => match str::from_utf8(script) {
            Ok(text) => guarded(|| frontmatter(text)),
            // The Rust takes text only; for other bytes the standard library
            // says where they stop being text.
            Err(error) => format!("refused 2 {}", error.valid_up_to()),
        },
        // The Rust has no such editions and kinds: these two are our rule.
        Question::Keyword(edition, _) if usize::from(*edition) >= EDITIONS.len() => {
            "refused 3".into()
        }
        Question::Trivia(kind) if *kind > SyntaxKind::__LAST as u16 => "refused 4".into(),
        Question::Keyword(edition, ident) => guarded(|| {
            let edition = EDITIONS[usize::from(*edition)];
            let keyword = kind(SyntaxKind::from_keyword(ident, edition));
            let contextual = kind(SyntaxKind::from_contextual_keyword(ident, edition));
            format!("keyword {keyword} contextual {contextual}")
        }),
        Question::Trivia(kind) => {
            guarded(|| format!("trivia {}", SyntaxKind::from(*kind).is_trivia()))
        }
        Question::Lexing(lexing) => match lexing::refusal(lexing) {
            Some(refused) => refused,
            None => lexed(lexing).map_or_else(|| PANIC.into(), |lexed| lexed.to_string()),
        },
    }
}

/// What the Rust makes of a tape that is not refused; nothing if it panics.
pub fn lexed(lexing: &Lexing) -> Option<Lexed> {
    panic::catch_unwind(|| lexing::lexed(lexing)).ok()
}

/// Runs `work` with panics counted as answers and not told on standard error.
pub fn quietly<T>(work: impl FnOnce() -> T) -> T {
    let hook = panic::take_hook();
    panic::set_hook(Box::new(|_| {}));
    let result = work();
    panic::set_hook(hook);
    result
}

fn guarded(ask: impl FnOnce() -> String + UnwindSafe) -> String {
    panic::catch_unwind(ask).unwrap_or_else(|_| PANIC.into())
}

fn frontmatter(text: &str) -> String {
    match ScriptSource::parse(text) {
        Ok(source) => format!(
            "ok shebang={} open={} info={} frontmatter={} close={} content={}",
            optional(source.shebang_span()),
            optional(source.open_span()),
            optional(source.info_span()),
            optional(source.frontmatter_span()),
            optional(source.close_span()),
            span(&source.content_span()),
        ),
        Err(error) => {
            let mut line = format!("fault {} {}", letter(&error), span(&error.primary_span()));
            for visible in error.visible_spans() {
                line.push(' ');
                line.push_str(&span(visible));
            }
            line
        }
    }
}

/// The fault's letter; `?` for a message that we don't know, which can only
/// be a difference.
fn letter(error: &FrontmatterError) -> char {
    let message = error.message();
    let fence = message.strip_prefix("closing code fence has ");
    match fence {
        Some(rest) if rest.contains(" less ") => 'C',
        Some(rest) if rest.contains(" more ") => 'D',
        _ if message.starts_with("found ") => 'A',
        _ if message.starts_with("unclosed frontmatter") => 'B',
        _ if message == "unexpected characters after frontmatter close" => 'E',
        _ if message == "only one frontmatter is supported" => 'F',
        _ => '?',
    }
}

fn span(span: &Range<usize>) -> String {
    format!("{}..{}", span.start, span.end)
}

fn optional(given: Option<Range<usize>>) -> String {
    given.as_ref().map_or_else(|| "-".into(), span)
}

fn kind(given: Option<SyntaxKind>) -> String {
    given.map_or_else(|| "-".into(), |kind| u16::from(kind).to_string())
}

#[cfg(test)]
mod tests {
    use super::*;

    fn script(text: &str) -> String {
        answer(&Question::Frontmatter(text.into()))
    }

    #[test]
    fn every_fault_has_its_letter() {
        assert_eq!(script("--"), "fault A 2..2 0..2");
        assert_eq!(script("---"), "fault B 3..3 0..3");
        assert_eq!(script("---\n--"), "fault C 4..6 0..3");
        assert_eq!(script("---\n----"), "fault D 7..8 0..3");
        assert_eq!(script("---\n--- x"), "fault E 8..9 0..3");
        assert_eq!(script("---\n---\n-"), "fault F 8..9 0..3 4..7");
    }

    #[test]
    fn spans() {
        let expected =
            "ok shebang=0..4 open=4..7 info=8..9 frontmatter=10..12 close=12..15 content=15..15";
        assert_eq!(script("#!x\n--- i\nb\n---"), expected);
    }

    #[test]
    fn refusals() {
        assert_eq!(
            answer(&Question::Frontmatter(b"ab\xff".to_vec())),
            "refused 2 2"
        );
        assert_eq!(answer(&Question::Keyword(4, "fn".into())), "refused 3");
        assert_eq!(answer(&Question::Trivia(u16::MAX)), "refused 4");
    }
}
