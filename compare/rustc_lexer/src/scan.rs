//! A plain scan, to take times with: the rules of our own scanner, which has
//! no strings and no escapes. Letters and digits are ASCII.

use std::cell::Cell;

use crate::{Base, DocStyle, LiteralKind, MARKS, TokenKind};

thread_local! {
    static ON: Cell<bool> = const { Cell::new(false) };
}

/// Works with the scan in place of a tape.
pub fn during<T>(work: impl FnOnce() -> T) -> T {
    let before = ON.replace(true);
    let made = work();
    ON.set(before);
    made
}

pub(crate) fn is_on() -> bool {
    ON.get()
}

/// The token at the beginning of a text that is not empty.
pub(crate) fn token(text: &str) -> (TokenKind, usize) {
    let bytes = text.as_bytes();
    let end = |test: fn(u8) -> bool, from: usize| {
        let rest = bytes[from..].iter();
        from + rest.take_while(|&&byte| test(byte)).count()
    };
    match bytes[0] {
        b'/' if bytes.get(1) == Some(&b'/') => line_comment(text),
        b'/' if bytes.get(1) == Some(&b'*') => block_comment(bytes),
        first if is_letter(first) => (TokenKind::Ident, end(is_word, 1)),
        b'0'..=b'9' => {
            let digits = end(is_digit, 1);
            let base = Base::Decimal;
            let dot = bytes.get(digits) == Some(&b'.')
                && !bytes
                    .get(digits + 1)
                    .is_some_and(|&next| next == b'.' || is_letter(next));
            if dot {
                let kind = LiteralKind::Float {
                    base,
                    empty_exponent: false,
                };
                literal(kind, end(is_digit, digits + 1))
            } else {
                let kind = LiteralKind::Int {
                    base,
                    empty_int: false,
                };
                literal(kind, digits)
            }
        }
        first => {
            let white = white_end(text);
            if white > 0 {
                (TokenKind::Whitespace, white)
            } else if let Some(at) = tape::MARKS.bytes().position(|mark| mark == first) {
                (MARKS[at], 1)
            } else {
                let len = text.chars().next().map_or(1, char::len_utf8);
                (TokenKind::Unknown, len)
            }
        }
    }
}

fn literal(kind: LiteralKind, len: usize) -> (TokenKind, usize) {
    let suffix_start = len as u32;
    (TokenKind::Literal { kind, suffix_start }, len)
}

/// A letter or `_`.
fn is_letter(byte: u8) -> bool {
    byte.is_ascii_alphabetic() || byte == b'_'
}

fn is_digit(byte: u8) -> bool {
    byte.is_ascii_digit()
}

fn is_word(byte: u8) -> bool {
    is_letter(byte) || is_digit(byte)
}

/// Where the white space that `text` begins with ends.
fn white_end(text: &str) -> usize {
    let other = |c: char| {
        !matches!(
            c,
            '\t'..='\r' | ' ' | '\u{85}' | '\u{200E}' | '\u{200F}' | '\u{2028}' | '\u{2029}'
        )
    };
    text.find(other).unwrap_or(text.len())
}

/// Up to the next line feed.
fn line_comment(text: &str) -> (TokenKind, usize) {
    let doc_style = match text.as_bytes() {
        [_, _, b'!', ..] => Some(DocStyle::Inner),
        [_, _, b'/', b'/', ..] => None,
        [_, _, b'/', ..] => Some(DocStyle::Outer),
        _ => None,
    };
    let len = text.find('\n').unwrap_or(text.len());
    (TokenKind::LineComment { doc_style }, len)
}

/// Nested; an open one runs to the end.
fn block_comment(bytes: &[u8]) -> (TokenKind, usize) {
    let doc_style = match bytes {
        [_, _, b'!', ..] => Some(DocStyle::Inner),
        [_, _, b'*', b'*' | b'/', ..] => None,
        [_, _, b'*', ..] => Some(DocStyle::Outer),
        _ => None,
    };
    let (mut at, mut depth) = (2, 1);
    while depth > 0 && at < bytes.len() {
        match bytes[at..] {
            [b'*', b'/', ..] => (at, depth) = (at + 2, depth - 1),
            [b'/', b'*', ..] => (at, depth) = (at + 2, depth + 1),
            _ => at += 1,
        }
    }
    let terminated = depth == 0;
    let kind = TokenKind::BlockComment {
        doc_style,
        terminated,
    };
    (kind, at)
}

#[cfg(test)]
mod tests {
    use super::*;
    use crate::{FrontmatterAllowed, tokenize};

    fn scanned(text: &str) -> Vec<(TokenKind, u32)> {
        during(|| {
            tokenize(text, FrontmatterAllowed::No)
                .map(|token| (token.kind, token.len))
                .collect()
        })
    }

    fn line(doc_style: Option<DocStyle>) -> TokenKind {
        TokenKind::LineComment { doc_style }
    }

    fn block(doc_style: Option<DocStyle>, terminated: bool) -> TokenKind {
        TokenKind::BlockComment {
            doc_style,
            terminated,
        }
    }

    fn is_float(kind: TokenKind) -> bool {
        matches!(
            kind,
            TokenKind::Literal {
                kind: LiteralKind::Float { .. },
                ..
            }
        )
    }

    #[test]
    fn words_white_space_and_marks() {
        let expected = [
            (TokenKind::Ident, 3),
            (TokenKind::Whitespace, 6),
            (TokenKind::Semi, 1),
            (TokenKind::Percent, 1),
            (TokenKind::Unknown, 2),
            (TokenKind::Unknown, 1),
        ];
        assert_eq!(scanned("_a1 \u{200e}\t\n;%é\""), expected);
    }

    #[test]
    fn comments() {
        let one = |text| {
            let tokens = scanned(text);
            assert_eq!(tokens.len(), 1, "{text}");
            tokens[0].0
        };
        let (outer, inner) = (Some(DocStyle::Outer), Some(DocStyle::Inner));
        assert_eq!(one("//"), line(None));
        assert_eq!(one("// a"), line(None));
        assert_eq!(one("/// a"), line(outer));
        assert_eq!(one("//// a"), line(None));
        assert_eq!(one("//! a"), line(inner));
        assert_eq!(one("/**/"), block(None, true));
        assert_eq!(one("/*/"), block(None, false));
        assert_eq!(one("/** a */"), block(outer, true));
        assert_eq!(one("/*** a */"), block(None, true));
        assert_eq!(one("/*! a */"), block(inner, true));
        assert_eq!(one("/* /* a */"), block(None, false));
        assert_eq!(one("/* /* a */ */"), block(None, true));
        assert_eq!(scanned("// a\nb").len(), 3);
    }

    #[test]
    fn numbers() {
        for (text, float, len) in [
            ("12", false, 2),
            ("1.5", true, 3),
            ("1.", true, 2),
            ("1..2", false, 1),
            ("1.a", false, 1),
            ("1._", false, 1),
            ("1.+", true, 2),
            ("1.5.6", true, 3),
            ("1u8", false, 1),
        ] {
            let (kind, found) = scanned(text)[0];
            assert_eq!((is_float(kind), found), (float, len), "{text}");
        }
    }
}
