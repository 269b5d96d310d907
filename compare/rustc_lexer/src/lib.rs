//! Our stand-in for the crate `rustc_lexer`: only what the compared modules
//! name. It lexes nothing by itself: it says what the tape in play says. For
//! times on long scripts it can also scan, see [`scan`].

pub mod scan;

use std::iter;

use tape::kind;

#[derive(Clone, Copy, Debug, PartialEq, Eq)]
pub struct Token {
    pub kind: TokenKind,
    pub len: u32,
}

#[derive(Clone, Copy, Debug, PartialEq, Eq)]
pub enum TokenKind {
    LineComment {
        doc_style: Option<DocStyle>,
    },
    BlockComment {
        doc_style: Option<DocStyle>,
        terminated: bool,
    },
    Frontmatter {
        has_invalid_preceding_whitespace: bool,
        invalid_infostring: bool,
    },
    Whitespace,
    Ident,
    InvalidIdent,
    RawIdent,
    GuardedStrPrefix,
    Literal {
        kind: LiteralKind,
        suffix_start: u32,
    },
    Lifetime {
        starts_with_number: bool,
    },
    UnknownPrefixLifetime,
    RawLifetime,
    Semi,
    Comma,
    Dot,
    OpenParen,
    CloseParen,
    OpenBrace,
    CloseBrace,
    OpenBracket,
    CloseBracket,
    At,
    Pound,
    Tilde,
    Question,
    Colon,
    Dollar,
    Eq,
    Bang,
    Lt,
    Gt,
    Minus,
    And,
    Or,
    Plus,
    Star,
    Slash,
    Caret,
    Percent,
    Unknown,
    UnknownPrefix,
    Eof,
}

#[derive(Clone, Copy, Debug, PartialEq, Eq)]
pub enum DocStyle {
    Outer,
    Inner,
}

#[derive(Clone, Copy, Debug, PartialEq, Eq)]
pub enum LiteralKind {
    Int { base: Base, empty_int: bool },
    Float { base: Base, empty_exponent: bool },
    Char { terminated: bool },
    Byte { terminated: bool },
    Str { terminated: bool },
    ByteStr { terminated: bool },
    CStr { terminated: bool },
    RawStr { n_hashes: Option<u8> },
    RawByteStr { n_hashes: Option<u8> },
    RawCStr { n_hashes: Option<u8> },
}

#[derive(Clone, Copy, Debug, PartialEq, Eq)]
pub enum Base {
    Decimal,
}

pub enum FrontmatterAllowed {
    No,
}

/// The tokens of `text`, a part of the script up to its end.
pub fn tokenize(text: &str, _: FrontmatterAllowed) -> impl Iterator<Item = Token> {
    let mut rest = text;
    iter::from_fn(move || {
        let first = rest.chars().next()?;
        let (kind, len) = if scan::is_on() {
            scan::token(rest)
        } else {
            match tape::mark_before(rest, 0) {
                Some(mark) => (token_kind(mark.kind), mark.len),
                None => (TokenKind::Unknown, first.len_utf8()),
            }
        };
        rest = &rest[len..];
        let len = u32::try_from(len).expect("a token of 4 GiB");
        Some(Token { kind, len })
    })
}

/// How long the shebang of the script is, if it has one.
pub fn strip_shebang(_: &str) -> Option<usize> {
    if scan::is_on() {
        return None;
    }
    Some(tape::shebang()).filter(|&len| len > 0)
}

/// The single marks, in the order of their characters in `tape::MARKS`.
const MARKS: [TokenKind; 27] = [
    TokenKind::Semi,
    TokenKind::Comma,
    TokenKind::Dot,
    TokenKind::OpenParen,
    TokenKind::CloseParen,
    TokenKind::OpenBrace,
    TokenKind::CloseBrace,
    TokenKind::OpenBracket,
    TokenKind::CloseBracket,
    TokenKind::At,
    TokenKind::Pound,
    TokenKind::Tilde,
    TokenKind::Question,
    TokenKind::Colon,
    TokenKind::Dollar,
    TokenKind::Eq,
    TokenKind::Bang,
    TokenKind::Lt,
    TokenKind::Gt,
    TokenKind::Minus,
    TokenKind::And,
    TokenKind::Or,
    TokenKind::Plus,
    TokenKind::Star,
    TokenKind::Slash,
    TokenKind::Caret,
    TokenKind::Percent,
];

/// The raw kind with a number.
fn token_kind(number: u8) -> TokenKind {
    match number {
        0..3 => TokenKind::LineComment {
            doc_style: doc_style(number),
        },
        3..9 => TokenKind::BlockComment {
            doc_style: doc_style((number - 3) / 2),
            terminated: (number - 3) % 2 == 1,
        },
        9..13 => TokenKind::Frontmatter {
            has_invalid_preceding_whitespace: (number - 9) / 2 == 1,
            invalid_infostring: (number - 9) % 2 == 1,
        },
        13 => TokenKind::Whitespace,
        14 => TokenKind::Ident,
        15 => TokenKind::InvalidIdent,
        16 => TokenKind::RawIdent,
        17 => TokenKind::GuardedStrPrefix,
        18..38 => TokenKind::Literal {
            kind: literal_kind(number & !1, number & 1 == 1),
            suffix_start: 0,
        },
        38 | 39 => TokenKind::Lifetime {
            starts_with_number: number == 39,
        },
        40 => TokenKind::UnknownPrefixLifetime,
        41 => TokenKind::RawLifetime,
        42..69 => MARKS[usize::from(number - kind::SEMI)],
        69 => TokenKind::Unknown,
        70 => TokenKind::UnknownPrefix,
        _ => panic!("no raw kind {number}"),
    }
}

fn doc_style(number: u8) -> Option<DocStyle> {
    match number {
        0 => None,
        1 => Some(DocStyle::Outer),
        _ => Some(DocStyle::Inner),
    }
}

fn literal_kind(number: u8, flag: bool) -> LiteralKind {
    let base = Base::Decimal;
    let n_hashes = flag.then_some(0);
    match number {
        kind::INT => LiteralKind::Int {
            base,
            empty_int: flag,
        },
        kind::FLOAT => LiteralKind::Float {
            base,
            empty_exponent: flag,
        },
        kind::CHAR => LiteralKind::Char { terminated: flag },
        kind::BYTE => LiteralKind::Byte { terminated: flag },
        kind::STR => LiteralKind::Str { terminated: flag },
        kind::BYTE_STR => LiteralKind::ByteStr { terminated: flag },
        kind::C_STR => LiteralKind::CStr { terminated: flag },
        kind::RAW_STR => LiteralKind::RawStr { n_hashes },
        kind::RAW_BYTE_STR => LiteralKind::RawByteStr { n_hashes },
        kind::RAW_C_STR => LiteralKind::RawCStr { n_hashes },
        _ => panic!("no literal {number}"),
    }
}

#[cfg(test)]
mod tests {
    use super::*;

    #[test]
    fn every_number_is_another_kind() {
        let kinds: Vec<TokenKind> = (0..tape::KINDS).map(token_kind).collect();
        for (at, kind) in kinds.iter().enumerate() {
            assert_eq!(kinds.iter().position(|other| other == kind), Some(at));
            assert_ne!(*kind, TokenKind::Eof);
        }
    }

    #[test]
    fn numbers_are_those_of_the_protocol() {
        let doc_style = Some(DocStyle::Inner);
        assert_eq!(token_kind(2), TokenKind::LineComment { doc_style });
        assert_eq!(
            token_kind(8),
            TokenKind::BlockComment {
                doc_style,
                terminated: true
            }
        );
        assert_eq!(
            token_kind(11),
            TokenKind::Frontmatter {
                has_invalid_preceding_whitespace: true,
                invalid_infostring: false
            }
        );
        let literal = |kind| TokenKind::Literal {
            kind,
            suffix_start: 0,
        };
        assert_eq!(
            token_kind(31),
            literal(LiteralKind::CStr { terminated: true })
        );
        assert_eq!(
            token_kind(32),
            literal(LiteralKind::RawStr { n_hashes: None })
        );
        assert_eq!(token_kind(42), TokenKind::Semi);
        assert_eq!(token_kind(kind::POUND), TokenKind::Pound);
        assert_eq!(token_kind(kind::MINUS), TokenKind::Minus);
        assert_eq!(token_kind(68), TokenKind::Percent);
        assert_eq!(tape::MARKS.len(), MARKS.len());
    }

    #[test]
    fn plays_the_tape() {
        let script = "ab日c";
        let tape = "0;0:14:2".parse().unwrap();
        let tokens: Vec<_> = tape::play(script, &tape, || {
            tokenize(script, FrontmatterAllowed::No).collect()
        });
        let token = |kind, len| Token { kind, len };
        assert_eq!(
            tokens,
            [
                token(TokenKind::Ident, 2),
                token(TokenKind::Unknown, 3),
                token(TokenKind::Unknown, 1)
            ]
        );
    }
}
