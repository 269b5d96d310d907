//! The codes of the messages of lexing.

/// The texts that stand for themselves; the code is the number beside it.
const TEXTS: &[(&str, u16)] = &[
    (
        "Missing trailing `*/` symbols to terminate the block comment",
        1,
    ),
    ("invalid preceding whitespace for frontmatter opening", 2),
    ("invalid infostring for frontmatter", 3),
    ("Ident contains invalid characters", 4),
    ("Invalid string literal (reserved syntax)", 5),
    ("Lifetime name cannot start with a number", 6),
    ("Unknown lifetime prefix", 7),
    ("unknown literal prefix", 9),
    ("Invalid raw string literal", 10),
    ("Missing digits after the integer base prefix", 11),
    ("Missing digits after the exponent symbol", 12),
    (
        "Missing trailing `'` symbol to terminate the character literal",
        13,
    ),
    (
        "Missing trailing `'` symbol to terminate the byte literal",
        14,
    ),
    (
        "Missing trailing `\"` symbol to terminate the string literal",
        15,
    ),
    (
        "Missing trailing `\"` symbol to terminate the byte string literal",
        16,
    ),
    (
        "Missing trailing `\"` symbol to terminate the C string literal",
        17,
    ),
    ("empty character literal", 18),
    ("character literal may only contain one codepoint", 19),
    ("unknown byte escape", 20),
    ("unknown character escape", 21),
    ("byte constant must be escaped", 22),
    ("character constant must be escaped", 23),
    ("numeric character escape is too short", 24),
    ("invalid character in numeric character escape", 25),
    ("out of range hex escape", 26),
    ("incorrect unicode escape sequence", 27),
    ("invalid character in unicode escape", 28),
    ("empty unicode escape", 29),
    ("unterminated unicode escape", 30),
    ("invalid start of unicode escape", 31),
    ("overlong unicode escape", 32),
    ("invalid unicode character escape", 33),
    ("unicode escape in byte string", 34),
    ("non-ASCII character in byte literal", 35),
    ("non-ASCII character in byte string literal", 36),
    ("non-ASCII character in raw byte string literal", 37),
    ("null character in C string literal", 38),
];

/// The text that quotes a prefix, before and after it, has one code for all.
const HINT: (&str, &str, u16) = (
    "unknown literal prefix `",
    "` (note: check for unterminated string literal)",
    8,
);

/// The highest code.
pub const LAST: u16 = 38;

/// The code for a literal that is not terminated, by the raw kind.
pub fn unterminated(kind: u8) -> u16 {
    13 + u16::from((kind - tape::kind::CHAR) / 2)
}

/// The code of a text; 0 for one that we don't know, which can only be a
/// difference.
pub fn code(text: &str) -> u16 {
    let (before, after, hint) = HINT;
    if text.len() >= before.len() + after.len() && text.starts_with(before) && text.ends_with(after)
    {
        return hint;
    }
    TEXTS
        .iter()
        .find(|(known, _)| *known == text)
        .map_or(0, |(_, code)| *code)
}

#[cfg(test)]
mod tests {
    use super::*;

    #[test]
    fn codes() {
        let mut codes: Vec<u16> = TEXTS.iter().map(|(_, code)| *code).collect();
        codes.push(HINT.2);
        codes.sort();
        assert!(codes.into_iter().eq(1..=LAST));
        assert_eq!(code("unknown literal prefix"), 9);
        assert_eq!(
            code("unknown literal prefix `if` (note: check for unterminated string literal)"),
            8
        );
        assert_eq!(code("unknown literal prefix `if`"), 0);
        assert_eq!(code(""), 0);
    }
}
