//! Our stand-in for the crate `rustc_literal_escaper`: only what the compared
//! modules name. It reads no escapes: it tells the faults that the tape in
//! play has for the token to which the text belongs.

use std::ops::Range;

#[derive(Clone, Copy, Debug, PartialEq, Eq)]
pub enum EscapeError {
    ZeroChars,
    MoreThanOneChar,
    LoneSlash,
    InvalidEscape,
    BareCarriageReturn,
    BareCarriageReturnInRawString,
    EscapeOnlyChar,
    TooShortHexEscape,
    InvalidCharInHexEscape,
    OutOfRangeHexEscape,
    NoBraceInUnicodeEscape,
    InvalidCharInUnicodeEscape,
    EmptyUnicodeEscape,
    UnclosedUnicodeEscape,
    LeadingUnderscoreUnicodeEscape,
    OverlongUnicodeEscape,
    LoneSurrogateUnicodeEscape,
    OutOfRangeUnicodeEscape,
    UnicodeEscapeInByte,
    NonAsciiCharInByte,
    NulInCStr,
    UnskippedWhitespaceWarning,
    MultipleSkippedLinesWarning,
}

/// The faults by their numbers.
const FAULTS: [EscapeError; tape::FAULTS as usize] = [
    EscapeError::ZeroChars,
    EscapeError::MoreThanOneChar,
    EscapeError::LoneSlash,
    EscapeError::InvalidEscape,
    EscapeError::BareCarriageReturn,
    EscapeError::BareCarriageReturnInRawString,
    EscapeError::EscapeOnlyChar,
    EscapeError::TooShortHexEscape,
    EscapeError::InvalidCharInHexEscape,
    EscapeError::OutOfRangeHexEscape,
    EscapeError::NoBraceInUnicodeEscape,
    EscapeError::InvalidCharInUnicodeEscape,
    EscapeError::EmptyUnicodeEscape,
    EscapeError::UnclosedUnicodeEscape,
    EscapeError::LeadingUnderscoreUnicodeEscape,
    EscapeError::OverlongUnicodeEscape,
    EscapeError::LoneSurrogateUnicodeEscape,
    EscapeError::OutOfRangeUnicodeEscape,
    EscapeError::UnicodeEscapeInByte,
    EscapeError::NonAsciiCharInByte,
    EscapeError::NulInCStr,
    EscapeError::UnskippedWhitespaceWarning,
    EscapeError::MultipleSkippedLinesWarning,
];

/// The literals in which escapes are looked at.
#[derive(Clone, Copy, Debug, PartialEq, Eq)]
pub enum Mode {
    Char,
    Byte,
    Str,
    ByteStr,
    CStr,
}

/// Stands for a character or a byte of a C string.
pub struct MixedUnit;

pub fn unescape_char(text: &str) -> Result<char, EscapeError> {
    faults(text, 1).next().map_or(Ok('x'), Err)
}

pub fn unescape_byte(text: &str) -> Result<u8, EscapeError> {
    faults(text, 2).next().map_or(Ok(b'x'), Err)
}

pub fn unescape_str(text: &str, tell: impl FnMut(Range<usize>, Result<char, EscapeError>)) {
    tell_all(text, 1, tell);
}

pub fn unescape_byte_str(text: &str, tell: impl FnMut(Range<usize>, Result<u8, EscapeError>)) {
    tell_all(text, 2, tell);
}

pub fn unescape_c_str(text: &str, tell: impl FnMut(Range<usize>, Result<MixedUnit, EscapeError>)) {
    tell_all(text, 2, tell);
}

fn tell_all<T>(
    text: &str,
    prefix: usize,
    mut tell: impl FnMut(Range<usize>, Result<T, EscapeError>),
) {
    for fault in faults(text, prefix) {
        tell(0..0, Err(fault));
    }
}

/// The faults of the token that begins with a prefix before `text`.
fn faults(text: &str, prefix: usize) -> impl Iterator<Item = EscapeError> {
    let mark = tape::mark_before(text, prefix).expect("a literal without a mark");
    mark.faults
        .into_iter()
        .map(|number| FAULTS[usize::from(number)])
}
