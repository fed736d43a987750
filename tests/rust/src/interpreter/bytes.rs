//! "Text of a bench file": what a byte is good for. Order 4 of document 02 numbers these classes; the reader of words goes by them.

/// In the order in which order 4 names them, so that their numbers count from 0.
#[derive(Clone, Copy, Debug, PartialEq, Eq, PartialOrd, Ord)]
pub enum Class {
    Letter,
    Digit,
    Underscore,
    Mark,
    Blank,
    /// `#`, which starts a comment.
    Hash,
    /// Allowed, but in comments only.
    Comment,
    NotAllowed,
}

pub const CLASSES: [Class; 8] =
    [Class::Letter, Class::Digit, Class::Underscore, Class::Mark, Class::Blank, Class::Hash, Class::Comment, Class::NotAllowed];

pub fn class(byte: u8) -> Class {
    match byte {
        b'a'..=b'z' | b'A'..=b'Z' => Class::Letter,
        b'0'..=b'9' => Class::Digit,
        b'_' => Class::Underscore,
        b'{' | b'}' | b'(' | b')' | b':' | b'=' | b',' | b'.' | b'+' | b'-' | b'*' | b'/' => Class::Mark,
        b' ' | b'\t' | b'\n' => Class::Blank,
        b'#' => Class::Hash,
        // Of the bytes that document 01 allows, the rest.
        32..=126 => Class::Comment,
        _ => Class::NotAllowed,
    }
}

/// The answer of the call: the number of the class.
pub fn bench_byte_class(byte: u8) -> u64 {
    class(byte) as u64
}
