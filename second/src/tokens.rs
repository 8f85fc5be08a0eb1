//! Text into tokens: blanks, comments, words, integers and symbols, with numbers 2, 3 and 4.

use crate::numbers::{refuse, Fault, Refusal, INTEGER_LIMIT, NAME_LIMIT};

/// Every word of two or more capitals in the section on the text, but LF, CR and FF.
pub const RESERVED: [&str; 32] = [
    "AND",
    "BOOL",
    "BY",
    "CASE",
    "DINT",
    "DO",
    "ELSE",
    "ELSIF",
    "END_CASE",
    "END_FOR",
    "END_IF",
    "END_PROGRAM",
    "END_REPEAT",
    "END_VAR",
    "END_WHILE",
    "EXIT",
    "FALSE",
    "FOR",
    "IF",
    "MOD",
    "NOT",
    "OF",
    "OR",
    "PROGRAM",
    "REPEAT",
    "THEN",
    "TO",
    "TRUE",
    "UNTIL",
    "VAR",
    "WHILE",
    "XOR",
];

/// The symbols, longer ones first, because the longest token wins.
pub const SYMBOLS: [&str; 18] = [
    ":=", "<=", ">=", "<>", "..", ":", ";", ",", "(", ")", "+", "-", "*", "/", "<", ">", "=", "&",
];

#[derive(Clone, Debug, PartialEq, Eq)]
pub enum Kind {
    /// A name in capitals, since letter case means nothing.
    Name(String),
    /// An integer of at most 2147483648.
    Integer(u32),
    /// A reserved word in capitals, or a symbol.
    Fixed(&'static str),
}

#[derive(Clone, Debug, PartialEq, Eq)]
pub struct Token {
    /// The offset of the first byte.
    pub place: usize,
    pub kind: Kind,
}

fn is_blank(byte: u8) -> bool {
    matches!(byte, b' ' | b'\t' | b'\n' | b'\r' | 0x0C)
}

fn is_word_byte(byte: u8) -> bool {
    byte.is_ascii_alphanumeric() || byte == b'_'
}

/// The offset of the LF, CR or FF that ends a `//` comment, or of the text's end.
fn end_of_line_comment(text: &[u8], opening: usize) -> usize {
    let ends = |&byte: &u8| matches!(byte, b'\n' | b'\r' | 0x0C);
    let rest = &text[opening..];
    opening + rest.iter().position(ends).unwrap_or(rest.len())
}

/// The offset after the `*)` that matches the opening; each `(*` and `*)` uses up both its bytes.
fn end_of_comment(text: &[u8], outermost_opening: usize) -> Result<usize, Refusal> {
    let mut place = outermost_opening + 2;
    let mut open = 1;
    while open > 0 {
        let rest = &text[place..];
        if rest.is_empty() {
            return refuse(Fault::NoToken, outermost_opening);
        } else if rest.starts_with(b"(*") {
            open += 1;
            place += 2;
        } else if rest.starts_with(b"*)") {
            open -= 1;
            place += 2;
        } else {
            place += 1;
        }
    }
    Ok(place)
}

/// The run of bytes from a place that belong to one token.
fn run_of(text: &[u8], place: usize, belongs: fn(u8) -> bool) -> &[u8] {
    let rest = &text[place..];
    let length = rest.iter().position(|&byte| !belongs(byte));
    &rest[..length.unwrap_or(rest.len())]
}

fn word(run: &[u8], place: usize) -> Result<Kind, Refusal> {
    let two_running = run.windows(2).any(|pair| pair == b"__");
    if two_running || run.ends_with(b"_") || run.len() > NAME_LIMIT {
        return refuse(Fault::BadName, place);
    }
    let capitals = String::from_utf8_lossy(run).to_ascii_uppercase();
    Ok(match RESERVED.iter().find(|&&word| word == capitals) {
        Some(reserved) => Kind::Fixed(reserved),
        None => Kind::Name(capitals),
    })
}

/// The base of a token that starts with a digit, and what stands for its digits.
fn base_and_digits(run: &[u8]) -> (u32, &[u8]) {
    for (prefix, base) in [(&b"2#"[..], 2), (&b"8#"[..], 8), (&b"16#"[..], 16)] {
        if let Some(digits) = run.strip_prefix(prefix) {
            return (base, digits);
        }
    }
    (10, run)
}

/// The value of digits with single underscores between them; `None` if malformed or too large.
fn value_of(base: u32, digits: &[u8]) -> Option<u32> {
    let mut value: u64 = 0;
    for group in digits.split(|&byte| byte == b'_') {
        if group.is_empty() {
            return None;
        }
        for &byte in group {
            let digit = char::from(byte).to_digit(base)?;
            value = (value * u64::from(base) + u64::from(digit)).min(u64::from(u32::MAX));
        }
    }
    let value = u32::try_from(value).ok()?;
    (value <= INTEGER_LIMIT).then_some(value)
}

fn integer(run: &[u8], place: usize) -> Result<Kind, Refusal> {
    let (base, digits) = base_and_digits(run);
    match value_of(base, digits) {
        Some(value) => Ok(Kind::Integer(value)),
        None => refuse(Fault::BadInteger, place),
    }
}

fn symbol(text: &[u8], place: usize) -> Result<&'static str, Refusal> {
    let rest = &text[place..];
    let found = SYMBOLS
        .iter()
        .find(|symbol| rest.starts_with(symbol.as_bytes()));
    match found {
        Some(symbol) if !rest.starts_with(b"/*") => Ok(symbol),
        _ => refuse(Fault::NoToken, place),
    }
}

/// The token at a place, and the offset after it.
fn token(text: &[u8], place: usize) -> Result<(Token, usize), Refusal> {
    let first = text[place];
    let (kind, length) = if first.is_ascii_digit() {
        let run = run_of(text, place, |byte| is_word_byte(byte) || byte == b'#');
        (integer(run, place)?, run.len())
    } else if is_word_byte(first) {
        let run = run_of(text, place, is_word_byte);
        (word(run, place)?, run.len())
    } else {
        let symbol = symbol(text, place)?;
        (Kind::Fixed(symbol), symbol.len())
    };
    Ok((Token { place, kind }, place + length))
}

/// All tokens of a text, or the fault that comes first in it.
pub fn tokens(text: &[u8]) -> Result<Vec<Token>, Refusal> {
    let mut found = Vec::new();
    let mut place = 0;
    while place < text.len() {
        let rest = &text[place..];
        if is_blank(rest[0]) {
            place += 1;
        } else if rest.starts_with(b"//") {
            place = end_of_line_comment(text, place);
        } else if rest.starts_with(b"(*") {
            place = end_of_comment(text, place)?;
        } else {
            let (token, end) = token(text, place)?;
            found.push(token);
            place = end;
        }
    }
    Ok(found)
}
