//! Texts with faults: tokens and bytes removed, added, swapped and replaced.

use super::random::Random;
use crate::tokens::{RESERVED, SYMBOLS};

/// Words and integers at the edge of the rules.
const ODD_TOKENS: [&str; 36] = [
    "2147483647",
    "2147483648",
    "2147483649",
    "4294967296",
    "99999999999999999999",
    "0",
    "1",
    "16#8000_0000",
    "16#80000001",
    "2#2",
    "8#8",
    "16#",
    "16#_1",
    "1_",
    "1__0",
    "3#1",
    "02#1",
    "1_6#F",
    "0x10",
    "1E5",
    "1.5",
    "1...5",
    "A__B",
    "A_",
    "_",
    "__A",
    "_1",
    "END__IF",
    "END",
    "INT#5",
    "**",
    "/*",
    "*)",
    "(*",
    "=>",
    "UNKNOWN_NAME",
];

/// Replacements of one good token by another, that make faults of the walk.
const WALK_FAULTS: [(&str, &str); 14] = [
    ("DINT", "BOOL"),
    ("BOOL", "DINT"),
    ("TRUE", "1"),
    ("FALSE", "0"),
    ("1", "TRUE"),
    ("1", "0"),
    ("2", "0"),
    ("+", "AND"),
    ("AND", "+"),
    ("<", "="),
    ("=", "<"),
    ("NOT", "-"),
    ("-", "NOT"),
    ("*", "OR"),
];

fn some_token(random: &mut Random, tokens: &[String]) -> String {
    match random.below(4) {
        0 => random.pick(&RESERVED).to_string(),
        1 => random.pick(&SYMBOLS).to_string(),
        2 => random.pick(&ODD_TOKENS).to_string(),
        _ => random.pick(tokens),
    }
}

fn is_number(token: &str) -> bool {
    token.starts_with(|first: char| first.is_ascii_digit())
}

/// Replaces a token that fits by another, if there is one.
fn replace_where(
    random: &mut Random,
    tokens: &mut [String],
    fits: impl Fn(&str) -> bool,
    by: &str,
) {
    let places: Vec<usize> = (0..tokens.len()).filter(|&at| fits(&tokens[at])).collect();
    if !places.is_empty() {
        tokens[random.pick(&places)] = by.to_string();
    }
}

fn is_name(token: &str) -> bool {
    let begins = token.starts_with(|first: char| first.is_ascii_alphabetic() || first == '_');
    begins && !RESERVED.contains(&token)
}

/// One fault that leaves the syntax good most of the time.
fn fault_of_the_walk(random: &mut Random, tokens: &mut Vec<String>) {
    match random.below(5) {
        0 => {
            let (good, bad) = random.pick(&WALK_FAULTS);
            replace_where(random, tokens, |token| token == good, bad);
        }
        1 => replace_where(random, tokens, is_number, "2147483648"),
        2 => {
            let by = random.pick(tokens);
            if is_name(&by) {
                replace_where(random, tokens, is_name, &by);
            }
        }
        3 => replace_where(random, tokens, is_name, "UNKNOWN_NAME"),
        _ => {
            let after: Vec<usize> = (1..tokens.len())
                .filter(|&at| tokens[at - 1] == ";")
                .collect();
            if !after.is_empty() {
                let at = random.pick(&after);
                tokens.splice(at..at, ["EXIT".to_string(), ";".to_string()]);
            }
        }
    }
}

/// One change of a token anywhere.
fn damage_tokens(random: &mut Random, tokens: &mut Vec<String>) {
    let at = random.below(tokens.len());
    match random.below(5) {
        0 if tokens.len() > 1 => {
            tokens.remove(at);
        }
        1 => {
            let token = some_token(random, tokens);
            tokens.insert(at, token);
        }
        2 => {
            let other = random.below(tokens.len());
            tokens.swap(at, other);
        }
        3 if at + 1 < tokens.len() => tokens.swap(at, at + 1),
        _ => tokens[at] = some_token(random, tokens),
    }
}

/// Puts some faults into tokens.
pub fn with_faults(random: &mut Random, tokens: &mut Vec<String>) {
    let faults = random.pick(&[1, 1, 1, 2, 3, 5]);
    for _ in 0..faults {
        if random.percent(60) {
            fault_of_the_walk(random, tokens);
        } else {
            damage_tokens(random, tokens);
        }
    }
}

/// Puts some faults into tokens that only seldom leave the syntax good.
pub fn with_damage(random: &mut Random, tokens: &mut Vec<String>) {
    for _ in 0..random.pick(&[1, 1, 2, 3]) {
        damage_tokens(random, tokens);
    }
}

fn some_byte(random: &mut Random) -> u8 {
    if random.percent(40) {
        random.byte()
    } else {
        random.pick(b"_#.*/()<>=:;, \t\n\r\x0C\x0B\x00aZ09$\"\x80\xFF")
    }
}

/// One change of a byte anywhere.
fn damage_byte(random: &mut Random, text: &mut Vec<u8>) {
    if text.is_empty() {
        text.push(some_byte(random));
        return;
    }
    let at = random.below(text.len());
    match random.below(4) {
        0 => text[at] = some_byte(random),
        1 => {
            text.remove(at);
        }
        2 => text.insert(at, some_byte(random)),
        _ => text.truncate(at),
    }
}

/// Changes some bytes of a text.
pub fn damage_bytes(random: &mut Random, text: &mut Vec<u8>) {
    for _ in 0..random.pick(&[1, 1, 1, 2, 4]) {
        damage_byte(random, text);
    }
}

/// Bytes that were never a text.
pub fn noise(random: &mut Random) -> Vec<u8> {
    (0..random.below(40)).map(|_| some_byte(random)).collect()
}
