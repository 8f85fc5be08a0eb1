//! Tokens laid out as a text: blanks of all kinds, comments, and odd letter case.

use super::random::Random;

const BLANKS: [char; 5] = [' ', '\t', '\n', '\r', '\u{0C}'];
const LINE_ENDS: [char; 3] = ['\n', '\r', '\u{0C}'];
/// What may stand in a `(* *)` comment, each part closed in itself.
const INSIDE: [&str; 9] = [
    "x", " // ", "/*", "(* *)", "(*)*)", "(*(**)*)", "\"", "1..5 := ", "**",
];
/// What may stand in a `//` comment.
const IN_LINE: [&str; 6] = ["x", " (* ", "*)", "/*", "//", "END_PROGRAM;"];

/// How a text looks.
#[derive(Clone, Copy, Debug, PartialEq, Eq)]
enum Look {
    /// One space between any two tokens.
    Plain,
    /// As few blanks as can be.
    Tight,
    /// Blanks and comments of all kinds.
    Wild,
}

fn is_wordy(byte: u8) -> bool {
    byte.is_ascii_alphanumeric() || byte == b'_' || byte == b'#'
}

/// Whether two tokens could be read otherwise if nothing parts them.
fn must_be_parted(left: &str, right: &str) -> bool {
    let (Some(&last), Some(&first)) = (left.as_bytes().last(), right.as_bytes().first()) else {
        return false;
    };
    if is_wordy(last) || is_wordy(first) {
        return is_wordy(last) && is_wordy(first);
    }
    !matches!(last, b';' | b')' | b',') && !matches!(first, b';' | b'(' | b')')
}

fn comment(random: &mut Random, text: &mut String) {
    if random.percent(70) {
        text.push_str("(*");
        for _ in 0..random.below(3) {
            // A blank first, so that no part joins with what stands before it.
            text.push(' ');
            text.push_str(random.pick(&INSIDE));
        }
        text.push_str(" *)");
    } else {
        text.push_str("//");
        for _ in 0..random.below(3) {
            text.push_str(random.pick(&IN_LINE));
        }
        text.push(random.pick(&LINE_ENDS));
    }
}

fn part(random: &mut Random, text: &mut String) {
    // A blank first, because `/` and a comment after it would be read otherwise.
    text.push(random.pick(&BLANKS));
    for _ in 0..random.below(3) {
        if random.percent(30) {
            comment(random, text);
        } else {
            text.push(random.pick(&BLANKS));
        }
    }
}

/// A word in capitals, small letters, or letters of any case.
fn in_some_case(random: &mut Random, token: &str) -> String {
    match random.below(3) {
        0 => token.to_ascii_uppercase(),
        1 => token.to_ascii_lowercase(),
        _ => token
            .chars()
            .map(|letter| match random.below(2) {
                0 => letter.to_ascii_uppercase(),
                _ => letter.to_ascii_lowercase(),
            })
            .collect(),
    }
}

fn parted(random: &mut Random, look: Look, text: &mut String, left: &str, right: &str) {
    let must = must_be_parted(left, right);
    match look {
        Look::Plain => text.push(' '),
        Look::Tight if must => text.push(random.pick(&BLANKS)),
        Look::Wild if must || random.percent(40) => part(random, text),
        _ => {}
    }
}

/// Lays out tokens as a text that is read as these tokens.
pub fn lay_out(random: &mut Random, tokens: &[String]) -> Vec<u8> {
    let look = random.pick(&[Look::Plain, Look::Tight, Look::Wild]);
    let mut text = String::new();
    let mut left = "";
    for token in tokens {
        parted(random, look, &mut text, left, token);
        if look == Look::Wild {
            text.push_str(&in_some_case(random, token));
        } else {
            text.push_str(token);
        }
        left = token;
    }
    if random.percent(30) {
        part(random, &mut text);
    }
    text.into_bytes()
}
