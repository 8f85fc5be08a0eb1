//! What the tests share: texts with a marked place, code written as hex, and runs.
#![allow(dead_code)]

use second::compile::{compile_text, desk_line};
use second::evaluate::evaluate;
use second::image;
use second::machine::run;

/// Declares DINT A, B, I, J (slots 0 to 3) and BOOL X, Y (slots 4 and 5).
pub fn program(statements: &str) -> String {
    let declarations = "A:DINT; B:DINT; I:DINT; J:DINT; X:BOOL; Y:BOOL;";
    format!("PROGRAM P VAR {declarations} END_VAR {statements} END_PROGRAM")
}

/// A text, and the place that `^` marks in it.
pub fn marked(text: &str) -> (String, usize) {
    let place = text.find('^').expect("a text with a marked place");
    (text.replacen('^', "", 1), place)
}

/// The text is refused with this number at the byte before which `^` stands.
#[track_caller]
pub fn assert_refused(number: u8, marked_text: &str) {
    let (text, place) = marked(marked_text);
    assert_eq!(
        desk_line(text.as_bytes()),
        format!("REFUSED {number} {place}"),
        "{text}"
    );
}

/// The statements are refused with this number at the byte before which `^` stands.
#[track_caller]
pub fn assert_statements_refused(number: u8, marked_statements: &str) {
    assert_refused(number, &program(marked_statements));
}

#[track_caller]
pub fn assert_accepted(text: &str) {
    let line = desk_line(text.as_bytes());
    assert!(line.starts_with("ACCEPTED"), "{line}: {text}");
}

#[track_caller]
pub fn assert_statements_accepted(statements: &str) {
    assert_accepted(&program(statements));
}

/// The bytes of hex pairs; blanks mean nothing.
pub fn hex(pairs: &str) -> Vec<u8> {
    let digits: Vec<char> = pairs.chars().filter(|c| !c.is_whitespace()).collect();
    let pair = |pair: &[char]| {
        let spelled: String = pair.iter().collect();
        u8::from_str_radix(&spelled, 16).expect("hex")
    };
    digits.chunks(2).map(pair).collect()
}

/// The code that a text gives.
pub fn code_of(text: &str) -> Vec<u8> {
    let accepted = compile_text(text.as_bytes()).expect("an accepted text");
    image::read(&accepted.image)
        .expect("an image")
        .code
        .to_vec()
}

/// The code that statements give.
#[track_caller]
pub fn assert_code(statements: &str, pairs: &str) {
    let found = code_of(&program(statements));
    assert_eq!(
        hex_pairs(&found),
        hex_pairs(&hex(pairs)),
        "code of {statements}"
    );
}

pub fn hex_pairs(bytes: &[u8]) -> String {
    let pairs: Vec<String> = bytes.iter().map(|byte| format!("{byte:02X}")).collect();
    pairs.join(" ")
}

/// Depth and worst case of statements, as the desk prints them.
#[track_caller]
pub fn assert_figures(statements: &str, depth: usize, worst_case: &str) {
    let line = desk_line(program(statements).as_bytes());
    let fields: Vec<&str> = line.split(' ').collect();
    assert_eq!(fields[0], "ACCEPTED", "{line}: {statements}");
    assert_eq!(fields[3], depth.to_string(), "depth of {statements}");
    assert_eq!(fields[4], worst_case, "worst case of {statements}");
}

/// Outcome and ticks, the same for the text's meaning and the image's run; the table is changed.
#[track_caller]
pub fn outcome(text: &str, budget: u32, table: &mut [i32]) -> (u8, u32) {
    let accepted = compile_text(text.as_bytes()).expect("an accepted text");
    let mut other = table.to_vec();
    let report = run(&accepted.image, budget, &mut other);
    let meaning = evaluate(&accepted.program, budget, table);
    assert_eq!(meaning.outcome, report.outcome, "{text}");
    assert_eq!(meaning.ticks, report.ticks, "{text}");
    assert_eq!(*table, *other, "{text}");
    (meaning.outcome.number(), meaning.ticks)
}

/// Runs statements over A, B, I, J, X, Y with the largest budget.
#[track_caller]
pub fn run_statements(statements: &str, table: [i32; 6]) -> (u8, u32, [i32; 6]) {
    let mut table = table;
    let (outcome, ticks) = outcome(&program(statements), u32::MAX, &mut table);
    (outcome, ticks, table)
}

fn record(kind: u8, payload: &[u8]) -> Vec<u8> {
    let length = payload.len() as u16;
    let mut bytes = length.to_le_bytes().to_vec();
    bytes.extend([kind, 0]);
    bytes.extend(payload);
    bytes
}

/// An image with these variables, `B` or `D` each with initial value 0, and this code.
pub fn image_of(types: &str, code: &[u8]) -> Vec<u8> {
    let mut variables = Vec::new();
    for letter in types.chars() {
        variables.extend([if letter == 'B' { 1 } else { 2 }, 0, 0, 0, 0]);
    }
    let figures = [0; 6];
    [record(1, &variables), record(2, code), record(3, &figures)].concat()
}

/// A run of code: outcome, ticks, instructions, offset.
pub fn run_code(types: &str, pairs: &str, budget: u32, table: &mut [i32]) -> (u8, u32, u64, usize) {
    let report = run(&image_of(types, &hex(pairs)), budget, table);
    (
        report.outcome.number(),
        report.ticks,
        report.instructions,
        report.offset,
    )
}

/// The code stops with 25 at this offset, after so many completed instructions and no tick.
#[track_caller]
pub fn assert_bad_code(types: &str, pairs: &str, instructions: u64, offset: usize) {
    let mut table = vec![0; types.len()];
    let report = run_code(types, pairs, 100, &mut table);
    assert_eq!(
        (report.0, report.2, report.3),
        (25, instructions, offset),
        "{pairs}"
    );
    assert_eq!(table, vec![0; types.len()], "{pairs}");
}

/// An arithmetic expression of this height: `1+1*(..)` is two higher than what it holds.
pub fn of_height(height: usize) -> String {
    match height {
        1 => "1".to_string(),
        2 => "1+1".to_string(),
        3 => "1+1*1".to_string(),
        _ => format!("1+1*({})", of_height(height - 2)),
    }
}
