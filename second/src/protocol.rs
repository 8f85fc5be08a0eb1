//! The line protocol: one request to a line, one answer to a line.

use crate::compile::{compile, compile_text, desk_line, parse, refused_line};
use crate::evaluate::evaluate;
use crate::image::initial_values;
use crate::machine::run;
use crate::numbers::{IMAGE_LIMIT, WORKING_MEMORY_LENGTH};
use crate::tree::numbers;

/// Why a line is no request.
#[derive(Clone, Copy, Debug, PartialEq, Eq)]
pub enum Error {
    /// Unknown or missing letter.
    Request,
    /// Wrong number of fields.
    Fields,
    /// Odd or not lowercase hex.
    Hex,
    /// Not a decimal number, or out of range.
    Number,
}

impl Error {
    fn word(self) -> &'static str {
        match self {
            Error::Request => "request",
            Error::Fields => "fields",
            Error::Hex => "hex",
            Error::Number => "number",
        }
    }
}

fn hex_digit(byte: u8) -> Result<u8, Error> {
    match byte {
        b'0'..=b'9' => Ok(byte - b'0'),
        b'a'..=b'f' => Ok(byte - b'a' + 10),
        _ => Err(Error::Hex),
    }
}

/// Bytes in lowercase hex, `-` for none.
fn bytes(field: &[u8]) -> Result<Vec<u8>, Error> {
    if field == b"-" {
        return Ok(Vec::new());
    }
    if field.is_empty() {
        return Err(Error::Hex);
    }
    let mut bytes = Vec::new();
    for pair in field.chunks(2) {
        let &[high, low] = pair else {
            return Err(Error::Hex);
        };
        bytes.push(hex_digit(high)? * 16 + hex_digit(low)?);
    }
    Ok(bytes)
}

/// A number of decimal digits up to a limit.
fn digits(field: &[u8], limit: u32) -> Result<u32, Error> {
    if field.is_empty() {
        return Err(Error::Number);
    }
    let mut number: u32 = 0;
    for byte in field {
        if !byte.is_ascii_digit() {
            return Err(Error::Number);
        }
        let digit = u32::from(byte - b'0');
        let longer = number.checked_mul(10).and_then(|n| n.checked_add(digit));
        number = longer.ok_or(Error::Number)?;
    }
    if number > limit {
        return Err(Error::Number);
    }
    Ok(number)
}

fn unsigned(field: &[u8]) -> Result<u32, Error> {
    digits(field, u32::MAX)
}

fn length(field: &[u8]) -> Result<usize, Error> {
    unsigned(field).map(|number| number as usize)
}

fn value(field: &[u8]) -> Result<i32, Error> {
    let (magnitude, negative) = match field.strip_prefix(b"-") {
        Some(rest) => (digits(rest, 1 << 31)?, true),
        None => (digits(field, i32::MAX as u32)?, false),
    };
    let exact = i64::from(magnitude);
    Ok(if negative { -exact } else { exact } as i32)
}

fn table(field: &[u8]) -> Result<Vec<i32>, Error> {
    if field == b"-" {
        return Ok(Vec::new());
    }
    field.split(|&byte| byte == b',').map(value).collect()
}

/// Bytes as a field.
pub fn hex_field(bytes: &[u8]) -> String {
    if bytes.is_empty() {
        return "-".to_string();
    }
    bytes.iter().map(|byte| format!("{byte:02x}")).collect()
}

/// A table as a field.
pub fn table_field(table: &[i32]) -> String {
    if table.is_empty() {
        return "-".to_string();
    }
    let values: Vec<String> = table.iter().map(i32::to_string).collect();
    values.join(",")
}

fn answer_compile(text: &[u8], capacity: usize) -> String {
    match compile(text, WORKING_MEMORY_LENGTH, capacity) {
        Ok(accepted) => format!(
            "ACCEPTED {} {} {} {}",
            hex_field(&accepted.image),
            accepted.code_length,
            accepted.depth,
            accepted.worst_case
        ),
        Err(refusal) => refused_line(refusal),
    }
}

fn answer_parse(text: &[u8]) -> String {
    let numbers = match parse(text) {
        Ok(tree) => numbers(&tree),
        Err(refusal) => return refused_line(refusal),
    };
    let fields: Vec<String> = numbers.iter().map(u32::to_string).collect();
    format!("TREE {} {}", numbers.len(), fields.join(" "))
}

fn answer_run(image: &[u8], budget: u32, mut table: Vec<i32>) -> String {
    let report = run(image, budget, &mut table);
    format!(
        "{} {} {} {} {}",
        report.outcome.number(),
        report.ticks,
        report.instructions,
        report.offset,
        table_field(&table)
    )
}

fn answer_evaluate(text: &[u8], budget: u32, mut table: Vec<i32>) -> String {
    let accepted = match compile_text(text) {
        Ok(accepted) => accepted,
        Err(refusal) => return refused_line(refusal),
    };
    let meaning = evaluate(&accepted.program, budget, &mut table);
    format!(
        "{} {} {}",
        meaning.outcome.number(),
        meaning.ticks,
        table_field(&table)
    )
}

fn answer_fill(image: &[u8], count: usize) -> String {
    match initial_values(image, count) {
        Ok(values) => format!("0 {}", table_field(&values)),
        Err(outcome) => outcome.number().to_string(),
    }
}

/// The answer to a request, whose fields are read left to right.
fn answer_request(line: &[u8]) -> Result<String, Error> {
    let fields: Vec<&[u8]> = line.split(|&byte| byte == b' ').collect();
    match *fields {
        [b"C", text] => Ok(answer_compile(&bytes(text)?, IMAGE_LIMIT)),
        [b"C", text, capacity] => Ok(answer_compile(&bytes(text)?, length(capacity)?)),
        [b"P", text] => Ok(answer_parse(&bytes(text)?)),
        [b"R", image, budget, values] => Ok(answer_run(
            &bytes(image)?,
            unsigned(budget)?,
            table(values)?,
        )),
        [b"E", text, budget, values] => Ok(answer_evaluate(
            &bytes(text)?,
            unsigned(budget)?,
            table(values)?,
        )),
        [b"F", image, count] => Ok(answer_fill(&bytes(image)?, length(count)?)),
        [b"D", text] => Ok(desk_line(&bytes(text)?)),
        [b"C" | b"P" | b"R" | b"E" | b"F" | b"D", ..] => Err(Error::Fields),
        _ => Err(Error::Request),
    }
}

/// The answer to a line, without its LF.
pub fn answer(line: &[u8]) -> String {
    match answer_request(line) {
        Ok(answer) => answer,
        Err(error) => format!("ERROR {}", error.word()),
    }
}
