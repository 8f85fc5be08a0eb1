//! The image: its three records written and read, and a table filled from it.

use crate::numbers::{Outcome, CODE_LIMIT, VARIABLE_LIMIT};
use crate::program::{Type, Variable};

const KIND_VARIABLES: u16 = 1;
const KIND_CODE: u16 = 2;
const KIND_FIGURES: u16 = 3;
/// Type and four-byte initial value.
const VARIABLE_LENGTH: usize = 5;
/// Depth and worst case.
const FIGURES_LENGTH: usize = 6;

/// What a run uses of an image; kind 3 isn't used.
#[derive(Clone, Debug, PartialEq, Eq)]
pub struct Image<'i> {
    pub variables: Vec<Variable>,
    pub code: &'i [u8],
}

fn type_byte(kind: Type) -> u8 {
    match kind {
        Type::Bool => 1,
        Type::Dint => 2,
    }
}

fn type_of_byte(byte: u8) -> Option<Type> {
    match byte {
        1 => Some(Type::Bool),
        2 => Some(Type::Dint),
        _ => None,
    }
}

/// Payload length, kind, payload. Every payload is far shorter than 65,536 bytes.
fn write_record(image: &mut Vec<u8>, kind: u16, payload: &[u8]) {
    image.extend((payload.len() as u16).to_le_bytes());
    image.extend(kind.to_le_bytes());
    image.extend(payload);
}

/// The image of a program that keeps the limits.
pub fn write(variables: &[Variable], code: &[u8], depth: usize, worst_case: u32) -> Vec<u8> {
    let mut table = Vec::new();
    for variable in variables {
        table.push(type_byte(variable.kind));
        table.extend(variable.initial.to_le_bytes());
    }
    let mut figures = Vec::new();
    figures.extend((depth as u16).to_le_bytes());
    figures.extend(worst_case.to_le_bytes());
    let mut image = Vec::new();
    write_record(&mut image, KIND_VARIABLES, &table);
    write_record(&mut image, KIND_CODE, code);
    write_record(&mut image, KIND_FIGURES, &figures);
    image
}

/// The payload of the record that must stand first, and the bytes after it.
fn read_record(bytes: &[u8], kind: u16) -> Option<(&[u8], &[u8])> {
    let (head, rest) = bytes.split_first_chunk::<4>()?;
    let length = usize::from(u16::from_le_bytes([head[0], head[1]]));
    let found = u16::from_le_bytes([head[2], head[3]]);
    if found == kind && length <= rest.len() {
        Some(rest.split_at(length))
    } else {
        None
    }
}

fn read_variable(bytes: &[u8; VARIABLE_LENGTH]) -> Option<Variable> {
    let kind = type_of_byte(bytes[0])?;
    let initial = i32::from_le_bytes([bytes[1], bytes[2], bytes[3], bytes[4]]);
    kind.holds(initial).then_some(Variable { kind, initial })
}

fn read_variables(payload: &[u8]) -> Option<Vec<Variable>> {
    let (entries, left_over) = payload.as_chunks::<VARIABLE_LENGTH>();
    if entries.len() > VARIABLE_LIMIT || !left_over.is_empty() {
        return None;
    }
    entries.iter().map(read_variable).collect()
}

/// Reads exactly these three records; anything else is number 23.
pub fn read(image: &[u8]) -> Option<Image<'_>> {
    let (variables, rest) = read_record(image, KIND_VARIABLES)?;
    let (code, rest) = read_record(rest, KIND_CODE)?;
    let (figures, rest) = read_record(rest, KIND_FIGURES)?;
    if code.len() > CODE_LIMIT || figures.len() != FIGURES_LENGTH || !rest.is_empty() {
        return None;
    }
    let variables = read_variables(variables)?;
    Some(Image { variables, code })
}

/// The initial values for a table of this length; 23, or 24 for length only.
pub fn initial_values(image: &[u8], table_length: usize) -> Result<Vec<i32>, Outcome> {
    let image = read(image).ok_or(Outcome::BadImage)?;
    if image.variables.len() != table_length {
        return Err(Outcome::BadTable);
    }
    Ok(image
        .variables
        .iter()
        .map(|variable| variable.initial)
        .collect())
}

/// Fills a table with initial values; a refusal changes no entry.
pub fn fill(image: &[u8], table: &mut [i32]) -> Result<(), Outcome> {
    let values = initial_values(image, table.len())?;
    table.copy_from_slice(&values);
    Ok(())
}

/// Whether a run may use the table: its length, and 0 or 1 in every BOOL entry.
pub fn table_is_valid(variables: &[Variable], table: &[i32]) -> bool {
    let holds = |(variable, &value): (&Variable, &i32)| variable.kind.holds(value);
    table.len() == variables.len() && variables.iter().zip(table).all(holds)
}
