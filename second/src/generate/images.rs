//! Images: good ones damaged, and ones with code that no compiler wrote.

use super::random::Random;
use crate::codes::{operand_length, HALT, TICK};
use crate::image::write;
use crate::program::{Type, Variable};

/// Where the records of a good image begin.
struct Records {
    code: usize,
    figures: usize,
}

fn records(image: &[u8]) -> Records {
    let length_at = |at: usize| usize::from(u16::from_le_bytes([image[at], image[at + 1]]));
    let code = 4 + length_at(0);
    Records {
        code,
        figures: code + 4 + length_at(code),
    }
}

fn some_variables(random: &mut Random) -> Vec<Variable> {
    let count = random.below(5);
    let mut variables = Vec::new();
    for _ in 0..count {
        let kind = random.pick(&[Type::Dint, Type::Dint, Type::Bool]);
        let initial = match kind {
            Type::Dint => random.value(),
            Type::Bool => random.below(2) as i32,
        };
        variables.push(Variable { kind, initial });
    }
    variables
}

/// A target: mostly within the code or next to its end.
fn some_target(random: &mut Random, length: usize) -> [u8; 2] {
    let target = match random.below(12) {
        0 => random.number() as u16,
        1 => length as u16,
        2 => 0,
        _ => random.below(length + 2) as u16,
    };
    target.to_le_bytes()
}

/// A slot or level: mostly one that exists.
fn some_index(random: &mut Random, count: usize) -> u8 {
    match random.below(20) {
        0 => random.byte(),
        1 => count as u8,
        _ => random.below(count.max(1)) as u8,
    }
}

fn some_instruction(random: &mut Random, variables: usize, length: usize) -> Vec<u8> {
    let code = match random.below(30) {
        0 => random.byte(),
        // Values are pushed more often, so that the stack is seldom empty.
        1..=6 => random.pick(&[0x02, 0x03]),
        7..=9 => TICK,
        _ => 1 + random.below(29) as u8,
    };
    let mut bytes = vec![code];
    match code {
        0x02 => bytes.extend(random.value().to_le_bytes()),
        0x03 | 0x04 => bytes.push(some_index(random, variables)),
        0x15 | 0x16 | 0x18 => bytes.extend(some_target(random, length)),
        0x17 => {
            bytes.extend(random.value().to_le_bytes());
            bytes.extend(random.value().to_le_bytes());
        }
        0x1A => bytes.push(some_index(random, 8)),
        0x1B | 0x1C => {
            bytes.push(some_index(random, 8));
            bytes.push(some_index(random, variables));
            bytes.extend(random.value().to_le_bytes());
            bytes.extend(some_target(random, length));
        }
        _ => {}
    }
    bytes
}

fn instructions(random: &mut Random, variables: usize) -> Vec<u8> {
    let length = 1 + random.below(120);
    let mut code = Vec::new();
    while code.len() < length {
        let instruction = some_instruction(random, variables, length);
        code.extend(instruction);
    }
    if random.percent(50) {
        code.push(HALT);
    }
    if random.percent(10) {
        code.pop();
    }
    code
}

fn bytes(random: &mut Random) -> Vec<u8> {
    let low = random.percent(60);
    let length = random.below(60);
    let some = |_| match low {
        true => random.below(31) as u8,
        false => random.byte(),
    };
    (0..length).map(some).collect()
}

/// Pushes up to and past the stack's limit, and then something that uses it.
fn full_stack(random: &mut Random) -> Vec<u8> {
    let pushes = 30 + random.below(4);
    let mut code = [0x02, 1, 0, 0, 0].repeat(pushes);
    for _ in 0..3 {
        let instruction = some_instruction(random, 1, code.len());
        code.extend(instruction);
    }
    code.push(HALT);
    code
}

/// A well-formed image whose code is put together by chance.
pub fn with_random_code(random: &mut Random) -> Vec<u8> {
    let variables = some_variables(random);
    let code = match random.below(6) {
        0 => bytes(random),
        1 => full_stack(random),
        _ => instructions(random, variables.len()),
    };
    let (depth, worst_case) = (random.below(70), random.number() as u32);
    write(&variables, &code, depth, worst_case)
}

/// The offsets of the instructions that stand one after the other from the code's start.
fn offsets(code: &[u8]) -> Vec<usize> {
    let mut offsets = Vec::new();
    let mut at = 0;
    while let Some(length) = code.get(at).and_then(|&code| operand_length(code)) {
        if at + 1 + length > code.len() {
            break;
        }
        offsets.push(at);
        at += 1 + length;
    }
    offsets
}

/// Changes the code of a good image in one place, keeping the records.
fn damage_code(random: &mut Random, image: &mut [u8]) {
    let Records { code, figures } = records(image);
    let code = &mut image[code + 4..figures];
    let offsets = offsets(code);
    if offsets.is_empty() {
        return;
    }
    let at = random.pick(&offsets);
    let operands = operand_length(code[at]).unwrap_or(0);
    match random.below(6) {
        0 => code[at] = random.byte(),
        1 => code[at] = 1 + random.below(29) as u8,
        2 => {
            let any = random.below(code.len());
            code[any] = random.byte();
        }
        3 | 4 if operands >= 2 => {
            let target = some_target(random, code.len());
            code[at + operands - 1..at + operands + 1].copy_from_slice(&target);
        }
        _ if operands > 0 => {
            let operand = at + 1 + random.below(operands);
            code[operand] = random.pick(&[0, 1, 2, 7, 8, 9, 63, 64, 0x7F, 0x80, 0xFF]);
        }
        _ => code[at] = random.byte(),
    }
}

/// The step of a FIRST or NEXT made 0.
fn damage_step(image: &mut [u8]) {
    let Records { code, figures } = records(image);
    let code = &mut image[code + 4..figures];
    let of_for = offsets(code)
        .into_iter()
        .find(|&at| matches!(code[at], 0x1B | 0x1C));
    if let Some(at) = of_for {
        code[at + 3..at + 7].fill(0);
    }
}

/// Changes a byte of one of the three record heads.
fn damage_head(random: &mut Random, image: &mut [u8]) {
    let Records { code, figures } = records(image);
    let head = random.pick(&[0, code, figures]);
    let byte = &mut image[head + random.below(4)];
    *byte = match random.below(4) {
        0 => random.byte(),
        1 => byte.wrapping_add(1),
        2 => byte.wrapping_sub(1),
        _ => byte.wrapping_add(5),
    };
}

/// Changes a type byte or an initial value.
fn damage_variables(random: &mut Random, image: &mut [u8]) {
    let count = (records(image).code - 4) / 5;
    if count == 0 {
        return;
    }
    let variable = 4 + 5 * random.below(count);
    if random.percent(50) {
        image[variable] = random.pick(&[0, 1, 2, 3, 0xFF]);
    } else {
        image[variable + 1 + random.below(4)] = random.pick(&[0, 1, 2, 0xFF]);
    }
}

/// Writes the three records of a good image in another order, or one of them twice or not at all.
fn reordered(random: &mut Random, image: &[u8]) -> Vec<u8> {
    let Records { code, figures } = records(image);
    let parts = [&image[..code], &image[code..figures], &image[figures..]];
    let orders: [&[usize]; 8] = [
        &[0, 2, 1],
        &[1, 0, 2],
        &[2, 1, 0],
        &[1, 2, 0],
        &[0, 1],
        &[0, 2],
        &[0, 1, 2, 2],
        &[0, 0, 1, 2],
    ];
    let order = random.pick(&orders);
    order
        .iter()
        .flat_map(|&part| parts[part])
        .copied()
        .collect()
}

/// Records at and over their own limits.
fn at_record_limits(random: &mut Random) -> Vec<u8> {
    let variable = Variable {
        kind: Type::Dint,
        initial: 7,
    };
    let variables = vec![variable; 64 + random.below(2)];
    let mut code = vec![TICK; 8_191 + random.below(2)];
    code.push(HALT);
    write(&variables, &code, 0, 0)
}

/// A damaged copy of a good image.
pub fn damaged(random: &mut Random, good: &[u8]) -> Vec<u8> {
    let mut image = good.to_vec();
    match random.below(32) {
        0 => image.truncate(random.below(good.len())),
        1 => image.push(random.byte()),
        2 | 3 => return reordered(random, good),
        4..=7 => damage_head(random, &mut image),
        8..=10 => damage_variables(random, &mut image),
        11 => damage_step(&mut image),
        12 => {
            let at = random.below(image.len());
            image[at] = random.byte();
        }
        13 if random.percent(20) => return at_record_limits(random),
        _ => {
            for _ in 0..1 + random.below(3) {
                damage_code(random, &mut image);
            }
        }
    }
    image
}
