//! A seeded generator of texts, images, tables and budgets, and of requests that hold them.

pub mod edges;
pub mod faults;
pub mod images;
pub mod layout;
pub mod limits;
pub mod random;
pub mod text_edges;
pub mod texts;

use crate::compile::{compile_text, Accepted};
use crate::image;
use crate::program::{Type, Variable};
use crate::protocol::{hex_field, table_field};
use random::Random;

/// A worst case up to which a run may have any budget.
const SMALL_WORST_CASE: u32 = 20_000;
/// How long a text to parse is at most, most of the time and now and then.
const SHORT_TEXT: usize = 180;
const LONGER_TEXT: usize = 700;

/// A valid text.
pub fn valid_text(random: &mut Random) -> Vec<u8> {
    let tokens = texts::valid_tokens(random);
    layout::lay_out(random, &tokens)
}

/// A text with faults in its tokens.
fn faulty_text(random: &mut Random) -> Vec<u8> {
    let mut tokens = texts::valid_tokens(random);
    faults::with_faults(random, &mut tokens);
    layout::lay_out(random, &tokens)
}

/// A text next to a limit, now and then with a byte changed.
fn limit_text(random: &mut Random) -> Vec<u8> {
    let mut text = limits::next_to_a_limit(random).into_bytes();
    if random.percent(10) {
        faults::damage_bytes(random, &mut text);
    }
    text
}

/// A valid text with bytes changed.
fn damaged_text(random: &mut Random) -> Vec<u8> {
    let mut text = valid_text(random);
    faults::damage_bytes(random, &mut text);
    text
}

/// A text of any kind.
pub fn text(random: &mut Random) -> Vec<u8> {
    match random.below(20) {
        0..=5 => valid_text(random),
        6..=10 => faulty_text(random),
        11..=13 => damaged_text(random),
        14 => faults::noise(random),
        _ => limit_text(random),
    }
}

/// A text whose syntax is what matters.
fn text_to_parse(random: &mut Random) -> Vec<u8> {
    match random.below(20) {
        0..=6 => valid_text(random),
        7..=13 => {
            let mut tokens = texts::valid_tokens(random);
            faults::with_damage(random, &mut tokens);
            layout::lay_out(random, &tokens)
        }
        14..=16 => damaged_text(random),
        17 => faults::noise(random),
        _ => limits::next_to_a_limit_of_syntax(random).into_bytes(),
    }
}

/// A text to parse that is short most of the time.
fn short_text(random: &mut Random) -> Vec<u8> {
    let longest = if random.percent(10) {
        LONGER_TEXT
    } else {
        SHORT_TEXT
    };
    loop {
        let text = text_to_parse(random);
        if text.len() <= longest {
            return text;
        }
    }
}

/// An accepted text with its image.
pub fn accepted_text(random: &mut Random) -> (Vec<u8>, Accepted) {
    loop {
        let text = match random.below(8) {
            0 => limits::next_to_a_limit(random).into_bytes(),
            _ => valid_text(random),
        };
        if let Ok(accepted) = compile_text(&text) {
            return (text, accepted);
        }
    }
}

/// A valid table.
pub fn valid_table(random: &mut Random, variables: &[Variable]) -> Vec<i32> {
    let entry = |variable: &Variable| match variable.kind {
        Type::Dint => random.value(),
        Type::Bool => random.below(2) as i32,
    };
    variables.iter().map(entry).collect()
}

/// A table that is valid most of the time.
fn table(random: &mut Random, variables: &[Variable]) -> Vec<i32> {
    let mut table = valid_table(random, variables);
    match random.below(30) {
        0 => {
            table.pop();
        }
        1 => table.push(0),
        2 if !table.is_empty() => {
            let at = random.below(table.len());
            table[at] = random.pick(&[2, -1, i32::MIN, i32::MAX]);
        }
        _ => {}
    }
    table
}

/// A budget with which a run of this worst case ends soon.
pub fn budget(random: &mut Random, worst_case: u32) -> u32 {
    match random.below(10) {
        0 => 0,
        1..=3 => random.below(8) as u32,
        4..=6 => random.below(60) as u32,
        7 => random.below(5_001) as u32,
        _ if worst_case <= SMALL_WORST_CASE => {
            random.pick(&[u32::MAX, worst_case, worst_case.saturating_sub(1)])
        }
        _ => random.below(1_001) as u32,
    }
}

fn image_for(random: &mut Random) -> Vec<u8> {
    if random.percent(40) {
        return images::with_random_code(random);
    }
    let (_, accepted) = accepted_text(random);
    if random.percent(30) {
        accepted.image
    } else {
        images::damaged(random, &accepted.image)
    }
}

fn compile_request(random: &mut Random) -> String {
    let text = text(random);
    format!("C {}", hex_field(&text))
}

/// A capacity next to the image's length, or anywhere.
fn capacity_request(random: &mut Random) -> String {
    let text = text(random);
    let length = compile_text(&text).map_or(35, |accepted| accepted.image.len());
    let capacity = match random.below(6) {
        0 => 0,
        1 => random.below(length + 20),
        2 => random.pick(&[8_530, 8_529, 4_294_967_295]),
        _ => length - 1 + random.below(3),
    };
    format!("C {} {capacity}", hex_field(&text))
}

fn evaluate_request(random: &mut Random) -> String {
    if random.percent(10) {
        let text = text(random);
        return match compile_text(&text) {
            Ok(accepted) => evaluate_request_of(random, &text, &accepted),
            Err(_) => format!("E {} {} -", hex_field(&text), random.below(9)),
        };
    }
    let (text, accepted) = accepted_text(random);
    evaluate_request_of(random, &text, &accepted)
}

fn evaluate_request_of(random: &mut Random, text: &[u8], accepted: &Accepted) -> String {
    let budget = budget(random, accepted.worst_case);
    let table = table(random, &accepted.program.variables);
    format!("E {} {budget} {}", hex_field(text), table_field(&table))
}

/// A run of a good image, with a budget that may be large.
fn run_request(random: &mut Random) -> String {
    let (_, accepted) = accepted_text(random);
    let budget = budget(random, accepted.worst_case);
    let table = table(random, &accepted.program.variables);
    format!(
        "R {} {budget} {}",
        hex_field(&accepted.image),
        table_field(&table)
    )
}

/// A run of an image of any kind, with a small budget.
fn odd_run_request(random: &mut Random) -> String {
    let bytes = image_for(random);
    let variables = image::read(&bytes).map_or(Vec::new(), |image| image.variables);
    let budget = budget(random, u32::MAX);
    let table = table(random, &variables);
    format!("R {} {budget} {}", hex_field(&bytes), table_field(&table))
}

fn fill_request(random: &mut Random) -> String {
    let bytes = image_for(random);
    let count = image::read(&bytes).map_or(1, |image| image.variables.len());
    let count = match random.below(6) {
        0 => count + 1,
        1 => count.saturating_sub(1),
        2 => random.pick(&[0, 64, 65, 4_294_967_295]),
        _ => count,
    };
    format!("F {} {count}", hex_field(&bytes))
}

fn desk_request(random: &mut Random) -> String {
    let text = text(random);
    format!("D {}", hex_field(&text))
}

/// One request of any kind.
pub fn request(random: &mut Random) -> String {
    match random.below(20) {
        0..=6 => compile_request(random),
        7 => capacity_request(random),
        8..=11 => evaluate_request(random),
        12 | 13 => run_request(random),
        14..=17 => odd_run_request(random),
        18 => fill_request(random),
        _ => desk_request(random),
    }
}

/// An accepted text that is short.
fn short_accepted_text(random: &mut Random) -> (Vec<u8>, Accepted) {
    loop {
        let (text, accepted) = accepted_text(random);
        if text.len() <= SHORT_TEXT {
            return (text, accepted);
        }
    }
}

/// The budgets of a sweep: all small ones, some larger, and those next to the worst case.
fn swept_budgets(worst_case: u32) -> Vec<u32> {
    let mut budgets: Vec<u32> = (0..=9).collect();
    budgets.extend([13, 21, 34, 300]);
    if worst_case <= SMALL_WORST_CASE {
        let below = worst_case.saturating_sub(1);
        budgets.extend([below, worst_case, worst_case + 1, u32::MAX]);
    }
    budgets
}

/// A text compiled, and evaluated on one table at many budgets; so many texts by chance.
pub fn sweep_requests(random: &mut Random, count: u64) -> Vec<String> {
    let mut requests = Vec::new();
    for _ in 0..count {
        let (text, accepted) = short_accepted_text(random);
        let text = hex_field(&text);
        let table = table_field(&valid_table(random, &accepted.program.variables));
        requests.push(format!("C {text}"));
        for budget in swept_budgets(accepted.worst_case) {
            requests.push(format!("E {text} {budget} {table}"));
        }
    }
    requests
}

/// Requests to parse: the edges, and so many by chance.
pub fn parse_requests(random: &mut Random, count: u64) -> Vec<String> {
    let mut found = text_edges::all();
    found.extend((0..count).map(|_| short_text(random)));
    let request = |text: &Vec<u8>| format!("P {}", hex_field(text));
    found.iter().map(request).collect()
}
