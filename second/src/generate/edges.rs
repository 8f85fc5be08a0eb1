//! Requests on both sides of each rule of the machine, of an image and of a table, one by one; no chance is in them.

use crate::codes::*;
use crate::image::write;
use crate::numbers::{CODE_LIMIT, FOR_LIMIT, STACK_LIMIT, VARIABLE_LIMIT};
use crate::program::{Type, Variable};
use crate::protocol::{hex_field, table_field};

/// Values next to where arithmetic turns.
const VALUES: [i32; 7] = [i32::MIN, -7, -1, 0, 1, 2, i32::MAX];
/// Logic and a BOOL take the first two.
const TRUTHS: [i32; 6] = [0, 1, 2, -1, i32::MIN, i32::MAX];
/// Codes that take a target.
const JUMPS: [u8; 5] = [JUMP, JUMP_IF_ZERO, JUMP_IF_NOT_ZERO, FIRST, NEXT];
/// The ticks of a run that need not end by itself.
const BUDGET: u32 = 3;

const fn variable(kind: Type) -> Variable {
    Variable { kind, initial: 0 }
}

/// What most of the code here is written for: slots 0 and 1 are DINT, 2 is BOOL.
const VARIABLES: [Variable; 3] = [
    variable(Type::Dint),
    variable(Type::Dint),
    variable(Type::Bool),
];

fn run_image(image: &[u8], budget: u32, table: &[i32]) -> String {
    format!("R {} {budget} {}", hex_field(image), table_field(table))
}

fn run_over(variables: &[Variable], code: &[u8], table: &[i32]) -> String {
    run_image(&write(variables, code, 0, 0), BUDGET, table)
}

fn run(code: &[u8], table: [i32; 3]) -> String {
    run_over(&VARIABLES, code, &table)
}

fn fill(image: &[u8], count: usize) -> String {
    format!("F {} {count}", hex_field(image))
}

// Instructions.

fn constant(value: i32) -> Vec<u8> {
    [vec![CONST], value.to_le_bytes().to_vec()].concat()
}

fn span(low: i32, high: i32) -> Vec<u8> {
    [&[SPAN], &low.to_le_bytes()[..], &high.to_le_bytes()].concat()
}

fn jump(code: u8, target: usize) -> Vec<u8> {
    [&[code], &(target as u16).to_le_bytes()[..]].concat()
}

/// FIRST or NEXT.
fn of_for(code: u8, level: u8, slot: u8, step: i32, target: usize) -> Vec<u8> {
    let target = (target as u16).to_le_bytes();
    [&[code, level, slot], &step.to_le_bytes()[..], &target].concat()
}

/// An instruction with operands that no rule minds.
fn good(code: u8, target: usize) -> Vec<u8> {
    match code {
        CONST => constant(7),
        LOAD | STORE | HOLD => vec![code, 0],
        JUMP | JUMP_IF_ZERO | JUMP_IF_NOT_ZERO => jump(code, target),
        SPAN => span(0, 1),
        FIRST | NEXT => of_for(code, 0, 0, 1, target),
        _ => vec![code],
    }
}

// The machine.

/// Every code, and some that are none, on a stack that is empty, nearly empty, nearly full and full.
fn heights() -> Vec<String> {
    let mut requests = Vec::new();
    for code in (0..=HALT + 2).chain([0x7F, 0x80, 0xFF]) {
        for height in [0, 1, 2, STACK_LIMIT - 1, STACK_LIMIT] {
            let pushes = [LOAD, 0].repeat(height);
            let after = pushes.len() + good(code, 0).len();
            let code = [pushes, good(code, after), vec![TICK, HALT]].concat();
            requests.push(run(&code, [1, 0, 0]));
        }
    }
    requests
}

/// Every code that has operands, with fewer of them, at the end of the code.
fn cut_off() -> Vec<String> {
    let mut requests = Vec::new();
    for code in TICK..=HALT {
        let operands = operand_length(code).unwrap_or(0);
        for kept in 0..operands {
            let mut cut = vec![TICK, LOAD, 0, LOAD, 0];
            cut.extend(&good(code, 0)[..1 + kept]);
            requests.push(run(&cut, [1, 0, 0]));
        }
    }
    requests
}

/// The last slot and those behind it, with no variable, one, and the most.
fn slots() -> Vec<String> {
    let mut requests = Vec::new();
    for count in [0, 1, VARIABLE_LIMIT] {
        let variables = vec![variable(Type::Dint); count];
        for slot in [count.saturating_sub(1), count, 255] {
            for code in [LOAD, STORE, FIRST, NEXT] {
                let mut instruction = match code {
                    LOAD | STORE => vec![code, slot as u8],
                    _ => of_for(code, 0, slot as u8, 1, 0),
                };
                instruction.push(HALT);
                let code = [constant(7), instruction].concat();
                requests.push(run_over(&variables, &code, &vec![-1; count]));
            }
        }
    }
    requests
}

/// The last held final value and those behind it.
fn levels() -> Vec<String> {
    let mut requests = Vec::new();
    for level in [0, FOR_LIMIT as u8 - 1, FOR_LIMIT as u8, 255] {
        let hold = [constant(7), vec![HOLD, level, HALT]].concat();
        requests.push(run(&hold, [0, 0, 0]));
        for code in [FIRST, NEXT] {
            let code = [of_for(code, level, 0, 1, 9), vec![HALT]].concat();
            requests.push(run(&code, [5, 0, 0]));
        }
    }
    requests
}

/// Slot 1 becomes what an operator makes of slots 0 and 1.
fn operators() -> Vec<String> {
    let mut requests = Vec::new();
    for code in MUL..=NE {
        for left in VALUES {
            for right in VALUES {
                let code = [TICK, LOAD, 0, LOAD, 1, code, STORE, 1, HALT];
                requests.push(run(&code, [left, right, 0]));
            }
        }
    }
    requests.extend(VALUES.map(|value| run(&[LOAD, 0, NEG, STORE, 1, HALT], [value, 0, 0])));
    requests
}

/// The BOOL becomes what logic makes of slots 0 and 1, and what a store takes from slot 0.
fn logic() -> Vec<String> {
    let mut requests = Vec::new();
    for left in TRUTHS {
        requests.push(run(&[LOAD, 0, NOT, STORE, 2, HALT], [left, 0, 0]));
        requests.push(run(&[LOAD, 0, STORE, 2, HALT], [left, 0, 1]));
        for right in TRUTHS {
            for code in [AND, XOR, OR] {
                let code = [LOAD, 0, LOAD, 1, code, STORE, 2, HALT];
                requests.push(run(&code, [left, right, 0]));
            }
        }
    }
    requests
}

/// SPAN leaves the value and pushes the truth.
fn spans() -> Vec<String> {
    let mut requests = Vec::new();
    for (low, high) in [(0, 0), (-1, 1), (1, -1), (i32::MIN, i32::MAX)] {
        let code = [vec![LOAD, 0], span(low, high), vec![STORE, 2, STORE, 1]];
        let code = [code.concat(), vec![HALT]].concat();
        requests.extend(VALUES.map(|value| run(&code, [value, 0, 0])));
    }
    requests
}

/// The target of FIRST or NEXT is a second HALT, so that the offset tells whether it jumped.
fn fors() -> Vec<String> {
    let mut requests = Vec::new();
    for code in [FIRST, NEXT] {
        for step in [i32::MIN, -1, 0, 1, i32::MAX] {
            for last in [i32::MIN, 0, i32::MAX] {
                let held = [constant(last), vec![HOLD, 7]].concat();
                let target = held.len() + 10;
                let code = [held, of_for(code, 7, 0, step, target), vec![HALT; 2]].concat();
                requests.extend(VALUES.map(|value| run(&code, [value, 0, 0])));
            }
        }
        let on_bool = [of_for(code, 0, 2, 1, 9), vec![HALT]].concat();
        requests.extend([0, 1].map(|truth| run(&on_bool, [0, 0, truth])));
    }
    requests
}

/// A jump that is taken or not, at offset 9, with a TICK at 0, a byte like one in the CONST at 1, and no TICK elsewhere.
fn jump_to(code: u8, taken: bool, target: usize) -> String {
    let goes = i32::from(taken == (code == JUMP_IF_NOT_ZERO));
    let value = if taken == (code == NEXT) { -5 } else { 5 };
    let before = [vec![TICK], constant(1), vec![DROP, LOAD, 1]];
    let code = [before.concat(), good(code, target), vec![LOAD, TICK, HALT]];
    run(&code.concat(), [value, goes, 0])
}

fn jumps() -> Vec<String> {
    let mut requests = Vec::new();
    for code in JUMPS {
        let length = 9 + good(code, 0).len() + 3;
        let ahead = [length - 3, length - 2, length - 1];
        let behind = [0, 1, 2, 3, 8, 9, 10];
        let outside = [length, length + 1, 65_535];
        for target in [&behind[..], &ahead, &outside].concat() {
            requests.push(jump_to(code, true, target));
        }
        requests.extend([1, 9, length, 65_535].map(|target| jump_to(code, false, target)));
    }
    requests
}

/// The same code within several budgets.
fn budgets() -> Vec<String> {
    let straight = write(&[], &[TICK, TICK, TICK, HALT], 0, 0);
    let endless = write(&[], &[TICK, JUMP, 0, 0], 0, 0);
    let mut requests = Vec::new();
    for budget in [0, 1, 2, 3, 4, u32::MAX] {
        requests.push(run_image(&straight, budget, &[]));
    }
    for budget in [0, 1, 255, 256, 65_535, 65_536, 100_000] {
        requests.push(run_image(&endless, budget, &[]));
    }
    requests
}

// Images and tables.

fn run_and_fill(image: &[u8], table: &[i32]) -> [String; 2] {
    [run_image(image, BUDGET, table), fill(image, table.len())]
}

/// Each part of a good image from its start, and one byte more.
fn lengths() -> Vec<String> {
    let good = write(&VARIABLES[1..], &[TICK, HALT], 2, 1);
    let more = [good.as_slice(), &[0]].concat();
    let parts = (0..=good.len()).map(|length| &more[..length]);
    parts
        .chain([more.as_slice()])
        .flat_map(|image| run_and_fill(image, &[7, 1]))
        .collect()
}

/// Every byte of a good image one higher and one lower.
fn bytes() -> Vec<String> {
    let good = write(&VARIABLES[1..], &[TICK, HALT], 2, 1);
    let mut requests = Vec::new();
    for at in 0..good.len() {
        for by in [1, 255] {
            let mut image = good.clone();
            image[at] = image[at].wrapping_add(by);
            requests.extend(run_and_fill(&image, &[7, 1]));
        }
    }
    requests
}

/// Types that are none, and initial values that a BOOL doesn't hold.
fn initial_values() -> Vec<String> {
    let mut requests = Vec::new();
    for initial in TRUTHS {
        for kind in [Type::Bool, Type::Dint] {
            let image = write(&[Variable { kind, initial }], &[HALT], 0, 0);
            requests.extend(run_and_fill(&image, &[1]));
        }
    }
    for kind in [0, 3, 255] {
        let mut image = write(&VARIABLES[..1], &[HALT], 0, 0);
        image[4] = kind;
        requests.extend(run_and_fill(&image, &[1]));
    }
    requests
}

/// Tables that are shorter and longer, and entries that a BOOL doesn't hold.
fn tables() -> Vec<String> {
    let image = write(&VARIABLES, &[TICK, HALT], 0, 0);
    let mut requests = Vec::new();
    for length in [0, 1, 2, 3, 4, 64, 65, 128] {
        requests.extend(run_and_fill(&image, &vec![1; length]));
    }
    requests.extend(TRUTHS.map(|entry| run_image(&image, BUDGET, &[entry, 0, 0])));
    requests.extend(TRUTHS.map(|entry| run_image(&image, BUDGET, &[0, 0, entry])));
    requests
}

/// The most variables and the longest code, and one more of either.
fn limits() -> Vec<String> {
    let mut requests = Vec::new();
    for count in [VARIABLE_LIMIT, VARIABLE_LIMIT + 1] {
        let variables = vec![variable(Type::Dint); count];
        requests.extend(run_and_fill(
            &write(&variables, &[HALT], 0, 0),
            &vec![7; count],
        ));
        for length in [CODE_LIMIT, CODE_LIMIT + 1] {
            let code = [
                vec![LOAD, 63],
                vec![NEG; length - 5],
                vec![TICK, TICK, HALT],
            ]
            .concat();
            let image = write(&variables, &code, 0, 0);
            requests.extend(run_and_fill(&image, &vec![-7; count]));
        }
    }
    requests
}

/// All of them.
pub fn requests() -> Vec<String> {
    let machine = [
        heights(),
        cut_off(),
        slots(),
        levels(),
        operators(),
        logic(),
        spans(),
        fors(),
        jumps(),
        budgets(),
    ];
    let images = [lengths(), bytes(), initial_values(), tables(), limits()];
    [machine.concat(), images.concat()].concat()
}
