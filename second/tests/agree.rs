//! What a text means and what its image does agree, over thousands of generated cases.

use second::compile::{compile_text, parse, Accepted};
use second::evaluate::{evaluate, Meaning};
use second::generate::random::Random;
use second::generate::{accepted_text, budget, images, layout, request, text, texts, valid_table};
use second::image::{self, table_is_valid};
use second::machine::{run, Lent, Machine, Report};
use second::numbers::{Fault, Outcome, UNBOUNDED};
use second::protocol::answer;

/// A text with a table to run it over, and the text's name in failures.
struct Case {
    text: String,
    accepted: Accepted,
    table: Vec<i32>,
}

fn case(random: &mut Random) -> Case {
    let (text, accepted) = accepted_text(random);
    let table = valid_table(random, &accepted.program.variables);
    Case {
        text: String::from_utf8_lossy(&text).into_owned(),
        accepted,
        table,
    }
}

impl Case {
    fn meaning(&self, budget: u32) -> (Meaning, Vec<i32>) {
        let mut table = self.table.clone();
        let meaning = evaluate(&self.accepted.program, budget, &mut table);
        (meaning, table)
    }

    fn run(&self, budget: u32) -> (Report, Vec<i32>) {
        let mut table = self.table.clone();
        let report = run(&self.accepted.image, budget, &mut table);
        (report, table)
    }

    /// The largest stack height that a run reaches.
    fn highest_stack(&self, budget: u32) -> usize {
        let image = image::read(&self.accepted.image).expect("an image");
        let mut table = self.table.clone();
        let mut lent = Lent {
            variables: &image.variables,
            code: image.code,
            table: &mut table,
            budget,
        };
        let mut machine = Machine::start();
        let mut highest = 0;
        while let Ok(next) = machine.step(&mut lent) {
            highest = highest.max(next.stack_height);
            machine = next;
        }
        highest
    }
}

#[test]
fn valid_texts_are_accepted() {
    let mut random = Random::new(1);
    for _ in 0..5_000 {
        let tokens = texts::valid_tokens(&mut random);
        let text = layout::lay_out(&mut random, &tokens);
        if let Err(refusal) = compile_text(&text) {
            let too_long = [Fault::TextTooLong, Fault::CodeTooLong].contains(&refusal.fault);
            assert!(too_long, "{refusal:?}: {}", String::from_utf8_lossy(&text));
        }
    }
}

#[test]
fn layout_means_nothing() {
    let mut random = Random::new(2);
    for _ in 0..2_000 {
        let tokens = texts::valid_tokens(&mut random);
        let one = compile_text(&layout::lay_out(&mut random, &tokens));
        let other = compile_text(&layout::lay_out(&mut random, &tokens));
        if let (Ok(one), Ok(other)) = (one, other) {
            assert_eq!(one, other);
        }
    }
}

#[test]
fn a_run_is_the_meaning() {
    let mut random = Random::new(3);
    let mut met = [0; 26];
    for _ in 0..12_000 {
        let case = case(&mut random);
        for _ in 0..4 {
            let budget = budget(&mut random, case.accepted.worst_case);
            let (meaning, meant) = case.meaning(budget);
            let (report, table) = case.run(budget);
            assert_eq!(meaning.outcome, report.outcome, "{}", case.text);
            assert_eq!(meaning.ticks, report.ticks, "{}", case.text);
            assert_eq!(meant, table, "{}", case.text);
            assert!(report.outcome != Outcome::BadCode, "{}", case.text);
            met[usize::from(report.outcome.number())] += 1;
        }
    }
    for number in [0, 20, 21, 22] {
        assert!(
            met[number] > 100,
            "number {number} met {} times",
            met[number]
        );
    }
}

#[test]
fn a_run_keeps_the_figures() {
    let mut random = Random::new(4);
    for _ in 0..8_000 {
        let case = case(&mut random);
        let accepted = &case.accepted;
        let budget = budget(&mut random, accepted.worst_case);
        let (report, table) = case.run(budget);
        assert!(report.ticks <= budget);
        if accepted.worst_case != UNBOUNDED {
            assert!(report.ticks <= accepted.worst_case, "{}", case.text);
        }
        let most = (u64::from(report.ticks) + 1) * accepted.code_length as u64;
        assert!(report.instructions <= most, "{}", case.text);
        assert!(
            case.highest_stack(budget) <= accepted.depth,
            "{}",
            case.text
        );
        assert!(table_is_valid(&accepted.program.variables, &table));
    }
}

#[test]
fn a_smaller_budget_stops_earlier() {
    let mut random = Random::new(5);
    for _ in 0..8_000 {
        let case = case(&mut random);
        let largest = budget(&mut random, case.accepted.worst_case).min(5_000);
        let (full, table) = case.run(largest);
        for _ in 0..6 {
            let smaller = random.below(largest as usize + 1) as u32;
            let (report, after) = case.run(smaller);
            let needs_more = full.ticks > smaller || full.outcome == Outcome::Spent;
            assert_eq!(
                report.outcome == Outcome::Spent,
                needs_more,
                "{}",
                case.text
            );
            if needs_more {
                assert_eq!(report.ticks, smaller, "{}", case.text);
            } else {
                assert_eq!((report, after), (full, table.clone()), "{}", case.text);
            }
        }
    }
}

#[test]
fn the_stated_worst_case_is_budget_enough() {
    let mut random = Random::new(6);
    let mut stated = 0;
    for _ in 0..4_000 {
        let case = case(&mut random);
        let worst_case = case.accepted.worst_case;
        if worst_case <= 20_000 {
            stated += 1;
            let (report, _) = case.run(worst_case);
            assert!(report.outcome != Outcome::Spent, "{}", case.text);
        }
    }
    assert!(stated > 1_000, "{stated} texts with a small worst case");
}

#[test]
fn any_text_has_one_answer() {
    let mut random = Random::new(7);
    let mut met = [0; 18];
    for _ in 0..20_000 {
        let text = text(&mut random);
        match compile_text(&text) {
            Ok(accepted) => {
                met[0] += 1;
                assert!(accepted.image.len() <= 8_530);
                assert_eq!(
                    accepted.code_length + 18 + 5 * accepted.program.variables.len(),
                    accepted.image.len()
                );
            }
            Err(refusal) => {
                met[usize::from(refusal.fault.number())] += 1;
                assert!(refusal.place <= text.len());
            }
        }
    }
    // All but 14 and 17, which take a short image buffer and short working memory.
    for number in (0..=16).filter(|&number| number != 14) {
        assert!(
            met[number] > 10,
            "number {number} met {} times",
            met[number]
        );
    }
}

/// What parsing refuses, compiling refuses; what it takes is refused only by what comes later.
#[test]
fn parsing_comes_before_the_walk() {
    let mut random = Random::new(9);
    for _ in 0..3_000 {
        let text = text(&mut random);
        let compiled = compile_text(&text).map(|_| ());
        match (parse(&text), compiled) {
            (Err(refusal), compiled) => assert_eq!(compiled, Err(refusal)),
            (Ok(_), Ok(())) => {}
            (Ok(_), Err(refusal)) => {
                let number = refusal.fault.number();
                assert!(![1, 2, 3, 5].contains(&number), "{refusal:?}");
            }
        }
    }
}

#[test]
fn any_image_has_one_report() {
    let mut random = Random::new(8);
    let mut met = [0; 26];
    for round in 0..20_000 {
        let bytes = if round % 2 == 0 {
            images::with_random_code(&mut random)
        } else {
            let (_, accepted) = accepted_text(&mut random);
            images::damaged(&mut random, &accepted.image)
        };
        let Some(image) = image::read(&bytes) else {
            met[23] += 1;
            continue;
        };
        let budget = random.below(200) as u32;
        let mut table = valid_table(&mut random, &image.variables);
        let report = run(&bytes, budget, &mut table);
        met[usize::from(report.outcome.number())] += 1;
        assert!(report.ticks <= budget);
        assert!(table_is_valid(&image.variables, &table));
        // Between two ticks no instruction is carried out twice.
        let most = (u64::from(report.ticks) + 1) * image.code.len() as u64;
        assert!(report.instructions <= most);
        if report.outcome == Outcome::Spent {
            assert_eq!(report.ticks, budget);
            assert_eq!(image.code[report.offset], 0x01);
        }
    }
    for number in [0, 20, 21, 22, 23, 25] {
        assert!(
            met[number] > 10,
            "number {number} met {} times",
            met[number]
        );
    }
}

#[test]
fn every_request_is_one() {
    let (mut one, mut other) = (Random::new(9), Random::new(9));
    for _ in 0..3_000 {
        let line = request(&mut one);
        assert_eq!(line, request(&mut other));
        assert!(!answer(line.as_bytes()).starts_with("ERROR"), "{line}");
    }
}

#[test]
fn the_seeded_numbers_are_the_same_everywhere() {
    // The first numbers of splitmix64 from seed 1234567, as published with it.
    let mut random = Random::new(1_234_567);
    assert_eq!(random.number(), 6_457_827_717_110_365_317);
    assert_eq!(random.number(), 3_203_168_211_198_807_973);
}
