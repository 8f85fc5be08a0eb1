//! The listing and every worked figure of the rules.

mod common;

use common::*;
use second::compile::{compile_text, desk_line};
use second::machine::run;

const LISTING: &str = "PROGRAM P VAR A:DINT; END_VAR A:=A+1; END_PROGRAM";

/// Gives A and the outcome of `A:=expression` in a run from A = 0, B = 0.
fn assigned(expression: &str) -> (u8, i32) {
    let (outcome, _, table) = run_statements(&format!("A:={expression};"), [0; 6]);
    (outcome, table[0])
}

#[test]
fn the_listing_prints_its_line() {
    assert_eq!(desk_line(LISTING.as_bytes()), "ACCEPTED 35 12 2 1");
}

#[test]
fn the_listing_gives_its_image() {
    let image = compile_text(LISTING.as_bytes()).unwrap().image;
    let listed = hex(
        "05 00 01 00 02 00 00 00 00 0C 00 02 00 01 03 00 02 01 00 00 00 0A 04 00 1D \
                      06 00 03 00 02 00 01 00 00 00",
    );
    assert_eq!(hex_pairs(&image), hex_pairs(&listed));
}

#[test]
fn the_listing_runs_from_5() {
    let image = compile_text(LISTING.as_bytes()).unwrap().image;
    let mut table = [5];
    let report = run(&image, 1, &mut table);
    assert_eq!(report.outcome.number(), 0);
    assert_eq!(
        (report.ticks, report.instructions, report.offset),
        (1, 6, 11)
    );
    assert_eq!(table, [6]);
}

#[test]
fn the_listing_stops_with_range() {
    let image = compile_text(LISTING.as_bytes()).unwrap().image;
    let mut table = [2147483647];
    let report = run(&image, 1, &mut table);
    assert_eq!(report.outcome.number(), 21);
    assert_eq!(
        (report.ticks, report.instructions, report.offset),
        (1, 3, 8)
    );
    assert_eq!(table, [2147483647]);
}

#[test]
fn the_listing_means_what_it_runs() {
    let mut table = [5];
    assert_eq!(outcome(LISTING, 1, &mut table), (0, 1));
    assert_eq!(table, [6]);
    let mut table = [2147483647];
    assert_eq!(outcome(LISTING, 1, &mut table), (21, 1));
    assert_eq!(table, [2147483647]);
}

#[test]
fn empty_input() {
    assert_eq!(desk_line(b""), "REFUSED 5 0");
}

#[test]
fn division_truncates_toward_zero() {
    assert_eq!(assigned("-7 / 2"), (0, -3));
    assert_eq!(assigned("-7 MOD 2"), (0, -1));
    assert_eq!(assigned("7 MOD -2"), (0, 1));
}

#[test]
fn the_lowest_value_by_minus_one() {
    let table = [i32::MIN, -1, 7, 0, 0, 0];
    let (outcome, ticks, after) = run_statements("I:=A/B;", table);
    assert_eq!((outcome, ticks, after[2]), (21, 1, 7));
    let (outcome, ticks, after) = run_statements("I:=A MOD B;", table);
    assert_eq!((outcome, ticks, after[2]), (0, 1, 0));
}

#[test]
fn both_operands_are_always_evaluated() {
    let (outcome, ticks, _) = run_statements("X:=FALSE AND (1/A = 0);", [0; 6]);
    assert_eq!((outcome, ticks), (22, 1));
    let (outcome, _, _) = run_statements("X:=FALSE AND (1/A = 0);", [1, 0, 0, 0, 0, 0]);
    assert_eq!(outcome, 0);
}

#[test]
fn the_integer_2147483648() {
    assert_statements_refused(4, "A:=^2147483648;");
    assert_accepted("PROGRAM P VAR A:DINT:=-2147483648; END_VAR END_PROGRAM");
}

#[test]
fn two_signs() {
    assert_statements_refused(5, "A:=-^-1;");
}

#[test]
fn for_up_to_the_highest_value() {
    let statement = "FOR I:=2147483646 TO 2147483647 DO END_FOR;";
    let (outcome, ticks, table) = run_statements(statement, [0; 6]);
    assert_eq!((outcome, ticks, table[2]), (0, 3, 2147483647));
    assert_figures(statement, 2, "3");
}

#[test]
fn for_without_a_pass() {
    let (outcome, ticks, table) = run_statements("FOR I:=5 TO 1 DO END_FOR;", [0; 6]);
    assert_eq!((outcome, ticks, table[2]), (0, 1, 5));
}

#[test]
fn for_by_4() {
    // A collects the passes 1, 5, 9 as decimal digits.
    let without_body = "FOR I:=1 TO 10 BY 4 DO END_FOR;";
    let (outcome, ticks, table) = run_statements(without_body, [0; 6]);
    assert_eq!((outcome, ticks, table[2]), (0, 4, 9));
    let with_body = "FOR I:=1 TO 10 BY 4 DO A:=A*10+I; END_FOR;";
    let (_, _, table) = run_statements(with_body, [0; 6]);
    assert_eq!(table[0], 159);
}

#[test]
fn case_runs_the_first_group_that_holds_the_selector() {
    let statement = "CASE 3 OF 1..5: A:=1; 3: A:=2; END_CASE;";
    let (_, _, table) = run_statements(statement, [0; 6]);
    assert_eq!(table[0], 1);
}

// Errors that look right.

#[test]
fn the_step_is_not_added_before_the_test() {
    // One pass and no change after it, though 5 plus 3 passes 6.
    let (_, ticks, table) = run_statements("FOR I:=5 TO 6 BY 3 DO A:=A+1; END_FOR;", [0; 6]);
    assert_eq!((ticks, table[0], table[2]), (3, 1, 5));
}

#[test]
fn the_final_value_is_evaluated_before_the_variable_is_set() {
    // The final value is the I of before, 3.
    let table = [0, 0, 3, 0, 0, 0];
    let (_, ticks, after) = run_statements("FOR I:=1 TO I DO END_FOR;", table);
    assert_eq!((ticks, after[2]), (4, 3));
}

#[test]
fn an_exit_inside_case_leaves_no_selector() {
    // 40 times a selector left behind would be over the stack of 32.
    let statements = "FOR I:=1 TO 40 DO REPEAT CASE I OF 1..40: EXIT; END_CASE; \
                      UNTIL FALSE END_REPEAT; END_FOR;";
    let (outcome, ticks, table) = run_statements(statements, [0; 6]);
    // 1 as FOR begins, per pass 1 and REPEAT 1, CASE 1, EXIT 1.
    assert_eq!((outcome, ticks, table[2]), (0, 1 + 40 * 4, 40));
}

#[test]
fn not_binds_before_the_comparison() {
    assert_statements_refused(8, "X:=^NOT A = B;");
    // T, LOAD X, NOT, LOAD Y, EQ, STORE X, HALT.
    assert_code("X:=NOT X = Y;", "01 03 04 06 03 05 10 04 04 1D");
}
