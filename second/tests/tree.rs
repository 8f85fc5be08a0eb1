//! The numbers of a tree, all worked out by hand. Statements stand behind `PROGRAM P `, so at place 10.

use second::compile::parse;
use second::protocol::{answer, hex_field};
use second::tree::numbers;

type Cell = [u32; 3];

/// Ends a list or the declarations, or stands for a constant that is missing.
const FINISH: Cell = [0, 0, 0];

fn cells_of(text: &str) -> Vec<Cell> {
    let tree = parse(text.as_bytes()).expect("a text of good syntax");
    let numbers = numbers(&tree);
    assert_eq!(numbers.len() % 3, 0);
    let cell = |cell: &[u32]| [cell[0], cell[1], cell[2]];
    numbers.chunks(3).map(cell).collect()
}

#[track_caller]
fn assert_cells(text: &str, wanted: &[Cell]) {
    assert_eq!(cells_of(text), wanted, "{text}");
}

/// The cells of statements, without the one that ends the declarations and the one that ends the list.
#[track_caller]
fn assert_statements(statements: &str, wanted: &[Cell]) {
    let all = [&[FINISH], wanted, &[FINISH]].concat();
    assert_cells(&format!("PROGRAM P {statements} END_PROGRAM"), &all);
}

#[track_caller]
fn assert_answer(text: &str, wanted: &str) {
    let request = format!("P {}", hex_field(text.as_bytes()));
    assert_eq!(answer(request.as_bytes()), wanted, "{text}");
}

#[test]
fn the_listing() {
    assert_cells(
        "PROGRAM P VAR A:DINT; END_VAR A:=A+1; END_PROGRAM",
        &[
            [7, 14, 1],
            FINISH,
            FINISH,
            [35, 30, 1],
            [1, 33, 1],
            [2, 35, 1],
            [54, 34, 10],
            [55, 33, 0],
            FINISH,
        ],
    );
}

#[test]
fn answers() {
    assert_answer(
        "PROGRAM P VAR A:DINT; END_VAR A:=A+1; END_PROGRAM",
        "TREE 27 7 14 1 0 0 0 0 0 0 35 30 1 1 33 1 2 35 1 54 34 10 55 33 0 0 0 0",
    );
    assert_answer("PROGRAM P END_PROGRAM", "TREE 6 0 0 0 0 0 0");
    assert_answer("", "REFUSED 5 0");
    assert_answer("$", "REFUSED 2 0");
    assert_answer(" A_", "REFUSED 3 1");
    assert_answer("PROGRAM 1A", "REFUSED 4 8");
    assert_answer("PROGRAM P ", "REFUSED 5 10");
    assert_answer(&format!("PROGRAM P A:={}", "(".repeat(17)), "REFUSED 10 29");
    assert_answer(&"$".repeat(16_385), "REFUSED 1 16384");
    assert_answer(&"$".repeat(16_384), "REFUSED 2 0");
}

#[test]
fn no_refusal_of_the_walk() {
    // 6, 8, 4's exact case, 7, 12, 15 and 16 by themselves.
    assert_cells(
        "PROGRAM P VAR A:BOOL:=1; a:DINT; END_VAR END_PROGRAM",
        &[
            [4, 14, 1],
            [45, 22, 0],
            [2, 22, 1],
            [7, 25, 1],
            FINISH,
            FINISH,
            FINISH,
        ],
    );
    assert_statements(
        "A:=2147483648;",
        &[[35, 10, 1], [2, 13, 2147483648], [55, 13, 0]],
    );
    assert_statements("EXIT;", &[[18, 10, 0]]);
    assert_statements(
        "FOR I:=1 TO 2 BY 0 DO END_FOR;",
        &[
            [20, 14, 1],
            [2, 17, 1],
            [55, 17, 0],
            [2, 22, 2],
            [55, 22, 0],
            [45, 27, 0],
            [2, 27, 0],
            FINISH,
        ],
    );
    assert_statements(
        "CASE 1 OF 2..1: END_CASE;",
        &[
            [6, 0, 0],
            [2, 15, 1],
            [55, 15, 0],
            [45, 20, 0],
            [2, 20, 2],
            [36, 0, 0],
            [45, 23, 0],
            [2, 23, 1],
            [40, 0, 0],
            FINISH,
            [11, 0, 0],
        ],
    );
}

#[test]
fn declarations_and_constants() {
    assert_cells(
        "PROGRAM P VAR A:DINT:=-5; B:BOOL:=TRUE; CD:DINT:=+ 7; E:DINT:=16#F; F:BOOL:=FALSE; \
         G:BOOL; END_VAR END_PROGRAM",
        &[
            [7, 14, 1],
            [46, 22, 0],
            [2, 23, 5],
            [4, 26, 1],
            [30, 34, 0],
            [7, 40, 2],
            [45, 49, 0],
            [2, 51, 7],
            [7, 54, 1],
            [45, 62, 0],
            [2, 62, 15],
            [4, 68, 1],
            [19, 76, 0],
            [4, 83, 1],
            FINISH,
            FINISH,
            FINISH,
        ],
    );
    assert_cells(
        "PROGRAM P VAR LOWEST:DINT:=-(* *)2147483648; END_VAR END_PROGRAM",
        &[[7, 14, 6], [46, 27, 0], [2, 33, 2147483648], FINISH, FINISH],
    );
}

#[test]
fn empty_lists() {
    assert_cells("PROGRAM P END_PROGRAM", &[FINISH, FINISH]);
    assert_cells("PROGRAM P VAR END_VAR ;; END_PROGRAM", &[FINISH, FINISH]);
    assert_statements("; ;A:=B;;", &[[35, 13, 1], [1, 16, 1], [55, 16, 0]]);
}

#[test]
fn if_statements() {
    assert_statements(
        "IF X THEN A:=1; ELSIF Y THEN ; ELSE EXIT; END_IF;",
        &[
            [21, 0, 0],
            [28, 0, 0],
            [1, 13, 1],
            [55, 13, 0],
            [35, 20, 1],
            [2, 23, 1],
            [55, 23, 0],
            FINISH,
            [28, 0, 0],
            [1, 32, 1],
            [55, 32, 0],
            FINISH,
            [9, 0, 0],
            [18, 46, 0],
            FINISH,
        ],
    );
    assert_statements(
        "IF NOT X THEN END_IF;",
        &[
            [21, 0, 0],
            [28, 0, 0],
            [1, 17, 1],
            [53, 13, 6],
            [55, 13, 0],
            FINISH,
            [13, 0, 0],
        ],
    );
}

#[test]
fn case_statements() {
    assert_statements(
        "CASE A+1 OF 1,-2..3: B:=A; TRUE: ; ELSE END_CASE;",
        &[
            [6, 0, 0],
            [1, 15, 1],
            [2, 17, 1],
            [54, 16, 10],
            [55, 15, 0],
            [45, 22, 0],
            [2, 22, 1],
            [46, 24, 0],
            [2, 25, 2],
            [36, 0, 0],
            [45, 28, 0],
            [2, 28, 3],
            [40, 0, 0],
            [35, 31, 1],
            [1, 34, 1],
            [55, 34, 0],
            FINISH,
            [30, 37, 0],
            [40, 0, 0],
            FINISH,
            [9, 0, 0],
            FINISH,
        ],
    );
    assert_statements(
        "CASE 5 OF +1..FALSE: END_CASE;",
        &[
            [6, 0, 0],
            [2, 15, 5],
            [55, 15, 0],
            [45, 20, 0],
            [2, 21, 1],
            [36, 0, 0],
            [19, 24, 0],
            [40, 0, 0],
            FINISH,
            [11, 0, 0],
        ],
    );
}

#[test]
fn for_statements() {
    assert_statements(
        "FOR IJ:=1 TO N BY -2 DO EXIT; END_FOR;",
        &[
            [20, 14, 2],
            [2, 18, 1],
            [55, 18, 0],
            [1, 23, 1],
            [55, 23, 0],
            [46, 28, 0],
            [2, 29, 2],
            [18, 34, 0],
            FINISH,
        ],
    );
    assert_statements(
        "FOR I:=A TO (B) DO END_FOR;",
        &[
            [20, 14, 1],
            [1, 17, 1],
            [55, 17, 0],
            [1, 23, 1],
            [43, 22, 0],
            [55, 22, 0],
            FINISH,
            FINISH,
        ],
    );
}

#[test]
fn while_and_repeat() {
    assert_statements(
        "WHILE TRUE DO ;; END_WHILE;",
        &[[33, 0, 0], [30, 16, 0], [55, 16, 0], FINISH],
    );
    assert_statements(
        "REPEAT A:=0; UNTIL A=1 END_REPEAT;",
        &[
            [27, 0, 0],
            [35, 17, 1],
            [2, 20, 0],
            [55, 20, 0],
            FINISH,
            [1, 29, 1],
            [2, 31, 1],
            [54, 30, 16],
            [55, 29, 0],
        ],
    );
}

#[test]
fn statements_in_statements() {
    assert_statements(
        "WHILE X DO IF Y THEN EXIT; END_IF; END_WHILE; A:=B;",
        &[
            [33, 0, 0],
            [1, 16, 1],
            [55, 16, 0],
            [21, 0, 0],
            [28, 0, 0],
            [1, 24, 1],
            [55, 24, 0],
            [18, 31, 0],
            FINISH,
            [13, 0, 0],
            FINISH,
            [35, 56, 1],
            [1, 59, 1],
            [55, 59, 0],
        ],
    );
}

/// The cells of an assignment's expression, at place 13.
#[track_caller]
fn assert_expression(expression: &str, wanted: &[Cell]) {
    let all = [&[[35, 10, 1]], wanted, &[[55, 13, 0]]].concat();
    assert_statements(&format!("A:={expression};"), &all);
}

#[test]
fn operands() {
    assert_expression("A_1", &[[1, 13, 3]]);
    assert_expression("8#17", &[[2, 13, 15]]);
    assert_expression("TRUE XOR false", &[[30, 13, 0], [19, 22, 0], [54, 18, 19]]);
}

#[test]
fn unary_operators() {
    assert_expression(
        "-B-+C",
        &[
            [1, 14, 1],
            [53, 13, 5],
            [1, 17, 1],
            [53, 16, 0],
            [54, 15, 11],
        ],
    );
    // NOT binds before the comparison.
    assert_expression(
        "NOT A=B",
        &[[1, 17, 1], [53, 13, 6], [1, 19, 1], [54, 18, 16]],
    );
    assert_expression("-(B)", &[[1, 15, 1], [43, 14, 0], [53, 13, 5]]);
}

#[test]
fn levels() {
    assert_expression(
        "A OR B XOR C AND D=E<F+G*H",
        &[
            [1, 13, 1],
            [1, 18, 1],
            [1, 24, 1],
            [1, 30, 1],
            [1, 32, 1],
            [1, 34, 1],
            [1, 36, 1],
            [1, 38, 1],
            [54, 37, 7],
            [54, 35, 10],
            [54, 33, 12],
            [54, 31, 16],
            [54, 26, 18],
            [54, 20, 19],
            [54, 15, 20],
        ],
    );
}

#[test]
fn equal_levels_group_from_the_left() {
    assert_expression(
        "B-C+D/E MOD F",
        &[
            [1, 13, 1],
            [1, 15, 1],
            [54, 14, 11],
            [1, 17, 1],
            [1, 19, 1],
            [54, 18, 8],
            [1, 25, 1],
            [54, 21, 9],
            [54, 16, 10],
        ],
    );
    assert_expression(
        "A>B<=C>=D<>E&F",
        &[
            [1, 13, 1],
            [1, 15, 1],
            [54, 14, 13],
            [1, 18, 1],
            [54, 16, 14],
            [1, 21, 1],
            [54, 19, 15],
            [1, 24, 1],
            [54, 22, 17],
            [1, 26, 1],
            [54, 25, 18],
        ],
    );
}

#[test]
fn parentheses() {
    assert_expression(
        "(((B)))*(1+(C))",
        &[
            [1, 16, 1],
            [43, 15, 0],
            [43, 14, 0],
            [43, 13, 0],
            [2, 22, 1],
            [1, 25, 1],
            [43, 24, 0],
            [54, 23, 10],
            [43, 21, 0],
            [54, 20, 7],
        ],
    );
}
