//! Texts on both sides of every limit.

use super::random::Random;
use crate::numbers::{
    CODE_LIMIT, FOR_LIMIT, NAME_LIMIT, NESTING_LIMIT, PARENTHESES_LIMIT, TEXT_LIMIT, VARIABLE_LIMIT,
};

/// A program with DINT A, B, C and I, BOOL X, and these statements.
pub fn program(statements: &str) -> String {
    format!(
        "PROGRAM P VAR A:DINT; B:DINT; C:DINT; I:DINT; X:BOOL; END_VAR\n{statements}\nEND_PROGRAM"
    )
}

/// A number next to a limit: one less, exactly, or one or two more.
fn next_to(random: &mut Random, limit: usize) -> usize {
    limit - 1 + random.below(4)
}

/// A good or bad text padded to the longest length.
fn text_length(random: &mut Random) -> String {
    let length = next_to(random, TEXT_LIMIT);
    let statement = random.pick(&["A:=A+1;", "A:=;", "A:=$;", "Z:=1;", ""]);
    let mut text = program(statement);
    let padding = length - text.len();
    match random.below(3) {
        0 => text.push_str(&" ".repeat(padding)),
        1 => text.insert_str(0, &format!("(*{}*)", "x".repeat(padding - 4))),
        _ => text.push_str(&format!("//{}", "(".repeat(padding - 2))),
    }
    text
}

fn name_length(random: &mut Random) -> String {
    let name = "N".repeat(next_to(random, NAME_LIMIT));
    match random.below(3) {
        0 => format!("PROGRAM {name} END_PROGRAM"),
        1 => format!("PROGRAM P VAR {name}:DINT; END_VAR {name}:={name}; END_PROGRAM"),
        _ => program(&format!("{name}:=1;")),
    }
}

fn variables(random: &mut Random) -> String {
    let count = next_to(random, VARIABLE_LIMIT);
    let mut declarations: Vec<String> = (0..count).map(|at| format!("V{at}:DINT:={at};")).collect();
    match random.below(4) {
        0 => declarations[count - 1] = "V3:DINT;".to_string(),
        1 => declarations[count - 1] = format!("V{}:BOOL:=1;", count - 1),
        2 => declarations[count - 1] = format!("V{}:DINT:=2147483648;", count - 1),
        _ => {}
    }
    format!(
        "PROGRAM P VAR {} END_VAR V0:=V{}; END_PROGRAM",
        declarations.join(" "),
        count - 1
    )
}

fn in_parentheses(inside: &str, count: usize) -> String {
    format!("{}{inside}{}", "(".repeat(count), ")".repeat(count))
}

fn parentheses(random: &mut Random) -> String {
    let count = next_to(random, PARENTHESES_LIMIT);
    let inside = random.pick(&["A", "-A", "Z", "X", "A+", "2147483648"]);
    let operand = in_parentheses(inside, count);
    let statement = match random.below(5) {
        0 => format!("A:={operand};"),
        1 => format!("A:=1+{operand}*{operand};"),
        2 => format!("IF {operand}=A THEN A:=1; END_IF;"),
        3 => format!("FOR I:={operand} TO {operand} DO END_FOR;"),
        _ => format!("CASE {operand} OF 1: END_CASE;"),
    };
    program(&statement)
}

/// Puts a list into an IF, CASE, WHILE or REPEAT.
fn surrounded(random: &mut Random, inside: &str) -> String {
    match random.below(6) {
        0 => format!("IF X THEN {inside} END_IF;"),
        1 => format!("IF X THEN ; ELSIF X THEN {inside} END_IF;"),
        2 => format!("IF X THEN ; ELSE {inside} END_IF;"),
        3 => format!("CASE A OF 1: ; ELSE {inside} END_CASE;"),
        4 => format!("WHILE X DO {inside} EXIT; END_WHILE;"),
        _ => format!("REPEAT {inside} UNTIL TRUE END_REPEAT;"),
    }
}

fn nesting(random: &mut Random) -> String {
    let mut statements = random.pick(&["A:=1;", "", "EXIT;", "Z:=1;"]).to_string();
    for _ in 0..next_to(random, NESTING_LIMIT) {
        statements = surrounded(random, &statements);
    }
    program(&statements)
}

/// FORs next to the most, with other loops between them now and then.
fn fors(random: &mut Random) -> String {
    let count = next_to(random, FOR_LIMIT);
    let mut statements = "V0:=V0+1;".to_string();
    for at in (1..=count).rev() {
        if random.percent(20) {
            statements = format!("REPEAT {statements} UNTIL TRUE END_REPEAT;");
        }
        let last = random.pick(&["1", "2", "V0", "0"]);
        statements = format!("FOR V{at}:=1 TO {last} DO {statements} END_FOR;");
    }
    let declarations: String = (0..=count).map(|at| format!("V{at}:DINT;")).collect();
    format!("PROGRAM P VAR {declarations} END_VAR {statements} END_PROGRAM")
}

/// An arithmetic expression of this height: each `1+1*(` adds two.
pub fn of_height(height: usize) -> String {
    let levels = (height - 1) / 2;
    let innermost = if height.is_multiple_of(2) { "1+1" } else { "1" };
    format!(
        "{}{innermost}{}",
        "1+1*(".repeat(levels),
        ")".repeat(levels)
    )
}

fn height(random: &mut Random) -> String {
    let expression = of_height(next_to(random, 32));
    let statement = match random.below(7) {
        0 => format!("A:={expression};"),
        1 => format!("X:={expression};"),
        2 => format!("A:=-1+{expression};"),
        3 => format!("X:={expression}=1;"),
        4 => format!("FOR I:={expression} TO 1 DO END_FOR;"),
        5 => format!("IF {expression}>0 THEN Z:=1; END_IF;"),
        _ => format!("CASE {expression} OF 1: ; END_CASE;"),
    };
    program(&statement)
}

/// A FOR final counts one more.
fn height_of_final(random: &mut Random) -> String {
    let expression = of_height(next_to(random, 31));
    program(&format!("FOR I:=1 TO {expression} BY 0 DO END_FOR;"))
}

/// Statements that give so many bytes of code, by fives and sixes, without HALT.
fn code_of(length: usize) -> String {
    let sixes = length % 5;
    let fives = (length - 6 * sixes) / 5;
    format!("{}{}", "A:=A;".repeat(fives), "A:=-A;".repeat(sixes))
}

fn code_length(random: &mut Random) -> String {
    if random.percent(20) {
        // Each label gives twelve bytes, so that targets need more than two bytes.
        let labels = vec!["1"; 5600 + random.below(1500)].join(",");
        return program(&format!("CASE A OF {labels}: A:=1; END_CASE;"));
    }
    let length = next_to(random, CODE_LIMIT);
    program(&code_of(length - 1))
}

/// `FOR` from the lowest bound with so many passes.
fn passes(count: i64) -> String {
    format!("FOR I:=-2147483647 TO {} DO", count - 2147483648)
}

fn worst_case(random: &mut Random) -> String {
    let off = random.between(-2, 2);
    let statements = match random.below(6) {
        // 1 + n
        0 => format!("{} END_FOR;", passes(3_999_999_999 + off)),
        // 1 + n * 2, and one more assignment
        1 => format!("{} A:=1; END_FOR; A:=1;", passes(1_999_999_999 + off)),
        // 1 + 1000 * (1 + 1 + n), n = 3,999,997 gives 3,999,999,001
        2 => format!(
            "FOR A:=1 TO 1000 DO FOR B:=1 TO {} DO END_FOR; END_FOR; {}",
            3_999_997,
            "C:=1;".repeat((999 + off) as usize)
        ),
        // No pass of an astronomical body.
        3 => format!(
            "FOR A:=1 TO 0 DO {} FOR B:=-2147483647 TO 2147483647 DO C:=1; \
             END_FOR; END_FOR; END_FOR;",
            passes(4_294_967_295)
        ),
        // No pass of a loop that isn't bounded.
        4 => "FOR A:=1 TO 0 DO WHILE X DO END_WHILE; END_FOR;".to_string(),
        _ => {
            let bound = random.pick(&["(1)", "1+0", "-(1)", "- 1", "+1", "A"]);
            format!("FOR I:={bound} TO 5 DO END_FOR;")
        }
    };
    program(&statements)
}

/// Eight FORs of the most passes.
fn astronomical(random: &mut Random) -> String {
    let step = random.pick(&["1", "-1", "2147483647"]);
    let head = |at: usize| format!("FOR V{at}:=-2147483647 TO 2147483647 BY {step} DO ");
    let heads: String = (0..FOR_LIMIT).map(head).collect();
    let declarations: String = (0..FOR_LIMIT).map(|at| format!("V{at}:DINT;")).collect();
    format!(
        "PROGRAM P VAR {declarations} END_VAR {heads}{} END_PROGRAM",
        "END_FOR;".repeat(FOR_LIMIT)
    )
}

/// The largest integers in every place where one may stand.
fn integers(random: &mut Random) -> String {
    let integer = random.pick(&[
        "2147483647",
        "2147483648",
        "2147483649",
        "16#7FFF_FFFF",
        "16#80000000",
    ]);
    let sign = random.pick(&["", "-", "+", "- "]);
    let n = format!("{sign}{integer}");
    match random.below(10) {
        0 => format!("PROGRAM P VAR A:DINT:={n}; END_VAR END_PROGRAM"),
        1 => format!("PROGRAM P VAR A:BOOL:={n}; END_VAR END_PROGRAM"),
        2 => program(&format!("A:={n};")),
        3 => program(&format!("A:=TRUE+{n};")),
        4 => program(&format!("CASE A OF {n}: A:=1; END_CASE;")),
        5 => program(&format!("CASE A OF {n}..0: A:=1; END_CASE;")),
        6 => program(&format!("CASE A OF 0..{n}, TRUE..{n}: A:=1; END_CASE;")),
        7 => program(&format!("FOR I:={n} TO 1 DO END_FOR;")),
        8 => program(&format!("FOR I:=1 TO {n} DO END_FOR;")),
        _ => program(&format!("FOR I:=1 TO 5 BY {n} DO END_FOR;")),
    }
}

/// Faults of the walk that random changes seldom make.
fn walk_faults(random: &mut Random) -> String {
    program(random.pick(&[
        "FOR I:=1 TO 5 BY 0 DO END_FOR;",
        "FOR I:=1 TO 5 BY -0 DO END_FOR;",
        "FOR I:=1 TO 5 BY TRUE DO END_FOR;",
        "FOR I:=1 TO 5 DO I:=1; END_FOR;",
        "FOR I:=1 TO 5 DO I:=X; END_FOR;",
        "FOR I:=1 TO 5 DO FOR I:=X TO 5 DO END_FOR; END_FOR;",
        "FOR X:=Z TO 5 DO END_FOR;",
        "FOR I:=1 TO 5 DO FOR A:=1 TO I DO WHILE I<3 DO I:=2; END_WHILE; END_FOR; END_FOR;",
        "CASE A OF 5..1: A:=1; END_CASE;",
        "CASE A OF 1,-1..-2: A:=1; END_CASE;",
        "CASE A OF TRUE..2147483648: A:=1; END_CASE;",
        "CASE A OF TRUE: A:=1; END_CASE;",
        "CASE A OF 1..FALSE: A:=1; END_CASE;",
        "CASE X OF 1: A:=1; END_CASE;",
        "EXIT;",
        "IF X THEN EXIT; END_IF;",
        "WHILE A DO A:=1; END_WHILE;",
        "REPEAT Z:=1; UNTIL A END_REPEAT;",
        "REPEAT A:=1; UNTIL A END_REPEAT;",
        "X:=+X;",
        "X:=NOT A=B;",
        "X:=NOT (A=B);",
        "X:=A<B<C;",
        "X:=A=B=TRUE;",
        "A:=X=A;",
    ]))
}

/// A text next to some limit.
pub fn next_to_a_limit(random: &mut Random) -> String {
    match random.below(32) {
        0 => text_length(random),
        1 => code_length(random),
        2 | 3 => name_length(random),
        4 | 5 => variables(random),
        6..=8 => parentheses(random),
        9..=11 => nesting(random),
        12 | 13 => fors(random),
        14..=16 => height(random),
        17 | 18 => height_of_final(random),
        19..=22 => worst_case(random),
        23 => astronomical(random),
        24..=27 => integers(random),
        _ => walk_faults(random),
    }
}

/// A text next to some limit of tokens, syntax and nesting.
pub fn next_to_a_limit_of_syntax(random: &mut Random) -> String {
    match random.below(8) {
        0 => name_length(random),
        1..=3 => parentheses(random),
        4 => nesting(random),
        5 => fors(random),
        _ => integers(random),
    }
}
