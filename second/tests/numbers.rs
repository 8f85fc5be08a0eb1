//! Every sentence of the table "Numbers given back", with its place and both sides of each limit.

mod common;

use common::*;
use second::compile::{compile, compile_text, desk_line};
use second::machine::run;
use second::numbers::Fault;

/// A good text padded with blanks to a length.
fn padded(length: usize) -> String {
    let text = program("A:=1;");
    let blanks = " ".repeat(length - text.len());
    text + &blanks
}

#[test]
fn number_1_text_longer_than_16384() {
    assert_accepted(&padded(16_384));
    assert_eq!(desk_line(padded(16_385).as_bytes()), "REFUSED 1 16384");
    assert_eq!(desk_line(&[b'$'; 20_000]), "REFUSED 1 16384");
}

#[test]
fn number_2_no_token() {
    assert_refused(2, "PROGRAM P ^$ END_PROGRAM");
    assert_refused(2, "^!");
    assert_statements_refused(2, "A:=^'a';");
    assert_statements_refused(2, "A:=1 ^/* no comment */;");
    let (mut text, place) = marked(&program("A:=^B;"));
    text.replace_range(place..=place, "\u{0B}");
    assert_eq!(desk_line(text.as_bytes()), format!("REFUSED 2 {place}"));
}

#[test]
fn number_2_comment_never_closed() {
    assert_refused(2, "PROGRAM P END_PROGRAM ^(* one (* two *) ");
    assert_refused(2, "^(*");
    assert_refused(2, "^(*)");
    assert_accepted("PROGRAM P (* one (* two *) *) END_PROGRAM");
}

#[test]
fn number_3_name_malformed() {
    for word in ["_", "A_", "A__B", "__A", "A_B_", "END__IF", "PROGRAM_"] {
        assert_refused(3, &format!("PROGRAM ^{word} END_PROGRAM"));
    }
    for word in ["_1", "A", "A_B", "_A_B", "a1", "END"] {
        assert_accepted(&format!("PROGRAM {word} END_PROGRAM"));
    }
}

#[test]
fn number_3_name_too_long() {
    let longest = "N".repeat(32);
    assert_accepted(&format!("PROGRAM {longest} END_PROGRAM"));
    assert_refused(3, &format!("PROGRAM ^{longest}N END_PROGRAM"));
}

#[test]
fn number_4_integer_malformed() {
    for integer in [
        "1_", "1__0", "2#2", "8#8", "16#G", "16#", "10#1", "1A", "1#", "2#_1",
    ] {
        assert_statements_refused(4, &format!("A:=^{integer};"));
    }
    for integer in ["1_0", "2#1_0", "8#7", "16#fF", "007", "16#0001"] {
        assert_statements_accepted(&format!("A:={integer};"));
    }
}

#[test]
fn number_4_integer_over_2147483648() {
    assert_statements_accepted("A:=2147483647;");
    assert_statements_refused(4, "A:=^2147483649;");
    assert_refused(4, "PROGRAM P VAR A:DINT:=-^2147483649; END_VAR END_PROGRAM");
    assert_refused(
        4,
        "PROGRAM P VAR A:DINT:=-^16#80000001; END_VAR END_PROGRAM",
    );
    assert_statements_refused(4, "A:=^99999999999999999999999999999999999999999;");
}

#[test]
fn number_4_integer_exactly_2147483648() {
    assert_accepted("PROGRAM P VAR A:DINT:=-2147483648; END_VAR END_PROGRAM");
    assert_accepted("PROGRAM P VAR A:DINT:=-16#8000_0000; END_VAR END_PROGRAM");
    assert_refused(4, "PROGRAM P VAR A:DINT:=^2147483648; END_VAR END_PROGRAM");
    assert_refused(4, "PROGRAM P VAR A:DINT:=+^2147483648; END_VAR END_PROGRAM");
    assert_statements_refused(4, "A:=-^2147483648;");
    assert_statements_refused(4, "A:=B-^2147483648;");
    assert_statements_refused(4, "FOR I:=-^2147483648 TO 0 DO END_FOR;");
    assert_statements_refused(4, "FOR I:=0 TO -^2147483648 DO END_FOR;");
    assert_statements_accepted("FOR I:=0 TO 1 BY -2147483648 DO END_FOR;");
    assert_statements_refused(4, "FOR I:=0 TO 1 BY ^2147483648 DO END_FOR;");
    assert_statements_accepted("CASE A OF -2147483648..2147483647: END_CASE;");
    assert_statements_refused(4, "CASE A OF ^2147483648: END_CASE;");
    assert_statements_refused(4, "CASE A OF 0..^2147483648: END_CASE;");
}

#[test]
fn number_5_token_that_continues_no_program() {
    assert_refused(5, "^P");
    assert_refused(5, "PROGRAM ^IF");
    assert_refused(5, "PROGRAM P VAR ^; END_VAR END_PROGRAM");
    assert_refused(5, "PROGRAM P VAR A ^, B:DINT; END_VAR END_PROGRAM");
    assert_refused(5, "PROGRAM P VAR A:^INT; END_VAR END_PROGRAM");
    assert_refused(5, "PROGRAM P VAR A:DINT ^END_VAR END_PROGRAM");
    assert_refused(5, "PROGRAM P VAR A:DINT:=^B; END_VAR END_PROGRAM");
    assert_refused(5, "PROGRAM P VAR END_VAR ^VAR END_VAR END_PROGRAM");
    assert_refused(5, "PROGRAM P END_PROGRAM ^;");
    assert_refused(5, "PROGRAM P END_PROGRAM ^PROGRAM Q END_PROGRAM");
    assert_statements_refused(5, "A ^= 1;");
    assert_refused(5, "PROGRAM P A:=1 ^END_PROGRAM");
    assert_statements_refused(5, "A:=^;");
    assert_statements_refused(5, "A:=(1 ^;");
    assert_statements_refused(5, "A:=1^);");
    assert_statements_refused(5, "A:=1 ^B;");
    assert_statements_refused(5, "A:=B^(1);");
    assert_statements_refused(5, "IF X ^A:=1;");
    assert_refused(5, "PROGRAM P IF X THEN END_IF ^END_PROGRAM");
    assert_statements_refused(5, "CASE A OF ^END_CASE;");
    assert_statements_refused(5, "FOR ^1:=1 TO 2 DO END_FOR;");
    assert_statements_refused(5, "FOR I:=1 ^DO END_FOR;");
    assert_statements_refused(5, "FOR I:=1 TO 2 BY ^A DO END_FOR;");
    assert_statements_refused(5, "REPEAT UNTIL X^; END_REPEAT;");
    assert_statements_refused(5, "EXIT ^A:=1;");
    assert_statements_refused(5, "^END_IF;");
    assert_statements_refused(5, "^1;");
}

#[test]
fn number_5_at_the_end_of_text() {
    assert_refused(5, "^");
    assert_refused(5, "PROGRAM^");
    assert_refused(5, "PROGRAM P  \t\n^");
    assert_refused(5, "PROGRAM P A:=1; // end^");
    assert_refused(5, "PROGRAM P (* end *)^");
}

#[test]
fn number_6_declared_twice() {
    assert_refused(
        6,
        "PROGRAM P VAR A:DINT; B:BOOL; ^a:BOOL; END_VAR END_PROGRAM",
    );
    assert_accepted("PROGRAM P VAR P:DINT; END_VAR P:=1; END_PROGRAM");
}

#[test]
fn number_7_unknown() {
    assert_statements_refused(7, "^Z:=1;");
    assert_statements_refused(7, "A:=1+^Z;");
    assert_statements_refused(7, "FOR ^Z:=1 TO 2 DO END_FOR;");
    assert_statements_refused(7, "^P:=1;");
    assert_statements_accepted("a:=A+a;");
}

#[test]
fn number_8_at_the_operator() {
    for operator in ["*", "/", "MOD", "+", "-", "<", ">", "<=", ">="] {
        assert_statements_refused(8, &format!("X:=X ^{operator} A;"));
        assert_statements_refused(8, &format!("X:=A ^{operator} X;"));
        assert_statements_refused(8, &format!("X:=X ^{operator} Y;"));
    }
    for operator in ["=", "<>"] {
        assert_statements_refused(8, &format!("X:=X ^{operator} A;"));
        assert_statements_accepted(&format!("X:=X {operator} Y;"));
        assert_statements_accepted(&format!("X:=A {operator} B;"));
    }
    for operator in ["AND", "&", "XOR", "OR"] {
        assert_statements_refused(8, &format!("X:=X ^{operator} A;"));
        assert_statements_refused(8, &format!("X:=A ^{operator} X;"));
        assert_statements_refused(8, &format!("X:=A ^{operator} B;"));
    }
    assert_statements_refused(8, "A:=^-X;");
    assert_statements_refused(8, "X:=^+X;");
    assert_statements_refused(8, "A:=^NOT A;");
}

#[test]
fn number_8_at_the_name() {
    assert_statements_refused(8, "^A:=X;");
    assert_statements_refused(8, "^X:=A+1;");
    assert_refused(8, "PROGRAM P VAR ^A:DINT:=TRUE; END_VAR END_PROGRAM");
    assert_refused(8, "PROGRAM P VAR ^A:BOOL:=1; END_VAR END_PROGRAM");
    assert_statements_refused(8, "FOR ^X:=1 TO 2 DO END_FOR;");
}

#[test]
fn number_8_at_the_first_byte() {
    assert_statements_refused(8, "IF ^(A) THEN END_IF;");
    assert_statements_refused(8, "IF X THEN ELSIF ^A+1 THEN END_IF;");
    assert_statements_refused(8, "WHILE ^-A DO END_WHILE;");
    assert_statements_refused(8, "REPEAT UNTIL ^A END_REPEAT;");
    assert_statements_refused(8, "CASE ^A=1 OF 1: END_CASE;");
    assert_statements_refused(8, "FOR I:=^NOT X TO 2 DO END_FOR;");
    assert_statements_refused(8, "FOR I:=1 TO ^(X) DO END_FOR;");
    assert_statements_refused(8, "FOR I:=1 TO 2 BY ^TRUE DO END_FOR;");
    assert_statements_refused(8, "CASE A OF 1,^TRUE: END_CASE;");
    assert_statements_refused(8, "CASE A OF ^-1..TRUE: END_CASE;");
}

/// A program with so many variables.
fn with_variables(count: usize) -> String {
    let declarations: String = (1..=count).map(|at| format!("V{at}:DINT; ")).collect();
    format!("PROGRAM P VAR {declarations}END_VAR END_PROGRAM")
}

#[test]
fn number_9_the_65th_variable() {
    assert_accepted(&with_variables(64));
    assert_refused(9, &with_variables(65).replace("V65", "^V65"));
    assert_refused(9, &with_variables(66).replace("V65", "^V65"));
}

#[test]
fn number_10_parentheses() {
    let (open, close) = ("(".repeat(16), ")".repeat(16));
    assert_statements_accepted(&format!("A:={open}1{close};"));
    assert_statements_refused(10, &format!("A:={open}^(1){close};"));
    // The count begins anew in each expression and after each closing.
    assert_statements_accepted(&format!("A:={open}1{close}+{open}1{close};"));
    assert_statements_accepted(&format!(
        "IF {open}X{close} THEN A:={open}1{close}; END_IF;"
    ));
}

/// So many IFs, one in the other.
fn ifs(count: usize) -> String {
    format!("{}{}", "IF X THEN ".repeat(count), "END_IF; ".repeat(count))
}

#[test]
fn number_10_statements() {
    assert_statements_accepted(&ifs(16));
    assert_statements_accepted(&ifs(1).repeat(20));
    let sixteen = "IF X THEN ".repeat(16);
    let ends = "END_IF; ".repeat(16);
    assert_statements_refused(10, &format!("{sixteen} ^IF X THEN END_IF; {ends}"));
    assert_statements_refused(10, &format!("{sixteen} ^CASE A OF 1: END_CASE; {ends}"));
    assert_statements_refused(10, &format!("{sixteen} ^FOR I:=1 TO 2 DO END_FOR; {ends}"));
    assert_statements_refused(10, &format!("{sixteen} ^WHILE X DO END_WHILE; {ends}"));
    assert_statements_refused(10, &format!("{sixteen} ^REPEAT UNTIL X END_REPEAT; {ends}"));
    assert_statements_accepted(&format!("{sixteen} A:=1; {ends}"));
}

/// So many FORs, one in the other, `^` before the one of a number.
fn fors(count: usize, marked: usize) -> String {
    let declarations: String = (1..=count).map(|at| format!("V{at}:DINT;")).collect();
    let head = |at: usize| {
        let mark = if at == marked { "^" } else { "" };
        format!("{mark}FOR V{at}:=1 TO 1 DO ")
    };
    let heads: String = (1..=count).map(head).collect();
    let ends = "END_FOR;".repeat(count);
    format!("PROGRAM P VAR {declarations} END_VAR {heads}{ends} END_PROGRAM")
}

#[test]
fn number_10_fors() {
    assert_accepted(&fors(8, 0));
    assert_statements_accepted(&"FOR I:=1 TO 1 DO END_FOR; ".repeat(20));
    assert_refused(10, &fors(9, 9));
    assert_refused(10, &fors(10, 9));
}

#[test]
fn number_10_height() {
    assert_figures(&format!("A:={};", of_height(32)), 32, "1");
    assert_statements_refused(10, &format!("A:=^{};", of_height(33)));
    assert_statements_refused(10, &format!("IF ^{}=1 THEN END_IF;", of_height(33)));
    assert_statements_refused(10, &format!("WHILE ^1={} DO END_WHILE;", of_height(32)));
    assert_statements_accepted(&format!("WHILE 1={} DO END_WHILE;", of_height(31)));
    assert_statements_refused(
        10,
        &format!("REPEAT UNTIL ^1<{} END_REPEAT;", of_height(32)),
    );
    assert_statements_refused(10, &format!("CASE ^{} OF 1: END_CASE;", of_height(33)));
    assert_statements_refused(10, &format!("FOR I:=^{} TO 1 DO END_FOR;", of_height(33)));
    assert_statements_accepted(&format!("FOR I:={} TO 1 DO END_FOR;", of_height(32)));
}

#[test]
fn number_10_height_of_a_for_final() {
    assert_figures(
        &format!("FOR I:=1 TO {} DO END_FOR;", of_height(31)),
        32,
        "-",
    );
    assert_statements_refused(10, &format!("FOR I:=1 TO ^{} DO END_FOR;", of_height(32)));
}

#[test]
fn number_11_for_variable_changed() {
    assert_statements_refused(11, "FOR I:=1 TO 2 DO ^I:=1; END_FOR;");
    assert_statements_refused(11, "FOR I:=1 TO 2 DO IF X THEN ^i:=1; END_IF; END_FOR;");
    assert_statements_refused(11, "FOR I:=1 TO 2 DO FOR ^I:=1 TO 2 DO END_FOR; END_FOR;");
    assert_statements_refused(
        11,
        "FOR I:=1 TO 2 DO FOR J:=1 TO 2 DO ^I:=1; END_FOR; END_FOR;",
    );
    assert_statements_accepted("FOR I:=1 TO 2 DO END_FOR; I:=1; FOR I:=1 TO 2 DO END_FOR;");
    assert_statements_accepted("FOR I:=1 TO 2 DO A:=I; FOR J:=I TO I DO END_FOR; J:=1; END_FOR;");
}

#[test]
fn number_12_exit_outside_a_loop() {
    assert_statements_refused(12, "^EXIT;");
    assert_statements_refused(12, "IF X THEN ^EXIT; END_IF;");
    assert_statements_refused(12, "WHILE X DO END_WHILE; ^EXIT;");
    assert_statements_accepted("WHILE X DO IF Y THEN EXIT; END_IF; END_WHILE;");
    assert_statements_accepted("REPEAT EXIT; UNTIL X END_REPEAT;");
    assert_statements_accepted("FOR I:=1 TO 2 DO CASE A OF 1: EXIT; END_CASE; END_FOR;");
}

/// `A:=A;` gives 5 bytes, `A:=-A;` 6, HALT 1.
fn with_code(fives: usize, sixes: usize) -> String {
    program(&format!(
        "{}{}",
        "A:=A;".repeat(fives),
        "A:=-A;".repeat(sixes)
    ))
}

#[test]
fn number_13_code_over_8192() {
    // 1637 × 5 + 1 × 6 + 1 = 8192, with six variables an image of 4 + 30 + 4 + 8192 + 10 = 8240.
    let line = desk_line(with_code(1637, 1).as_bytes());
    assert_eq!(line, "ACCEPTED 8240 8192 1 1638");
    // 1636 × 5 + 2 × 6 + 1 = 8193.
    let text = with_code(1636, 2);
    assert_eq!(
        desk_line(text.as_bytes()),
        format!("REFUSED 13 {}", text.len())
    );
}

#[test]
fn number_13_code_over_two_byte_targets() {
    // Each label gives 9 + 3 bytes, 6,000 of them 72,000.
    let labels = vec!["1"; 6_000].join(",");
    let text = program(&format!("CASE A OF {labels}: END_CASE;"));
    assert_eq!(
        desk_line(text.as_bytes()),
        format!("REFUSED 13 {}", text.len())
    );
}

#[test]
fn number_14_image_does_not_fit() {
    let text = b"PROGRAM P VAR A:DINT; END_VAR A:=A+1; END_PROGRAM";
    assert!(compile(text, 1_048_576, 35).is_ok());
    for capacity in [34, 1, 0] {
        let refusal = compile(text, 1_048_576, capacity).unwrap_err();
        assert_eq!((refusal.fault, refusal.place), (Fault::ImageDoesNotFit, 49));
        assert_eq!(refusal.fault.number(), 14);
    }
}

#[test]
fn the_shortest_image() {
    // No variable and HALT alone: 4 + 4 + 1 + 4 + 6.
    assert_eq!(desk_line(b"PROGRAM P END_PROGRAM"), "ACCEPTED 19 1 0 0");
}

#[test]
fn the_longest_image() {
    // 64 variables and 8,192 bytes of code: 4 + 320 + 4 + 8192 + 4 + 6.
    let statements = "V1:=V1;".repeat(1637) + "V1:=-V1;";
    let text = with_variables(64).replace("END_VAR ", &format!("END_VAR {statements}"));
    assert_eq!(desk_line(text.as_bytes()), "ACCEPTED 8530 8192 1 1638");
    assert!(compile(text.as_bytes(), 1_048_576, 8_530).is_ok());
    let refusal = compile(text.as_bytes(), 1_048_576, 8_529).unwrap_err();
    assert_eq!((refusal.fault.number(), refusal.place), (14, text.len()));
}

#[test]
fn number_15_by_0() {
    for zero in ["0", "-0", "+0", "16#0", "0_0"] {
        assert_statements_refused(15, &format!("FOR I:=1 TO 2 BY ^{zero} DO END_FOR;"));
    }
    assert_statements_accepted("FOR I:=1 TO 2 BY 1 DO END_FOR;");
    assert_statements_accepted("FOR I:=1 TO 2 BY -1 DO END_FOR;");
}

#[test]
fn number_16_low_above_high() {
    assert_statements_refused(16, "CASE A OF ^2..1: END_CASE;");
    assert_statements_refused(16, "CASE A OF 1,^-1..-2: END_CASE;");
    assert_statements_refused(16, "CASE A OF ^+1..-2147483648: END_CASE;");
    assert_statements_accepted("CASE A OF 1..1,-2..-1: END_CASE;");
}

#[test]
fn number_17_working_memory_short() {
    let text = b"PROGRAM P END_PROGRAM";
    assert!(compile(text, 1_048_576, 100).is_ok());
    assert!(compile(text, 2_000_000, 100).is_ok());
    for length in [1_048_575, 0] {
        let refusal = compile(text, length, 100).unwrap_err();
        assert_eq!((refusal.fault.number(), refusal.place), (17, 0));
    }
}

#[test]
fn numbers_0_and_20_done_and_spent() {
    // FOR 1, then per pass 1 for the body and 1 for the assignment: 1 + 3 × 2 = 7.
    let text = program("FOR I:=1 TO 3 DO A:=A+I; END_FOR;");
    let mut table = [0; 6];
    assert_eq!(outcome(&text, 7, &mut table), (0, 7));
    assert_eq!(table, [6, 0, 3, 0, 0, 0]);
    // Just before the seventh tick: the assignment of the third pass has not begun.
    let mut table = [0; 6];
    assert_eq!(outcome(&text, 6, &mut table), (20, 6));
    assert_eq!(table, [3, 0, 3, 0, 0, 0]);
    let mut table = [0, 0, 9, 0, 0, 0];
    assert_eq!(outcome(&text, 0, &mut table), (20, 0));
    assert_eq!(table, [0, 0, 9, 0, 0, 0]);
    assert_eq!(outcome(&program(""), 0, &mut [0; 6]), (0, 0));
}

#[test]
fn number_21_range() {
    let table = [2147483647, -2147483648, 2, -1, 0, 0];
    for (expression, wanted) in [
        ("A+1", None),
        ("B-1", None),
        ("A*I", None),
        ("B*J", None),
        ("-B", None),
        ("B/J", None),
        ("A+0", Some(2147483647)),
        ("B-0", Some(-2147483648)),
        ("A+B", Some(-1)),
        ("-A", Some(-2147483647)),
        ("B/1", Some(-2147483648)),
        ("0-A-1", Some(-2147483648)),
        ("B MOD J", Some(0)),
        ("65536*-32768", Some(-2147483648)),
    ] {
        let (outcome, _, after) = run_statements(&format!("I:={expression};"), table);
        let wanted = wanted.map_or((21, 2), |value| (0, value));
        assert_eq!((outcome, after[2]), wanted, "{expression}");
    }
}

#[test]
fn number_22_divide() {
    for expression in ["A/B", "A MOD B", "0/0", "0 MOD 0"] {
        let table = [5, 0, 7, 0, 0, 0];
        let (outcome, _, after) = run_statements(&format!("I:={expression};"), table);
        assert_eq!((outcome, after[2]), (22, 7), "{expression}");
    }
}

/// The listing's image, 35 bytes: records at 0, 9 and 25.
fn listing() -> Vec<u8> {
    let text = b"PROGRAM P VAR A:DINT; END_VAR A:=A+1; END_PROGRAM";
    compile_text(text).unwrap().image
}

#[track_caller]
fn assert_no_image(image: &[u8]) {
    let mut table = [5];
    let report = run(image, 9, &mut table);
    assert_eq!(report.outcome.number(), 23);
    assert_eq!(
        (report.ticks, report.instructions, report.offset),
        (0, 0, 0)
    );
    assert_eq!(table, [5]);
}

#[test]
fn number_23_each_byte_of_a_head() {
    for at in [0, 1, 2, 3, 9, 10, 11, 12, 25, 26, 27, 28] {
        for change in [1, 2, 0x80, 0xFF] {
            let mut image = listing();
            image[at] = image[at].wrapping_add(change);
            assert_no_image(&image);
        }
    }
}

#[test]
fn number_23_lengths() {
    for length in 0..35 {
        assert_no_image(&listing()[..length]);
    }
    let mut longer = listing();
    longer.push(0);
    assert_no_image(&longer);
    assert_no_image(&[listing(), listing()].concat());
}

#[test]
fn number_23_types_and_initial_values() {
    for kind in [0, 3, 0xFF] {
        let mut image = listing();
        image[4] = kind;
        assert_no_image(&image);
    }
    // As a BOOL with initial value 0 it is good, with 1 too, with 2, 256 or -1 not.
    for (initial, good) in [(0, true), (1, true), (2, false), (256, false), (-1, false)] {
        let mut image = listing();
        image[4] = 1;
        image[5..9].copy_from_slice(&i32::to_le_bytes(initial));
        let report = run(&image, 0, &mut [0]);
        assert_eq!(report.outcome.number(), if good { 20 } else { 23 });
    }
}

#[test]
fn number_24_table() {
    let image = image_of("DB", &[0x1D]);
    for (table, number) in [
        (vec![5, 0], 0),
        (vec![-5, 1], 0),
        (vec![5], 24),
        (vec![5, 0, 0], 24),
        (vec![], 24),
        (vec![0, 2], 24),
        (vec![0, -1], 24),
        (vec![0, i32::MIN], 24),
    ] {
        let mut after = table.clone();
        let report = run(&image, 9, &mut after);
        assert_eq!(report.outcome.number(), number, "{table:?}");
        assert_eq!(report.instructions, u64::from(number == 0));
        assert_eq!((report.ticks, report.offset), (0, 0));
        assert_eq!(after, table);
    }
}

#[test]
fn number_25_bad_code() {
    assert_bad_code("", "00", 0, 0);
    assert_bad_code("D", "02 07 00 00 00 00", 1, 5);
}
