//! Every sentence of the paragraphs "Order: .." and "25: .." that follow the table of numbers.

mod common;

use common::*;
use second::compile::{compile, compile_into, compile_text};
use second::image::fill;
use second::machine::run;

// Order.

#[test]
fn first_17_then_1() {
    let long = vec![b'$'; 16_385];
    let refusal = compile(&long, 1_048_575, 0).unwrap_err();
    assert_eq!((refusal.fault.number(), refusal.place), (17, 0));
    let refusal = compile(&long, 1_048_576, 0).unwrap_err();
    assert_eq!((refusal.fault.number(), refusal.place), (1, 16_384));
}

#[test]
fn tokens_first_in_the_text() {
    assert_refused(2, "^$ A__B 1__0");
    assert_refused(3, "^A__B 1__0 $");
    assert_refused(4, "^1__0 $ A__B");
    assert_refused(4, "^1__0 (* never closed");
    assert_refused(2, "^(* never closed 1__0");
}

#[test]
fn tokens_before_syntax() {
    assert_refused(2, ") ) ) ^$");
    assert_refused(3, "PROGRAM P END_PROGRAM END_PROGRAM ^A_");
    assert_refused(4, "IF IF ^2147483649");
}

#[test]
fn syntax_and_nesting_first_in_the_text() {
    let (open, close) = ("(".repeat(16), ")".repeat(16));
    assert_statements_refused(5, &format!("A:=^; A:={open}(1){close};"));
    assert_statements_refused(10, &format!("A:={open}^(1){close}; A:=;"));
    assert_statements_refused(5, &format!("A:={open}1{close}^);"));
}

#[test]
fn syntax_before_the_walk() {
    assert_refused(
        5,
        "PROGRAM P VAR A:DINT; A:BOOL:=1; END_VAR EXIT; Z:=1; ^:=",
    );
    let (open, close) = ("(".repeat(16), ")".repeat(16));
    assert_statements_refused(10, &format!("Z:=1; EXIT; A:={open}^(1){close};"));
}

#[test]
fn the_walk_takes_declarations_then_statements() {
    assert_refused(
        6,
        "PROGRAM P VAR A:DINT; ^A:DINT; B:BOOL:=1; END_VAR Z:=1; END_PROGRAM",
    );
    assert_refused(
        8,
        "PROGRAM P VAR A:DINT; ^B:BOOL:=1; A:DINT; END_VAR Z:=1; END_PROGRAM",
    );
    assert_statements_refused(7, "^Z:=1; EXIT;");
    assert_statements_refused(12, "^EXIT; Z:=1;");
}

#[test]
fn the_walk_takes_parts_before_the_whole_left_to_right() {
    // The left operand, the right operand, then the operator.
    assert_statements_refused(7, "A:=X+^Z;");
    assert_statements_refused(7, "A:=^Z+2147483648;");
    assert_statements_refused(4, "A:=^2147483648+Z;");
    assert_statements_refused(8, "A:=(X ^+ A) + Z;");
    assert_statements_refused(8, "A:=X ^+ A + Z;");
    assert_statements_refused(7, "A:=X + ^Z + X;");
    // Conditions before lists, in a REPEAT after.
    assert_statements_refused(8, "IF ^A THEN Z:=1; END_IF;");
    assert_statements_refused(7, "REPEAT ^Z:=1; UNTIL A END_REPEAT;");
    assert_statements_refused(7, "IF X THEN ^Z:=1; ELSIF A THEN END_IF;");
    assert_statements_refused(8, "IF X THEN ELSIF ^A THEN ELSE Z:=1; END_IF;");
    assert_statements_refused(8, "WHILE ^A DO Z:=1; END_WHILE;");
    // A selector, the labels of a group, its list, the next group.
    assert_statements_refused(8, "CASE ^X OF 2..1: Z:=1; END_CASE;");
    assert_statements_refused(16, "CASE A OF 1,^2..1: Z:=1; END_CASE;");
    assert_statements_refused(7, "CASE A OF 1: ^Z:=1; 2..1: END_CASE;");
    assert_statements_refused(16, "CASE A OF ^2..1: ELSE Z:=1; END_CASE;");
    // A FOR: name, initial, final, BY, body.
    assert_statements_refused(7, "FOR I:=^Z TO X BY 0 DO EXIT; END_FOR;");
    assert_statements_refused(8, "FOR I:=^X TO Z BY 0 DO END_FOR;");
    assert_statements_refused(8, "FOR I:=1 TO ^X BY 0 DO Z:=1; END_FOR;");
    assert_statements_refused(15, "FOR I:=1 TO 2 BY ^0 DO Z:=1; END_FOR;");
}

#[test]
fn height_comes_after_the_types() {
    let high = of_height(33);
    // Types inside the expression, then the type its place asks for, then height.
    assert_statements_refused(8, &format!("A:=X ^+ ({high});"));
    assert_statements_refused(8, &format!("^X:={high};"));
    assert_statements_refused(8, &format!("IF ^{high} THEN END_IF;"));
    assert_statements_refused(8, &format!("FOR I:=1 TO ^1={high} DO END_FOR;"));
    assert_statements_refused(10, &format!("A:=^-1+{high}; Z:=1;"));
    assert_statements_refused(10, &format!("FOR I:=^{high} TO X DO END_FOR;"));
    assert_statements_refused(
        10,
        &format!("FOR I:=1 TO ^{} BY 0 DO END_FOR;", of_height(32)),
    );
    assert_statements_refused(10, &format!("IF ^1={high} THEN Z:=1; END_IF;"));
    assert_statements_refused(10, &format!("CASE ^{high} OF 2..1: END_CASE;"));
}

#[test]
fn height_at_the_first_byte_of_the_whole() {
    let high = of_height(33);
    assert_statements_refused(10, &format!("A:=^({high});"));
    assert_statements_refused(10, &format!("A:=^-({high});"));
    assert_statements_refused(10, &format!("X:=^NOT(1={high});"));
}

/// Too much code, with more statements.
fn long_code(statements: &str) -> String {
    program(&format!("{}{statements}", "A:=A;".repeat(1_700)))
}

#[test]
fn last_13_then_14() {
    assert_refused(12, &long_code("^EXIT;"));
    let text = long_code("");
    let refusal = compile(text.as_bytes(), 1_048_576, 0).unwrap_err();
    assert_eq!((refusal.fault.number(), refusal.place), (13, text.len()));
    let text = program("A:=1;");
    let refusal = compile(text.as_bytes(), 1_048_576, 0).unwrap_err();
    assert_eq!((refusal.fault.number(), refusal.place), (14, text.len()));
}

/// So many variables, and what stands as one more declaration.
fn declared(count: usize, one_more: &str) -> String {
    let declarations: String = (1..=count).map(|at| format!("V{at}:DINT; ")).collect();
    format!("PROGRAM P VAR {declarations}{one_more} END_VAR END_PROGRAM")
}

#[test]
fn at_one_name_6_before_9_before_8() {
    assert_refused(6, &declared(64, "^V1:BOOL:=1;"));
    assert_refused(9, &declared(64, "^V65:BOOL:=1;"));
    assert_refused(6, &declared(1, "^V1:BOOL:=1;"));
    assert_refused(8, &declared(63, "^V64:BOOL:=1;"));
}

#[test]
fn at_one_name_7_before_11_before_8() {
    assert_statements_refused(7, "FOR I:=1 TO 2 DO ^Z:=X; END_FOR;");
    assert_statements_refused(11, "FOR I:=1 TO 2 DO ^I:=X; END_FOR;");
    assert_statements_refused(8, "FOR I:=1 TO 2 DO ^A:=X; END_FOR;");
}

#[test]
fn before_what_follows() {
    assert_statements_refused(11, "FOR I:=1 TO 2 DO ^I:=Z; END_FOR;");
    assert_statements_refused(11, "FOR I:=1 TO 2 DO FOR ^I:=Z TO X DO END_FOR; END_FOR;");
    assert_statements_refused(8, "FOR ^X:=Z TO 2 BY 0 DO END_FOR;");
    // An assigned name's 8 comes after the expression.
    assert_statements_refused(7, "X:=A+^Z;");
    assert_statements_refused(8, "X:=A^+Y;");
}

#[test]
fn exact_case_of_4_belongs_to_the_walk() {
    assert_statements_refused(5, "A:=2147483648; A:=^;");
    assert_statements_refused(7, "^Z:=1; A:=2147483648;");
    assert_statements_refused(4, "A:=; A:=^2147483649;");
}

#[test]
fn lent_memory() {
    let text = b"PROGRAM P VAR A:DINT; END_VAR A:=A+1; END_PROGRAM";
    let mut working_memory = vec![0xAA; 1_048_577];
    let mut image = [0xBB; 40];
    assert!(compile_into(text, &mut working_memory, &mut image).is_ok());
    assert!(working_memory.iter().all(|&byte| byte == 0));
    assert_eq!(image[..5], [5, 0, 1, 0, 2]);
    assert_eq!(image[35..], [0xBB; 5]);
}

#[test]
fn lent_memory_of_a_refusal() {
    let text = b"PROGRAM P VAR A:DINT; END_VAR A:=A+1; END_PROGRAM";
    for (text, capacity) in [
        (&text[..], 34),
        (b"$", 40),
        (b"", 40),
        (&[b' '; 16_385], 40),
    ] {
        let mut working_memory = vec![0xAA; 1_048_576];
        let mut image = vec![0xBB; capacity];
        assert!(compile_into(text, &mut working_memory, &mut image).is_err());
        assert!(working_memory.iter().all(|&byte| byte == 0));
        assert!(image.iter().all(|&byte| byte == 0xBB));
    }
}

#[test]
fn lent_memory_of_17() {
    let mut working_memory = vec![0xAA; 1_048_575];
    let mut image = [0xBB; 40];
    let text = b"PROGRAM P END_PROGRAM";
    assert!(compile_into(text, &mut working_memory, &mut image).is_err());
    assert!(working_memory.iter().all(|&byte| byte == 0xAA));
    assert_eq!(image, [0xBB; 40]);
}

#[test]
fn running_23_then_24_then_steps() {
    let mut image = image_of("B", &[0x00]);
    let report = run(&image, 5, &mut [2]);
    assert_eq!(report.outcome.number(), 24);
    assert_eq!(
        (report.ticks, report.instructions, report.offset),
        (0, 0, 0)
    );
    let report = run(&image, 5, &mut [1]);
    assert_eq!(report.outcome.number(), 25);
    image.push(0);
    let report = run(&image, 5, &mut [2]);
    assert_eq!(report.outcome.number(), 23);
    assert_eq!(
        (report.ticks, report.instructions, report.offset),
        (0, 0, 0)
    );
}

// 25.

#[test]
fn unknown_code() {
    for code in (0..=255).filter(|code| !(1..=29).contains(code)) {
        assert_bad_code("D", &format!("{code:02X} 00 00 00 00 00 00 00 00 00"), 0, 0);
    }
}

#[test]
fn operands_cut_off() {
    // Each code with operands, first with all but the last byte, which is 25 at once.
    let whole = [
        "02 00 00 00 00",
        "03 00",
        "04 00",
        "15 03 00",
        "16 03 00",
        "18 03 00",
        "17 00 00 00 00 00 00 00 00",
        "1A 00",
        "1B 00 00 01 00 00 00 09 00",
        "1C 00 00 01 00 00 00 09 00",
    ];
    for pairs in whole {
        for cut in 1..pairs.split(' ').count() {
            let kept: Vec<&str> = pairs.split(' ').take(cut).collect();
            assert_bad_code("D", &kept.join(" "), 0, 0);
        }
    }
    // After a TICK it is at the TICK's end.
    let mut table = [0];
    assert_eq!(run_code("D", "01 02 00", 5, &mut table), (25, 1, 1, 1));
}

#[test]
fn offset_at_or_past_the_end() {
    assert_bad_code("", "", 0, 0);
    assert_eq!(run_code("", "01", 5, &mut []), (25, 1, 1, 1));
    // The jump itself is done.
    assert_bad_code("", "15 03 00", 1, 3);
    assert_bad_code("", "15 04 00", 1, 4);
    assert_bad_code("", "15 FF FF", 1, 65_535);
    // CONST 0 and 16 to 9, CONST 1 and 18 to 9, each past the end.
    assert_bad_code("", "02 00 00 00 00 16 09 00", 2, 9);
    assert_bad_code("", "02 01 00 00 00 18 09 00", 2, 9);
    // 0 doesn't pass the held 0, so FIRST falls through and runs off the end at 9.
    assert_bad_code("D", "1B 00 00 FF FF FF FF 30 00", 1, 9);
}

#[test]
fn slot_too_large() {
    assert_bad_code("D", "03 01 1D", 0, 0);
    assert_bad_code("", "03 00 1D", 0, 0);
    assert_bad_code("D", "02 01 00 00 00 04 01 1D", 1, 5);
    assert_bad_code("D", "1B 00 01 01 00 00 00 09 00 1D", 0, 0);
    assert_bad_code("D", "1C 00 01 01 00 00 00 09 00 1D", 0, 0);
    assert_eq!(run_code("D", "03 00 1D", 0, &mut [7]), (0, 0, 2, 2));
}

#[test]
fn level_too_large() {
    assert_bad_code("D", "02 01 00 00 00 1A 08 1D", 1, 5);
    assert_eq!(
        run_code("", "02 01 00 00 00 1A 07 1D", 0, &mut []),
        (0, 0, 3, 7)
    );
    assert_bad_code("D", "1B 08 00 01 00 00 00 09 00 1D", 0, 0);
    assert_bad_code("D", "1C 08 00 01 00 00 00 09 00 1D", 0, 0);
    assert_eq!(
        run_code("D", "1B 07 00 01 00 00 00 09 00 1D", 0, &mut [0]),
        (0, 0, 2, 9)
    );
}

#[test]
fn stack_under() {
    for pairs in ["04 00", "05", "06", "16 03 00", "18 03 00", "19", "1A 00"] {
        assert_bad_code("D", &format!("{pairs} 1D"), 0, 0);
    }
    assert_bad_code("D", "17 00 00 00 00 00 00 00 00 1D", 0, 0);
    for code in 0x07..=0x14 {
        assert_bad_code("", &format!("{code:02X} 1D"), 0, 0);
        assert_bad_code("", &format!("02 01 00 00 00 {code:02X} 1D"), 1, 5);
    }
}

#[test]
fn stack_over() {
    let full = "02 01 00 00 00 ".repeat(32);
    // 32 values are good, and HALT with values left is DONE at 160.
    assert_eq!(
        run_code("D", &format!("{full}1D"), 0, &mut [0]),
        (0, 0, 33, 160)
    );
    assert_bad_code("D", &format!("{full}02 01 00 00 00 1D"), 32, 160);
    assert_bad_code("D", &format!("{full}03 00 1D"), 32, 160);
    assert_bad_code(
        "D",
        &format!("{full}17 00 00 00 00 00 00 00 00 1D"),
        32,
        160,
    );
    // What pops first has room.
    assert_eq!(
        run_code("D", &format!("{full}05 0A 19 1D"), 0, &mut [0]),
        (0, 0, 36, 163)
    );
}

#[test]
fn logic_on_other_than_0_and_1() {
    assert_bad_code("", "02 02 00 00 00 06 1D", 1, 5);
    assert_bad_code("", "02 FF FF FF FF 06 1D", 1, 5);
    for code in ["12", "13", "14"] {
        assert_bad_code(
            "",
            &format!("02 01 00 00 00 02 02 00 00 00 {code} 1D"),
            2,
            10,
        );
        assert_bad_code(
            "",
            &format!("02 02 00 00 00 02 00 00 00 00 {code} 1D"),
            2,
            10,
        );
        assert_bad_code(
            "",
            &format!("02 FF FF FF FF 02 FF FF FF FF {code} 1D"),
            2,
            10,
        );
    }
}

#[test]
fn bool_store_of_other_than_0_and_1() {
    assert_bad_code("B", "02 02 00 00 00 04 00 1D", 1, 5);
    assert_bad_code("B", "02 FF FF FF FF 04 00 1D", 1, 5);
    let mut table = [0];
    assert_eq!(
        run_code("B", "02 01 00 00 00 04 00 1D", 0, &mut table),
        (0, 0, 3, 7)
    );
    assert_eq!(table, [1]);
}

#[test]
fn step_0_and_for_on_a_bool() {
    for code in ["1B", "1C"] {
        assert_bad_code("D", &format!("{code} 00 00 00 00 00 00 09 00 1D"), 0, 0);
        assert_bad_code("B", &format!("{code} 00 00 01 00 00 00 09 00 1D"), 0, 0);
    }
}

#[test]
fn jump_back_where_no_tick_stands() {
    // To itself, and back to a CONST.
    assert_bad_code("", "15 00 00", 0, 0);
    assert_bad_code("", "02 00 00 00 00 15 00 00", 1, 5);
    assert_bad_code("", "02 00 00 00 00 16 00 00", 1, 5);
    assert_bad_code("", "02 01 00 00 00 18 00 00", 1, 5);
    // Not taken, it doesn't look at its target.
    assert_eq!(
        run_code("", "02 01 00 00 00 16 00 00 1D", 0, &mut []),
        (0, 0, 3, 8)
    );
    assert_eq!(
        run_code("", "02 00 00 00 00 18 00 00 1D", 0, &mut []),
        (0, 0, 3, 8)
    );
    // Back to a TICK it is good: TICK, JUMP, TICK, JUMP, and SPENT at 0.
    assert_eq!(run_code("", "01 15 00 00", 2, &mut []), (20, 2, 4, 0));
    // A forward jump lands on anything.
    assert_eq!(run_code("", "15 04 00 00 1D", 0, &mut []), (0, 0, 2, 4));
}

#[test]
fn first_and_next_jump_back_only_to_a_tick() {
    // FIRST: 1 passes the held 0 for step 1, so it jumps, to itself: 25.
    let mut table = [1];
    let first = "1B 00 00 01 00 00 00 00 00 1D";
    assert_eq!(run_code("D", first, 0, &mut table), (25, 0, 0, 0));
    // 0 doesn't pass 0, and FIRST falls through.
    let mut table = [0];
    assert_eq!(run_code("D", first, 0, &mut table), (0, 0, 2, 9));
    // NEXT: -1 stepped by 1 is 0 and doesn't pass the held 0, so it jumps, to itself: 25.
    let mut table = [-1];
    let next = "1C 00 00 01 00 00 00 00 00 1D";
    assert_eq!(run_code("D", next, 0, &mut table), (25, 0, 0, 0));
    assert_eq!(table, [-1]);
    // 0 stepped by 1 passes, and NEXT leaves the variable.
    let mut table = [0];
    assert_eq!(run_code("D", next, 0, &mut table), (0, 0, 2, 9));
    assert_eq!(table, [0]);
}

#[test]
fn next_steps_and_jumps() {
    // TICK, NEXT back to the TICK, HALT at 10: -2 becomes -1, then 0, then 1 passes.
    let mut table = [-2];
    let code = "01 1C 00 00 01 00 00 00 00 00 1D";
    assert_eq!(run_code("D", code, 9, &mut table), (0, 3, 7, 10));
    assert_eq!(table, [0]);
    // Forward to HALT and past the end it steps too.
    let mut table = [-2];
    let code = "1C 00 00 01 00 00 00 09 00 1D";
    assert_eq!(run_code("D", code, 9, &mut table), (0, 0, 2, 9));
    assert_eq!(table, [-1]);
    let mut table = [-2];
    let code = "1C 00 00 01 00 00 00 0A 00 1D";
    assert_eq!(run_code("D", code, 9, &mut table), (25, 0, 1, 10));
    assert_eq!(table, [-1]);
}

#[test]
fn kind_3_is_not_used() {
    let text = b"PROGRAM P VAR A:DINT; END_VAR A:=A+1; END_PROGRAM";
    let mut image = compile_text(text).unwrap().image;
    for filler in [0, 0xFF] {
        image[29..35].fill(filler);
        let mut table = [5];
        let report = run(&image, 1, &mut table);
        assert_eq!((report.outcome.number(), report.instructions), (0, 6));
        assert_eq!(table, [6]);
    }
}

#[test]
fn filling_a_table() {
    let text = b"PROGRAM P VAR A:DINT:=-5; X:BOOL:=TRUE; B:DINT; Y:BOOL; END_VAR END_PROGRAM";
    let image = compile_text(text).unwrap().image;
    // An invalid entry is overwritten.
    let mut table = [9, 9, 9, 9];
    assert_eq!(fill(&image, &mut table), Ok(()));
    assert_eq!(table, [-5, 1, 0, 0]);
    for length in [0, 3, 5] {
        let mut table = vec![9; length];
        assert_eq!(fill(&image, &mut table).unwrap_err().number(), 24);
        assert!(table.iter().all(|&entry| entry == 9));
    }
    let mut table = [9, 9, 9];
    assert_eq!(fill(&image[1..], &mut table).unwrap_err().number(), 23);
    assert_eq!(table, [9, 9, 9]);
}

#[test]
fn filling_refuses_no_code() {
    // Bad code is met while running only.
    let image = image_of("D", &[0xFF]);
    let mut table = [9];
    assert_eq!(fill(&image, &mut table), Ok(()));
    assert_eq!(table, [0]);
}
