//! Every point where the rules could be read in two ways, as it is settled.

mod common;

use common::*;
use second::compile::{compile_text, desk_line};
use second::machine::run;
use second::tokens::RESERVED;

/// Refuses bytes with a number at a place.
#[track_caller]
fn assert_bytes_refused(number: u8, text: &[u8], place: usize) {
    assert_eq!(desk_line(text), format!("REFUSED {number} {place}"));
}

// Tokens.

#[test]
fn exactly_32_words_are_reserved() {
    let words = "AND BOOL BY CASE DINT DO ELSE ELSIF END_CASE END_FOR END_IF END_PROGRAM \
                 END_REPEAT END_VAR END_WHILE EXIT FALSE FOR IF MOD NOT OF OR PROGRAM REPEAT \
                 THEN TO TRUE UNTIL VAR WHILE XOR";
    let words: Vec<&str> = words.split(' ').collect();
    assert_eq!(words.len(), 32);
    assert_eq!(RESERVED.to_vec(), words);
    for word in words {
        assert_refused(5, &format!("PROGRAM ^{word} END_PROGRAM"));
        let small = word.to_lowercase();
        assert_refused(5, &format!("PROGRAM ^{small} END_PROGRAM"));
    }
    for name in [
        "END", "INT", "LF", "CR", "FF", "RETURN", "CONTINUE", "BOOLS", "T", "REAL",
    ] {
        assert_accepted(&format!(
            "PROGRAM P VAR {name}:DINT; END_VAR {name}:=1; END_PROGRAM"
        ));
    }
}

#[test]
fn letters_are_a_to_z() {
    assert_bytes_refused(2, b"PROGRAM P \xC4 END_PROGRAM", 10);
    assert_bytes_refused(2, "PROGRAM PÄ END_PROGRAM".as_bytes(), 9);
    assert_bytes_refused(2, b"PROGRAM P \x00 END_PROGRAM", 10);
    assert_bytes_refused(2, b"PROGRAM P \x0B END_PROGRAM", 10);
    assert_bytes_refused(2, b"PROGRAM P \x7F END_PROGRAM", 10);
    assert!(compile_text(b"PROGRAM P (* \xC4 \x00 \x0B *) // \xFF\x0B\x00\n END_PROGRAM").is_ok());
    assert!(compile_text(b"PROGRAM\tP\rEND_PROGRAM\x0C\n").is_ok());
    assert_accepted("pRoGrAm p vAr a:dInT; eNd_VaR A:=a; eNd_pRoGrAm");
}

#[test]
fn a_word_is_the_longest_run() {
    assert_refused(3, "PROGRAM P ^END__IF");
    assert_refused(3, "PROGRAM P ^IF_");
    // 33 characters that begin with a reserved word.
    assert_refused(
        3,
        &format!("PROGRAM ^END_PROGRAM{} END_PROGRAM", "X".repeat(22)),
    );
    assert_accepted("PROGRAM _1 END_PROGRAM");
    assert_refused(2, "PROGRAM P VAR A:INT^#5; END_VAR END_PROGRAM");
    // IFX is one name.
    assert_refused(5, "PROGRAM P IFX ^THEN END_IF; END_PROGRAM");
}

#[test]
fn a_digit_token_takes_letters_digits_underscores_and_number_signs() {
    let malformed = [
        "1TO5",
        "0x10",
        "1E5",
        "3#1",
        "02#1",
        "1_6#F",
        "16#",
        "16#_1",
        "2#2",
        "1__0",
        "1_",
        "16#F_",
        "16##F",
        "2#1#1",
        "16#FG",
        "8#",
        "1END_PROGRAM",
    ];
    for integer in malformed {
        assert_statements_refused(4, &format!("A:=^{integer};"));
    }
    for (integer, value) in [
        ("007", 7),
        ("0000000000000000000000000000000000000001", 1),
        ("2#0001_0000", 16),
        ("8#017", 15),
        ("16#0_f_F", 255),
        ("1_000", 1000),
        ("-16#10", -16),
        ("+2#11", 3),
        ("- 8#10", -8),
    ] {
        let (_, _, table) = run_statements(&format!("A:={integer};"), [0; 6]);
        assert_eq!(table[0], value, "{integer}");
    }
    let text = "PROGRAM P VAR A:DINT:=-16#10; B:DINT:=+2#11; END_VAR END_PROGRAM";
    let image = compile_text(text.as_bytes()).unwrap().image;
    assert_eq!(image[4..14], hex("02 F0 FF FF FF 02 03 00 00 00"));
}

#[test]
fn a_single_dot_is_no_token() {
    assert_statements_refused(2, "A:=1^.5;");
    assert_statements_refused(2, "CASE A OF 1..^.5: END_CASE;");
    assert_statements_accepted("CASE A OF 1..5: END_CASE;");
    assert_statements_accepted("CASE A OF 1 .. 5: END_CASE;");
    assert_statements_refused(2, "CASE A OF 1^. .5: END_CASE;");
}

#[test]
fn symbols_side_by_side() {
    assert_statements_refused(5, "A:=A*^*B;");
    assert_statements_refused(5, "X:=A=^>B;");
    assert_statements_refused(5, "A:=A *^);");
    assert_statements_refused(2, "A:=A^/*B;");
    assert_statements_accepted("A:=1; //* no fault\n A:=2;");
    assert_statements_accepted("A:=1 (* /* *) ;");
    assert_statements_refused(5, "A^: =1;");
    assert_statements_refused(5, "X:=A< ^=B;");
    // A>=B is one symbol, as is A<>B; A><B is two.
    assert_statements_accepted("X:=A>=B; X:=A<>B; X:=A<=B;");
    assert_statements_refused(5, "X:=A>^<B;");
    assert_statements_refused(5, "A^::=1;");
}

#[test]
fn comments_nest() {
    assert_accepted("PROGRAM P (*)*) END_PROGRAM");
    assert_refused(2, "PROGRAM P ^(* (*) *) END_PROGRAM");
    assert_accepted("PROGRAM P (* // *) END_PROGRAM");
    assert_accepted("PROGRAM P // (* \nEND_PROGRAM");
    assert_accepted("PROGRAM P // x \rEND_PROGRAM");
    assert_accepted("PROGRAM P // x \x0CEND_PROGRAM");
    assert_refused(5, "PROGRAM P // x END_PROGRAM^");
    assert_accepted("PROGRAM P END_PROGRAM // end");
    assert_accepted("PROGRAM P END_PROGRAM //");
    // (** is opened, then a star; **) is a star, then closed.
    assert_accepted("PROGRAM P (**) END_PROGRAM");
    assert_accepted("PROGRAM P (***) END_PROGRAM");
    assert_refused(2, "PROGRAM P ^(*(*) END_PROGRAM");
    // To any depth.
    let deep = format!("{}{}", "(*".repeat(4_000), "*)".repeat(4_000));
    assert_accepted(&format!("PROGRAM P {deep} END_PROGRAM"));
    assert_refused(2, &format!("PROGRAM P ^(*{deep} END_PROGRAM"));
}

#[test]
fn a_comment_parts_tokens() {
    assert_accepted("PROGRAM(**)P(* *)END_PROGRAM");
    assert_refused(5, "PROGRAM P VAR A(**)^B:DINT; END_VAR END_PROGRAM");
    assert_statements_refused(5, "A^:(**)=1;");
}

#[test]
fn token_faults_come_before_every_syntax_fault() {
    assert_refused(2, "PROGRAM P END_PROGRAM END_PROGRAM ^$");
    assert_refused(3, "END_PROGRAM ^_");
    assert_refused(4, "; ^0x");
}

// Syntax and nesting.

#[test]
fn the_end_of_text_is_its_length_blanks_included() {
    assert_refused(5, "PROGRAM P   ^");
    assert_refused(5, "  ^");
    assert_refused(5, "(* only *)^");
}

#[test]
fn declarations() {
    assert_accepted("PROGRAM P VAR END_VAR END_PROGRAM");
    assert_accepted("PROGRAM P END_PROGRAM");
    assert_refused(5, "PROGRAM P VAR A^,B:DINT; END_VAR END_PROGRAM");
    assert_refused(5, "PROGRAM P ; ^VAR END_VAR END_PROGRAM");
    assert_refused(5, "PROGRAM P END_PROGRAM^;");
    assert_refused(5, "PROGRAM P VAR ^IF:DINT; END_VAR END_PROGRAM");
    assert_refused(5, "PROGRAM P VAR A:BOOL:=^NOT TRUE; END_VAR END_PROGRAM");
}

#[test]
fn the_programs_name_is_no_variable() {
    assert_accepted("PROGRAM P VAR P:DINT; END_VAR P:=1; END_PROGRAM");
    assert_refused(7, "PROGRAM P ^P:=1; END_PROGRAM");
}

#[test]
fn one_sign_before_an_operand() {
    assert_statements_accepted("A:=A - -1;");
    assert_statements_accepted("A:=A + +1 * -B;");
    assert_statements_refused(5, "A:=-^-1;");
    assert_statements_refused(5, "X:=NOT ^NOT X;");
    assert_statements_refused(5, "X:=NOT ^-A;");
    assert_statements_refused(5, "A:=+^-A;");
    assert_statements_accepted("X:=NOT (NOT X);");
    assert_refused(5, "PROGRAM P VAR A:BOOL:=-^TRUE; END_VAR END_PROGRAM");
    assert_refused(5, "PROGRAM P VAR A:DINT:=^(1); END_VAR END_PROGRAM");
    assert_statements_refused(5, "CASE A OF ^(1): END_CASE;");
    assert_statements_refused(5, "CASE A OF -^TRUE: END_CASE;");
    assert_statements_refused(5, "FOR I:=1 TO 2 BY -^B DO END_FOR;");
}

#[test]
fn case_groups() {
    assert_statements_refused(5, "CASE A OF ^ELSE END_CASE;");
    assert_statements_refused(5, "CASE A OF ^A: END_CASE;");
    assert_statements_accepted("CASE A OF 1: 2: 3: END_CASE;");
    assert_statements_accepted("CASE A OF 1: ELSE END_CASE;");
    assert_statements_refused(5, "CASE A OF 1^:=2; END_CASE;");
    assert_statements_refused(5, "CASE A OF 1: A:=1; B:=2 ^2: END_CASE;");
    assert_statements_refused(5, "CASE A OF 1,^: END_CASE;");
    assert_statements_refused(5, "CASE A OF 1..2^..3: END_CASE;");
    assert_statements_refused(5, "CASE A OF 1: ELSE ^2: END_CASE;");
}

#[test]
fn elsif_any_number_else_once_last() {
    let elsifs = "ELSIF X THEN ".repeat(40);
    assert_statements_accepted(&format!("IF X THEN {elsifs} ELSE END_IF;"));
    assert_statements_refused(5, "IF X THEN ELSE ^ELSE END_IF;");
    assert_statements_refused(5, "IF X THEN ELSE ^ELSIF X THEN END_IF;");
    assert_statements_refused(5, "CASE A OF 1: ELSE ^ELSE END_CASE;");
}

#[test]
fn nesting_levels() {
    // ELSIF and ELSE open no level: fifteen IFs, each next in the ELSE, then one in an ELSIF.
    let open = "IF X THEN ELSIF X THEN ELSE ".repeat(15);
    let close = "END_IF; ".repeat(15);
    assert_statements_accepted(&format!(
        "{open} IF X THEN END_IF; IF Y THEN END_IF; {close}"
    ));
    assert_statements_refused(
        10,
        &format!("{open} IF X THEN ELSE ^IF X THEN END_IF; END_IF; {close}"),
    );
    // WHILE and REPEAT between FORs don't count toward the 8, but toward the 16.
    let pairs = |count: usize| {
        let declarations: String = (1..=count).map(|at| format!("V{at}:DINT;")).collect();
        let heads: String = (1..=count)
            .map(|at| format!("WHILE TRUE DO FOR V{at}:=1 TO 1 DO "))
            .collect();
        let ends = "END_FOR; END_WHILE; ".repeat(count);
        format!("PROGRAM P VAR {declarations} END_VAR {heads}{ends} END_PROGRAM")
    };
    assert_accepted(&pairs(8));
    // Parentheses count by themselves in each expression, whatever the statements.
    let (open, close) = ("(".repeat(16), ")".repeat(16));
    let deep_ifs = format!(
        "{}A:={open}1{close}; {}",
        "IF X THEN ".repeat(16),
        "END_IF; ".repeat(16)
    );
    assert_statements_accepted(&deep_ifs);
}

// The walk.

#[test]
fn a_constant_is_an_initial_value_a_label_bound_or_a_step() {
    assert_statements_refused(4, "FOR I := -^2147483648 TO 0 DO END_FOR;");
    assert_statements_refused(4, "CASE -^2147483648 OF 1: END_CASE;");
    assert_statements_refused(4, "IF A = -^2147483648 THEN END_IF;");
    assert_refused(
        4,
        "PROGRAM P VAR A:DINT := + ^2147483648; END_VAR END_PROGRAM",
    );
    assert_accepted("PROGRAM P VAR A:DINT := - (* sign *) 2147483648; END_VAR END_PROGRAM");
}

#[test]
fn the_exact_case_of_4_comes_before_the_8_of_what_holds_it() {
    assert_refused(4, "PROGRAM P VAR A:BOOL:=^2147483648; END_VAR END_PROGRAM");
    assert_refused(8, "PROGRAM P VAR ^A:BOOL:=-2147483648; END_VAR END_PROGRAM");
    assert_statements_refused(4, "A:=TRUE + ^2147483648;");
    assert_statements_refused(4, "X:=^2147483648;");
}

#[test]
fn a_declarations_faults() {
    let sixty_four: String = (1..=64).map(|at| format!("V{at}:DINT;")).collect();
    let with = |more: &str| format!("PROGRAM P VAR {sixty_four} {more} END_VAR END_PROGRAM");
    assert_refused(9, &with("^W:BOOL:=2147483648;"));
    assert_refused(6, &with("^V64:BOOL:=2147483648;"));
    assert_refused(
        6,
        "PROGRAM P VAR A:DINT; ^A:DINT:=2147483648; END_VAR END_PROGRAM",
    );
    assert_refused(8, "PROGRAM P VAR ^A:BOOL:=1; END_VAR END_PROGRAM");
    assert_refused(8, "PROGRAM P VAR ^A:BOOL:=0; END_VAR END_PROGRAM");
    assert_refused(8, "PROGRAM P VAR ^A:DINT:=FALSE; END_VAR END_PROGRAM");
}

#[test]
fn an_assignments_faults() {
    assert_statements_refused(7, "^Z:=Q+2147483648;");
    assert_statements_refused(11, "FOR I:=1 TO 2 DO ^I:=2147483648; END_FOR;");
    // Post-order: X + A is at fault before Z is met; the assigned name last.
    assert_statements_refused(8, "X:=(X^+A)*Z;");
    assert_statements_refused(8, "X:=A*(B ^AND Y);");
    assert_statements_refused(8, "^X:=A*B;");
    assert_statements_refused(8, &format!("^X:={};", of_height(33)));
}

#[test]
fn a_fors_faults() {
    let (high, high_final) = (of_height(33), of_height(32));
    assert_statements_refused(7, "FOR ^Z:=X TO X BY 0 DO EXIT; END_FOR;");
    assert_statements_refused(8, "FOR ^X:=Z TO Z BY 0 DO END_FOR;");
    assert_statements_refused(8, "FOR I:=^X TO Z BY 0 DO END_FOR;");
    assert_statements_refused(10, &format!("FOR I:=^{high} TO Z BY 0 DO END_FOR;"));
    assert_statements_refused(8, &format!("FOR I:=1 TO ^{high_final}=1 BY 0 DO END_FOR;"));
    assert_statements_refused(
        10,
        &format!("FOR I:=1 TO ^{high_final} BY TRUE DO END_FOR;"),
    );
    assert_statements_refused(4, "FOR I:=1 TO 2 BY ^2147483648 DO Z:=1; END_FOR;");
    assert_statements_refused(8, "FOR I:=1 TO 2 BY ^FALSE DO Z:=1; END_FOR;");
    assert_statements_refused(15, "FOR I:=1 TO 2 BY ^- 0 DO Z:=1; END_FOR;");
    assert_statements_refused(7, "FOR I:=1 TO 2 BY 1 DO ^Z:=1; END_FOR;");
    // 11 before 8 at the name: an inner FOR over the same variable.
    assert_statements_refused(11, "FOR I:=1 TO 2 DO FOR ^I:=X TO 2 DO END_FOR; END_FOR;");
}

#[test]
fn a_labels_faults() {
    assert_statements_refused(4, "CASE A OF ^2147483648..2147483648: END_CASE;");
    assert_statements_refused(4, "CASE A OF TRUE..^2147483648: END_CASE;");
    assert_statements_refused(8, "CASE A OF ^TRUE..1: END_CASE;");
    assert_statements_refused(8, "CASE A OF ^- 1..TRUE: END_CASE;");
    assert_statements_refused(8, "CASE A OF ^TRUE..FALSE: END_CASE;");
    assert_statements_refused(16, "CASE A OF ^+ 1..0: END_CASE;");
    // The labels of a group, its list, the next group.
    assert_statements_refused(16, "CASE A OF ^1..0,2147483648: Z:=1; END_CASE;");
    assert_statements_refused(7, "CASE A OF 1: ^Z:=1; 1..0: END_CASE;");
}

#[test]
fn a_condition_then_what_follows() {
    assert_statements_refused(8, "IF ^A THEN Z:=1; END_IF;");
    assert_statements_refused(7, "IF ^Z THEN Q:=1; END_IF;");
    assert_statements_refused(10, &format!("IF ^1={} THEN Z:=1; END_IF;", of_height(32)));
    assert_statements_refused(12, "REPEAT IF X THEN END_IF; UNTIL X END_REPEAT; ^EXIT;");
    assert_statements_refused(7, "REPEAT ^Z:=1; UNTIL A END_REPEAT;");
    assert_statements_refused(8, "REPEAT A:=1; UNTIL ^A END_REPEAT;");
}

#[test]
fn height_is_taken_of_whole_expressions() {
    // A part of height 33 on the left keeps 33; the place is the whole's first byte.
    let high = of_height(33);
    assert_statements_refused(10, &format!("A:=^B+({});", of_height(32)));
    assert_statements_refused(10, &format!("A:=^+({high})*1;"));
    assert_statements_accepted(&format!("A:=({})*1;", of_height(32)));
    // A part's height alone refuses nothing before a later type fault.
    assert_statements_refused(7, &format!("A:=({high})+^Z;"));
    assert_statements_refused(8, &format!("A:=({high})^+X;"));
}

#[test]
fn unary_plus_refuses_a_bool() {
    assert_statements_refused(8, "X:=^+X;");
    assert_statements_refused(8, "X:=^+TRUE;");
    assert_statements_accepted("A:=+A;");
}

#[test]
fn number_11_looks_at_every_enclosing_for() {
    assert_statements_refused(
        11,
        "FOR I:=1 TO 2 DO FOR J:=1 TO 2 DO WHILE X DO FOR ^I:=1 TO 2 DO END_FOR; END_WHILE; \
         END_FOR; END_FOR;",
    );
    assert_statements_accepted("FOR I:=I TO I DO FOR J:=I TO I DO A:=I+J; END_FOR; END_FOR;");
}

#[test]
fn number_12_belongs_to_the_walk() {
    assert_statements_refused(5, "EXIT; A:=^;");
    assert_refused(8, "PROGRAM P VAR ^A:BOOL:=1; END_VAR EXIT; END_PROGRAM");
    assert_statements_refused(12, "IF X THEN ^EXIT; END_IF; Z:=1;");
}

// Figures and translation.

#[test]
fn the_worst_case_is_exact() {
    // 1 + n, n = last + 2147483647 + 1 passes.
    assert_figures(
        "FOR I:=-2147483647 TO 1852516350 DO END_FOR;",
        2,
        "3999999999",
    );
    assert_figures(
        "FOR I:=-2147483647 TO 1852516351 DO END_FOR;",
        2,
        "4000000000",
    );
    assert_figures("FOR I:=-2147483647 TO 1852516352 DO END_FOR;", 2, "-");
    assert_figures(
        "FOR I:=-2147483647 TO 1852516350 DO END_FOR; A:=1;",
        2,
        "4000000000",
    );
    assert_figures("FOR I:=-2147483647 TO 1852516351 DO END_FOR; A:=1;", 2, "-");
    // 2000 × 2000 × 1000 and what is around: 1 + 1000 × (2 + 2000 × (2 + m)), over the limit at
    // m = 1998 with 1 + 1000 × 4000002.
    let cube = |m: u32| {
        format!(
            "FOR I:=1 TO 1000 DO FOR J:=1 TO 2000 DO FOR A:=1 TO {m} DO END_FOR; END_FOR; END_FOR;"
        )
    };
    assert_figures(&cube(1997), 2, "3998002001");
    assert_figures(&cube(1998), 2, "-");
}

#[test]
fn no_pass_of_an_astronomical_body() {
    let all = "-2147483647 TO 2147483647";
    let body =
        format!("FOR J:={all} DO FOR A:={all} DO FOR B:={all} DO END_FOR; END_FOR; END_FOR;");
    assert_figures(&format!("FOR I:=1 TO 0 DO {body} END_FOR;"), 2, "1");
    assert_figures(&format!("FOR I:=1 TO 1 DO {body} END_FOR;"), 2, "-");
    assert_figures(&format!("IF X THEN A:=1; ELSE {body} END_IF;"), 2, "-");
    assert_figures("FOR I:=1 TO 0 DO WHILE X DO END_WHILE; END_FOR;", 2, "-");
    assert_figures(
        "FOR I:=1 TO 0 DO FOR J:=A TO B DO END_FOR; END_FOR;",
        2,
        "-",
    );
    assert_figures(
        "IF FALSE THEN REPEAT UNTIL TRUE END_REPEAT; END_IF;",
        1,
        "-",
    );
    // Eight FORs of 4294967295 passes, and the same eight taken no time.
    let declarations: String = (0..8).map(|at| format!("V{at}:DINT;")).collect();
    let heads: String = (1..8).map(|at| format!("FOR V{at}:={all} DO ")).collect();
    for (first, worst) in [("1 TO 1", "-"), ("1 TO 0", "1")] {
        let ends = "END_FOR;".repeat(8);
        let text = format!(
            "PROGRAM P VAR {declarations} END_VAR FOR V0:={first} DO {heads}{ends} END_PROGRAM"
        );
        let line = desk_line(text.as_bytes());
        assert!(line.ends_with(&format!(" 2 {worst}")), "{line}");
    }
}

#[test]
fn a_bound_is_one_integer_with_an_optional_sign() {
    for bound in ["(1)", "1+0", "-(1)", "A", "1*1", "+(1)", "(-1)", "(+1)"] {
        assert_figures(&format!("FOR I:={bound} TO 1 DO END_FOR;"), 2, "-");
        let statement = format!("FOR I:=1 TO {bound} DO END_FOR;");
        let line = desk_line(program(&statement).as_bytes());
        assert!(line.ends_with(" -"), "{line}");
    }
    // -1, 0, 1: three passes.
    for bound in ["-1", "- 1", "-(* one *)1", "-16#1", "-001"] {
        assert_figures(&format!("FOR I:={bound} TO 1 DO END_FOR;"), 2, "4");
    }
    for bound in ["1", "+1", "+ 1"] {
        assert_figures(&format!("FOR I:={bound} TO 1 DO END_FOR;"), 2, "2");
    }
}

#[test]
fn a_case_of_at_least_2_refuses_nothing() {
    assert_figures("CASE A OF 1: END_CASE;", 2, "1");
    assert_figures(&format!("CASE {} OF 1: END_CASE;", of_height(32)), 32, "1");
    let (outcome, _, _) =
        run_statements(&format!("CASE {} OF 1: END_CASE;", of_height(32)), [0; 6]);
    assert_eq!(outcome, 0);
}

// Image and machine.

/// Records with these payloads and kinds, run over an empty table.
fn outcome_of(records: &[(u16, Vec<u8>)]) -> u8 {
    let mut image = Vec::new();
    for (kind, payload) in records {
        image.extend((payload.len() as u16).to_le_bytes());
        image.extend(kind.to_le_bytes());
        image.extend(payload);
    }
    run(&image, 0, &mut []).outcome.number()
}

#[test]
fn number_23_kinds_and_lengths() {
    let variables = |count: usize| (1, hex("02 00 00 00 00").repeat(count));
    let code = |length: usize| (2, vec![0x1D; length]);
    let figures = |length: usize| (3, vec![0; length]);
    // A good image with variables is 24 over an empty table.
    assert_eq!(outcome_of(&[variables(0), code(1), figures(6)]), 0);
    assert_eq!(outcome_of(&[variables(1), code(1), figures(6)]), 24);
    assert_eq!(outcome_of(&[variables(64), code(1), figures(6)]), 24);
    assert_eq!(outcome_of(&[variables(65), code(1), figures(6)]), 23);
    for length in [1, 2, 3, 4, 6, 319, 321] {
        assert_eq!(outcome_of(&[(1, vec![2; length]), code(1), figures(6)]), 23);
    }
    assert_eq!(outcome_of(&[variables(0), code(8_192), figures(6)]), 0);
    assert_eq!(outcome_of(&[variables(0), code(8_193), figures(6)]), 23);
    assert_eq!(outcome_of(&[variables(0), code(1), figures(5)]), 23);
    assert_eq!(outcome_of(&[variables(0), code(1), figures(7)]), 23);
    assert_eq!(outcome_of(&[code(1), variables(0), figures(6)]), 23);
    assert_eq!(outcome_of(&[variables(0), figures(6), code(1)]), 23);
    assert_eq!(outcome_of(&[variables(0), code(1)]), 23);
    assert_eq!(
        outcome_of(&[variables(0), code(1), figures(6), figures(6)]),
        23
    );
    assert_eq!(outcome_of(&[]), 23);
}

#[test]
fn code_of_length_0_is_a_good_image() {
    assert_eq!(run_code("D", "", 5, &mut [3]), (25, 0, 0, 0));
}

#[test]
fn jumps_take_any_value() {
    // 16 with -5 doesn't jump, 18 with -5 jumps over the bad code.
    assert_eq!(
        run_code("", "02 FB FF FF FF 16 00 00 1D", 0, &mut []),
        (0, 0, 3, 8)
    );
    assert_eq!(
        run_code("", "02 FB FF FF FF 18 09 00 00 1D", 0, &mut []),
        (0, 0, 3, 9)
    );
}

#[test]
fn eq_and_ne_take_any_two_values() {
    let mut table = [9];
    let equal = "02 07 00 00 00 02 07 00 00 00 10 04 00 1D";
    assert_eq!(run_code("D", equal, 0, &mut table), (0, 0, 5, 13));
    assert_eq!(table, [1]);
    let not_equal = "02 07 00 00 00 02 07 00 00 00 11 04 00 1D";
    assert_eq!(run_code("D", not_equal, 0, &mut table), (0, 0, 5, 13));
    assert_eq!(table, [0]);
}

#[test]
fn a_tick_stands_where_the_byte_is_01() {
    // CONST 1 at 0 has 01 at offset 1. JUMP back to 1 runs TICK, then 00: unknown code at 2.
    let code = "02 01 00 00 00 15 01 00";
    assert_eq!(run_code("", code, 5, &mut []), (25, 1, 3, 2));
    assert_eq!(run_code("", code, 0, &mut []), (20, 0, 2, 1));
}

#[test]
fn a_jump_not_taken_does_not_look_at_its_target() {
    assert_eq!(
        run_code("", "02 01 00 00 00 16 05 00 1D", 0, &mut []),
        (0, 0, 3, 8)
    );
    assert_eq!(
        run_code("", "02 01 00 00 00 16 FF FF 1D", 0, &mut []),
        (0, 0, 3, 8)
    );
    // FIRST: 0 doesn't pass 0. NEXT: 0 + 1 passes 0.
    assert_eq!(
        run_code("D", "1B 00 00 01 00 00 00 00 00 1D", 0, &mut [0]),
        (0, 0, 2, 9)
    );
    assert_eq!(
        run_code("D", "1C 00 00 01 00 00 00 00 00 1D", 0, &mut [0]),
        (0, 0, 2, 9)
    );
}

#[test]
fn a_jump_to_or_past_the_end_is_done() {
    assert_eq!(run_code("", "15 03 00", 0, &mut []), (25, 0, 1, 3));
    assert_eq!(run_code("", "15 FF FF", 0, &mut []), (25, 0, 1, 65_535));
    // NEXT past the end is done too, and its variable has stepped.
    let mut table = [-2];
    assert_eq!(
        run_code("D", "1C 00 00 01 00 00 00 FF FF", 0, &mut table),
        (25, 0, 1, 65_535)
    );
    assert_eq!(table, [-1]);
    // FIRST with a variable that passes.
    assert_eq!(
        run_code("D", "1B 00 00 01 00 00 00 09 00", 0, &mut [5]),
        (25, 0, 1, 9)
    );
}

#[test]
fn a_bad_instruction_does_nothing() {
    // CONST 3, HOLD 0, NEXT back to the CONST: 25, and the variable stays.
    let mut table = [1];
    let code = "02 03 00 00 00 1A 00 1C 00 00 01 00 00 00 00 00";
    assert_eq!(run_code("D", code, 5, &mut table), (25, 0, 2, 7));
    assert_eq!(table, [1]);
}

#[test]
fn number_25_comes_before_21_and_22() {
    // DIV and ADD with one value on the stack.
    assert_bad_code("", "02 00 00 00 00 08", 1, 5);
    assert_bad_code("", "02 FF FF FF 7F 0A", 1, 5);
    // NEG of the lowest value is RANGE at 5, DIV by 0 is DIVIDE at 10.
    assert_eq!(
        run_code("", "02 00 00 00 80 05 1D", 0, &mut []),
        (21, 0, 1, 5)
    );
    assert_eq!(
        run_code("", "02 01 00 00 00 02 00 00 00 00 08 1D", 0, &mut []),
        (22, 0, 2, 10)
    );
    // The lowest value by -1: DIV is RANGE, MOD is 0.
    let lowest = "02 00 00 00 80 02 FF FF FF FF";
    assert_eq!(
        run_code("", &format!("{lowest} 08 1D"), 0, &mut []),
        (21, 0, 2, 10)
    );
    let mut table = [7];
    let code = format!("{lowest} 09 04 00 1D");
    assert_eq!(run_code("D", &code, 0, &mut table), (0, 0, 5, 13));
    assert_eq!(table, [0]);
}

#[test]
fn span_with_low_above_high_pushes_0() {
    let mut table = [9];
    let code = "02 02 00 00 00 17 03 00 00 00 01 00 00 00 04 00 1D";
    assert_eq!(run_code("D", code, 0, &mut table), (0, 0, 4, 16));
    assert_eq!(table, [0]);
    // Within, at both ends.
    for value in [1, 3] {
        let mut table = [9];
        let code = format!("02 0{value} 00 00 00 17 01 00 00 00 03 00 00 00 04 00 1D");
        assert_eq!(run_code("D", &code, 0, &mut table), (0, 0, 4, 16));
        assert_eq!(table, [1]);
    }
}

#[test]
fn halt_with_values_left_is_done() {
    assert_eq!(run_code("", "02 01 00 00 00 1D", 0, &mut []), (0, 0, 2, 5));
}

#[test]
fn a_held_final_never_set_is_0() {
    // FIRST by -1: -1 passes 0, so it jumps to HALT at 10 over the bad code.
    let code = "1B 07 00 FF FF FF FF 0A 00 00 1D";
    assert_eq!(run_code("D", code, 0, &mut [-1]), (0, 0, 2, 10));
    assert_eq!(run_code("D", code, 0, &mut [0]), (25, 0, 1, 9));
}

#[test]
fn spent_reports_the_budget_and_the_tick() {
    assert_eq!(run_code("", "01 01 01 1D", 3, &mut []), (0, 3, 4, 3));
    assert_eq!(run_code("", "01 01 01 1D", 2, &mut []), (20, 2, 2, 2));
    assert_eq!(run_code("", "01 01 01 1D", 0, &mut []), (20, 0, 0, 0));
}

#[test]
fn a_loop_that_stops_at_the_last_values() {
    // Down to the lowest value and up to the highest, without RANGE.
    let table = [-2147483648, 2147483647, 0, 0, 0, 0];
    let down = "FOR I:=-2147483647 TO A BY -1 DO END_FOR;";
    let (outcome, ticks, after) = run_statements(down, table);
    assert_eq!((outcome, ticks, after[2]), (0, 3, -2147483648));
    let far = "FOR I:=A TO B BY 2147483647 DO END_FOR;";
    // -2147483648, -1, 2147483646.
    let (outcome, ticks, after) = run_statements(far, table);
    assert_eq!((outcome, ticks, after[2]), (0, 4, 2147483646));
    let far_down = "FOR I:=B TO A BY -2147483648 DO END_FOR;";
    // 2147483647, -1; the next would be -2147483649.
    let (outcome, ticks, after) = run_statements(far_down, table);
    assert_eq!((outcome, ticks, after[2]), (0, 3, -1));
}

#[test]
fn the_final_value_is_held() {
    // B is the final value 3 and grows in the body.
    let table = [0, 3, 0, 0, 0, 0];
    let (_, ticks, after) = run_statements("FOR I:=1 TO B DO B:=B+1; END_FOR;", table);
    assert_eq!((ticks, after[1], after[2]), (7, 6, 3));
}

#[test]
fn ticks_of_every_statement() {
    // IF 1 and assignment 1, whichever branch; no branch 1.
    assert_eq!(
        run_statements("IF X THEN A:=1; ELSE A:=2; END_IF;", [0; 6]).1,
        2
    );
    assert_eq!(run_statements("IF X THEN A:=1; END_IF;", [0; 6]).1, 1);
    assert_eq!(run_statements("CASE A OF 0: A:=1; END_CASE;", [0; 6]).1, 2);
    assert_eq!(run_statements("CASE A OF 1: A:=1; END_CASE;", [0; 6]).1, 1);
    // WHILE: one before each test, here three tests and two bodies of one assignment.
    assert_eq!(
        run_statements("WHILE A<2 DO A:=A+1; END_WHILE;", [0; 6]).1,
        5
    );
    // REPEAT: one before each body, two bodies of one assignment.
    assert_eq!(
        run_statements("REPEAT A:=A+1; UNTIL A=2 END_REPEAT;", [0; 6]).1,
        4
    );
    // EXIT 1: REPEAT 1, EXIT 1.
    assert_eq!(
        run_statements("REPEAT EXIT; UNTIL FALSE END_REPEAT;", [0; 6]).1,
        2
    );
    // EXIT leaves the innermost loop alone: FOR 1, two passes of 1, WHILE 1 and EXIT 1.
    let nested = "FOR I:=1 TO 2 DO WHILE TRUE DO EXIT; A:=9; END_WHILE; END_FOR;";
    let (_, ticks, table) = run_statements(nested, [0; 6]);
    assert_eq!((ticks, table[0], table[2]), (7, 0, 2));
    // EXIT of a FOR leaves the variable as it is.
    let (_, ticks, table) = run_statements(
        "FOR I:=1 TO 9 DO IF I=4 THEN EXIT; END_IF; END_FOR;",
        [0; 6],
    );
    // FOR 1, four passes of 1 and IF 1, EXIT 1.
    assert_eq!((ticks, table[2]), (10, 4));
}

#[test]
fn logic_and_comparison_values() {
    for (expression, x, y, value) in [
        ("X AND Y", 1, 0, 0),
        ("X AND Y", 1, 1, 1),
        ("X & Y", 0, 1, 0),
        ("X OR Y", 0, 1, 1),
        ("X OR Y", 0, 0, 0),
        ("X XOR Y", 1, 1, 0),
        ("X XOR Y", 1, 0, 1),
        ("NOT X", 1, 0, 0),
        ("NOT X", 0, 0, 1),
        ("X = Y", 0, 0, 1),
        ("X <> Y", 0, 1, 1),
        ("X OR Y AND FALSE", 1, 1, 1),
        ("TRUE XOR X AND Y", 1, 0, 1),
        ("1 < 2 = X", 1, 0, 1),
        ("2 <= 1 OR 2 >= 2", 0, 0, 1),
        ("3 > 3", 0, 0, 0),
        ("-1 < 0 & 0 <> -1", 0, 0, 1),
    ] {
        let table = [0, 0, 0, 0, x, y];
        let (_, _, after) = run_statements(&format!("Y:={expression};"), table);
        assert_eq!(after[5], value, "{expression} at {x} {y}");
    }
}
