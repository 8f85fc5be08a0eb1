//! The translation of every statement and operator, byte by byte.

mod common;

use common::*;

#[test]
fn no_statement() {
    assert_code("", "1D");
    assert_code(";;;", "1D");
}

#[test]
fn every_operator() {
    let binary = [
        ("A:=A*B;", "07"),
        ("A:=A/B;", "08"),
        ("A:=A MOD B;", "09"),
        ("A:=A+B;", "0A"),
        ("A:=A-B;", "0B"),
    ];
    for (statement, code) in binary {
        assert_code(statement, &format!("01 03 00 03 01 {code} 04 00 1D"));
    }
    let comparison = [
        ("X:=A<B;", "0C"),
        ("X:=A>B;", "0D"),
        ("X:=A<=B;", "0E"),
        ("X:=A>=B;", "0F"),
        ("X:=A=B;", "10"),
        ("X:=A<>B;", "11"),
    ];
    for (statement, code) in comparison {
        assert_code(statement, &format!("01 03 00 03 01 {code} 04 04 1D"));
    }
    let logic = [
        ("X:=X AND Y;", "12"),
        ("X:=X & Y;", "12"),
        ("X:=X XOR Y;", "13"),
        ("X:=X OR Y;", "14"),
        ("X:=X=Y;", "10"),
        ("X:=X<>Y;", "11"),
    ];
    for (statement, code) in logic {
        assert_code(statement, &format!("01 03 04 03 05 {code} 04 04 1D"));
    }
}

#[test]
fn signs_and_constants() {
    assert_code("A:=-B;", "01 03 01 05 04 00 1D");
    assert_code("A:=+B;", "01 03 01 04 00 1D");
    assert_code("X:=NOT Y;", "01 03 05 06 04 04 1D");
    // No folding: -5 is CONST 5, NEG.
    assert_code("A:=-5;", "01 02 05 00 00 00 05 04 00 1D");
    assert_code("X:=TRUE;", "01 02 01 00 00 00 04 04 1D");
    assert_code("X:=FALSE;", "01 02 00 00 00 00 04 04 1D");
    // 16#1234_5678, least byte first.
    assert_code("A:=16#1234_5678;", "01 02 78 56 34 12 04 00 1D");
}

#[test]
fn precedence() {
    // A - B - I is (A - B) - I.
    assert_code("A:=A-B-I;", "01 03 00 03 01 0B 03 02 0B 04 00 1D");
    assert_code("A:=A-(B-I);", "01 03 00 03 01 03 02 0B 0B 04 00 1D");
    // A + B * I, then -A * B as (-A) * B.
    assert_code("A:=A+B*I;", "01 03 00 03 01 03 02 07 0A 04 00 1D");
    assert_code("A:=-A*B;", "01 03 00 05 03 01 07 04 00 1D");
    assert_code("A:=A*-B;", "01 03 00 03 01 05 07 04 00 1D");
    // X OR Y XOR X AND Y = (A < B): AND binds before XOR, XOR before OR, = before AND, < before =.
    assert_code(
        "X:=X OR Y XOR X AND Y = A < B+I;",
        "01 03 04 03 05 03 04 03 05 03 00 03 01 03 02 0A 0C 10 12 13 14 04 04 1D",
    );
    // A < B = X is (A < B) = X.
    assert_code("X:=A<B=X;", "01 03 00 03 01 0C 03 04 10 04 04 1D");
}

#[test]
fn if_alone() {
    // 00 T, 01 LOAD X, 03 16 to 0B, 06 T, 07 LOAD B, 09 STORE A, 0B HALT.
    assert_code(
        "IF X THEN A:=B; END_IF;",
        "01 03 04 16 0B 00 01 03 01 04 00 1D",
    );
}

#[test]
fn if_with_every_branch() {
    assert_code(
        "IF X THEN A:=1; ELSIF Y THEN A:=2; ELSE A:=3; END_IF;",
        // 00 T; 01 LOAD X; 03 16 to 11; 06 T, CONST 1, STORE A; 0E JUMP 29
        "01 03 04 16 11 00 01 02 01 00 00 00 04 00 15 29 00 \
         03 05 16 21 00 01 02 02 00 00 00 04 00 15 29 00 \
         01 02 03 00 00 00 04 00 1D",
    );
}

#[test]
fn an_empty_else_still_has_its_jump() {
    // 06 JUMP to 09, which is also the next branch.
    assert_code("IF X THEN ELSE END_IF;", "01 03 04 16 09 00 15 09 00 1D");
    assert_code("IF X THEN END_IF;", "01 03 04 16 06 00 1D");
    // ELSIF without ELSE: only the first list has a JUMP.
    assert_code(
        "IF X THEN ELSIF Y THEN END_IF;",
        "01 03 04 16 09 00 15 0E 00 03 05 16 0E 00 1D",
    );
}

#[test]
fn case_with_two_groups() {
    assert_code(
        "CASE A OF 1,-2..3: B:=A; 4: ELSE A:=B; END_CASE;",
        // 00 T; 01 LOAD A; 03 SPAN 1 1; 0C 18 to 1E
        "01 03 00 17 01 00 00 00 01 00 00 00 18 1E 00 \
         17 FE FF FF FF 03 00 00 00 18 1E 00 15 27 00 \
         19 01 03 00 04 01 15 40 00 \
         17 04 00 00 00 04 00 00 00 18 36 00 15 3A 00 \
         19 15 40 00 \
         19 01 03 01 04 00 1D",
    );
}

#[test]
fn for_loop() {
    // 00 T; 01 CONST 1; 06 CONST 5; 0B HOLD 0; 0D STORE I; 0F FIRST 0 I 1 to 27; 18 T;
    // 19 T LOAD I STORE A; 1E NEXT 0 I 1 to 18; 27 HALT.
    assert_code(
        "FOR I:=1 TO 5 DO A:=I; END_FOR;",
        "01 02 01 00 00 00 02 05 00 00 00 1A 00 04 02 1B 00 02 01 00 00 00 27 00 \
         01 01 03 02 04 00 1C 00 02 01 00 00 00 18 00 1D",
    );
}

#[test]
fn for_in_for_has_the_next_level() {
    // Outer: 00 T, LOAD A, LOAD B, HOLD 0, STORE I, 09 FIRST 0 I -2 to 38; 12 T. Inner: 13 T,
    // LOAD A, LOAD B, HOLD 1, STORE J, 1C FIRST 1 J 3 to 2F; 25 T; 26 NEXT to 25.
    // 2F NEXT to 12; 38 HALT.
    assert_code(
        "FOR I:=A TO B BY -2 DO FOR J:=A TO B BY 3 DO END_FOR; END_FOR;",
        "01 03 00 03 01 1A 00 04 02 1B 00 02 FE FF FF FF 38 00 \
         01 \
         01 03 00 03 01 1A 01 04 03 1B 01 03 03 00 00 00 2F 00 \
         01 1C 01 03 03 00 00 00 25 00 \
         1C 00 02 FE FF FF FF 12 00 1D",
    );
}

#[test]
fn while_loop() {
    // 00 T; 01 LOAD X; 03 16 to 0E; 06 T LOAD B STORE A; 0B JUMP 00; 0E HALT.
    assert_code(
        "WHILE X DO A:=B; END_WHILE;",
        "01 03 04 16 0E 00 01 03 01 04 00 15 00 00 1D",
    );
}

#[test]
fn repeat_loop() {
    // 00 T; 01 T LOAD B STORE A; 06 LOAD X; 08 16 to 00; 0B HALT.
    assert_code(
        "REPEAT A:=B; UNTIL X END_REPEAT;",
        "01 01 03 01 04 00 03 04 16 00 00 1D",
    );
}

#[test]
fn exit_jumps_to_the_end_of_the_innermost_loop() {
    // WHILE: 00 T, LOAD X, 16 to 0D, 06 T, 07 JUMP 0D, 0A JUMP 00.
    assert_code(
        "WHILE X DO EXIT; END_WHILE;",
        "01 03 04 16 0D 00 01 15 0D 00 15 00 00 1D",
    );
    // REPEAT: 00 T, 01 T, 02 JUMP 0A, 05 LOAD X, 07 16 to 00.
    assert_code(
        "REPEAT EXIT; UNTIL X END_REPEAT;",
        "01 01 15 0A 00 03 04 16 00 00 1D",
    );
    // FOR: 00 T, 01 LOAD A, 03 LOAD B, 05 HOLD, 07 STORE, 09 FIRST to 20, 12 T, 13 T, 14 JUMP 20,
    // 17 NEXT to 12, 20 HALT.
    assert_code(
        "FOR I:=A TO B DO EXIT; END_FOR;",
        "01 03 00 03 01 1A 00 04 02 1B 00 02 01 00 00 00 20 00 \
         01 01 15 20 00 1C 00 02 01 00 00 00 12 00 1D",
    );
    // EXIT of the inner loop, then of the outer: 00 T, 01 T, 02 T, 03 JUMP 0B, 06 LOAD X,
    // 08 16 to 01, 0B T, 0C JUMP 14, 0F LOAD Y, 11 16 to 00, 14 HALT.
    assert_code(
        "REPEAT REPEAT EXIT; UNTIL X END_REPEAT; EXIT; UNTIL Y END_REPEAT;",
        "01 01 01 15 0B 00 03 04 16 01 00 01 15 14 00 03 05 16 00 00 1D",
    );
}

#[test]
fn exit_inside_case() {
    // 00 T; 01 T; 02 LOAD A; 04 SPAN 1 1; 0D 18 to 13; 10 JUMP 1B; 13 DROP; 14 T; 15 JUMP 21;
    // 18 JUMP 1C; 1B DROP; 1C LOAD X; 1E 16 to 00; 21 HALT.
    assert_code(
        "REPEAT CASE A OF 1: EXIT; END_CASE; UNTIL X END_REPEAT;",
        "01 01 03 00 17 01 00 00 00 01 00 00 00 18 13 00 15 1B 00 \
         19 01 15 21 00 15 1C 00 19 03 04 16 00 00 1D",
    );
}

#[test]
fn heights_and_depths() {
    assert_figures("", 0, "0");
    assert_figures(";", 0, "0");
    assert_figures("A:=1;", 1, "1");
    assert_figures("A:=-1;", 1, "1");
    assert_figures("A:=(((1)));", 1, "1");
    assert_figures("A:=A+B;", 2, "1");
    // (A + B) + I has height 2, A + (B + I) has 3.
    assert_figures("A:=A+B+I;", 2, "1");
    assert_figures("A:=A+(B+I);", 3, "1");
    // A * B + I: 2; I + A * B: 3.
    assert_figures("A:=A*B+I;", 2, "1");
    assert_figures("A:=I+A*B;", 3, "1");
    assert_figures("A:=A+B*-I;", 3, "1");
    assert_figures("A:=A+(B*-(-I));", 3, "1");
    // A CASE is at least 2, a FOR final counts one more.
    assert_figures("CASE A OF 1: END_CASE;", 2, "1");
    assert_figures("CASE A+(B+I) OF 1: END_CASE;", 3, "1");
    assert_figures("FOR I:=A TO B DO END_FOR;", 2, "-");
    assert_figures("FOR I:=A+(A+B) TO B DO END_FOR;", 3, "-");
    assert_figures("FOR I:=A TO A+(A+B) DO END_FOR;", 4, "-");
    assert_figures("IF X THEN ELSE A:=A+(A+(A+B)); END_IF;", 4, "2");
    assert_figures("WHILE X DO END_WHILE;", 1, "-");
    assert_figures("REPEAT A:=A+B; UNTIL X END_REPEAT;", 2, "-");
    assert_figures("REPEAT EXIT; UNTIL X END_REPEAT;", 1, "-");
}

#[test]
fn worst_cases() {
    assert_figures("A:=1; B:=2; I:=3;", 1, "3");
    // 1 plus the largest branch.
    assert_figures("IF X THEN A:=1; A:=2; ELSE A:=1; END_IF;", 1, "3");
    assert_figures("IF X THEN A:=1; ELSE A:=1; A:=2; A:=3; END_IF;", 1, "4");
    assert_figures("IF X THEN ELSIF Y THEN A:=1; END_IF;", 1, "2");
    assert_figures("IF X THEN END_IF;", 1, "1");
    assert_figures("CASE A OF 1: B:=1; 2: B:=1; B:=2; ELSE END_CASE;", 2, "3");
    assert_figures("CASE A OF 1: ELSE B:=1; END_CASE;", 2, "2");
    // 1 + 3 × (1 + 0), 1 + 3 × (1 + 2), nested 1 + 2 × (1 + 1 + 3 × 2).
    assert_figures("FOR I:=1 TO 3 DO END_FOR;", 2, "4");
    assert_figures("FOR I:=1 TO 3 DO A:=1; B:=1; END_FOR;", 2, "10");
    assert_figures(
        "FOR I:=1 TO 2 DO FOR J:=1 TO 3 DO A:=1; END_FOR; END_FOR;",
        2,
        "17",
    );
    // EXIT counts 1 and is taken no heed of.
    assert_figures("FOR I:=1 TO 3 DO EXIT; END_FOR;", 2, "7");
    // Passes: 10, 7, 4, 1 and 10, 7, 4.
    assert_figures("FOR I:=10 TO 1 BY -3 DO END_FOR;", 2, "5");
    assert_figures("FOR I:=10 TO 2 BY -3 DO END_FOR;", 2, "4");
    assert_figures("FOR I:=-1 TO +1 DO END_FOR;", 2, "4");
    assert_figures("FOR I:=1 TO 1 DO END_FOR;", 2, "2");
    assert_figures("FOR I:=1 TO 0 DO A:=1; END_FOR;", 2, "1");
    assert_figures("FOR I:=0 TO 1 BY -1 DO A:=1; END_FOR;", 2, "1");
    // The extreme steps: one pass each, and 0, -2147483648 would pass -2147483647.
    assert_figures("FOR I:=0 TO 2147483646 BY 2147483647 DO END_FOR;", 2, "2");
    assert_figures("FOR I:=0 TO 2147483647 BY 2147483647 DO END_FOR;", 2, "3");
    assert_figures("FOR I:=0 TO -2147483647 BY -2147483648 DO END_FOR;", 2, "2");
    assert_figures("FOR I:=1 TO -2147483647 BY -2147483648 DO END_FOR;", 2, "3");
    // All passes from the lowest to the highest bound: 1 + 4294967295 is over the limit.
    assert_figures("FOR I:=-2147483647 TO 2147483647 DO END_FOR;", 2, "-");
    // By 2: 2147483648 passes, 1 + 2147483648.
    assert_figures(
        "FOR I:=-2147483647 TO 2147483647 BY 2 DO END_FOR;",
        2,
        "2147483649",
    );
}
