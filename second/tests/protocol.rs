//! The line protocol and the commands, by the program itself.

use second::protocol::{answer, hex_field};
use std::io::Write;
use std::process::{Command, Stdio};

const LISTING: &str = "PROGRAM P VAR A:DINT; END_VAR A:=A+1; END_PROGRAM";
const IMAGE: &str = "0500010002000000000c00020001030002010000000a04001d06000300020001000000";

/// What the program writes for this input.
fn second(arguments: &[&str], input: &[u8]) -> String {
    let mut program = Command::new(env!("CARGO_BIN_EXE_second"))
        .args(arguments)
        .stdin(Stdio::piped())
        .stdout(Stdio::piped())
        .spawn()
        .expect("the program starts");
    let mut stdin = program.stdin.take().expect("its input");
    stdin.write_all(input).expect("input is taken");
    drop(stdin);
    let output = program.wait_with_output().expect("the program ends");
    assert!(output.status.success());
    String::from_utf8(output.stdout).expect("plain answers")
}

#[track_caller]
fn assert_answer(line: &str, wanted: &str) {
    assert_eq!(answer(line.as_bytes()), wanted, "{line}");
}

fn hex_of(text: &str) -> String {
    hex_field(text.as_bytes())
}

#[test]
fn compile() {
    let text = hex_of(LISTING);
    assert_answer(&format!("C {text}"), &format!("ACCEPTED {IMAGE} 12 2 1"));
    assert_answer(&format!("C {text} 35"), &format!("ACCEPTED {IMAGE} 12 2 1"));
    assert_answer(&format!("C {text} 34"), "REFUSED 14 49");
    assert_answer(&format!("C {text} 0"), "REFUSED 14 49");
    assert_answer(
        &format!("C {text} 4294967295"),
        &format!("ACCEPTED {IMAGE} 12 2 1"),
    );
    assert_answer("C -", "REFUSED 5 0");
    assert_answer("C 24", "REFUSED 2 0");
}

#[test]
fn compile_states_the_mark() {
    // T, CONST 0, 16 to end, JUMP: code 01 02 00000000 16 0c00 15 0000 1d, 13 bytes.
    let text = hex_of("PROGRAM P WHILE FALSE DO END_WHILE; END_PROGRAM");
    let image =
        "000001000d0002000102000000001 60c00 150000 1d060003000100ffffffff".replace(' ', "");
    assert_answer(
        &format!("C {text}"),
        &format!("ACCEPTED {image} 13 1 4294967295"),
    );
    assert_answer(&format!("D {text}"), "ACCEPTED 31 13 1 -");
}

#[test]
fn parse() {
    assert_answer(
        &format!("P {}", hex_of(LISTING)),
        "TREE 27 7 14 1 0 0 0 0 0 0 35 30 1 1 33 1 2 35 1 54 34 10 55 33 0 0 0 0",
    );
    assert_answer("P -", "REFUSED 5 0");
    assert_answer("P 24", "REFUSED 2 0");
}

#[test]
fn run() {
    assert_answer(&format!("R {IMAGE} 1 5"), "0 1 6 11 6");
    assert_answer(&format!("R {IMAGE} 0 5"), "20 0 0 0 5");
    assert_answer(
        &format!("R {IMAGE} 4294967295 2147483647"),
        "21 1 3 8 2147483647",
    );
    assert_answer(&format!("R {IMAGE} 1 -2147483648"), "0 1 6 11 -2147483647");
    assert_answer(&format!("R {IMAGE} 1 5,6"), "24 0 0 0 5,6");
    assert_answer(&format!("R {IMAGE} 1 -"), "24 0 0 0 -");
    assert_answer(&format!("R {IMAGE}00 1 5"), "23 0 0 0 5");
    assert_answer("R - 1 -", "23 0 0 0 -");
    // No variables, no code; then one byte less.
    assert_answer("R 000001000000020006000300000000000000 7 -", "25 0 0 0 -");
    assert_answer("R 0000010000000200060003000000000000 7 -", "23 0 0 0 -");
}

#[test]
fn evaluate() {
    let text = hex_of(LISTING);
    assert_answer(&format!("E {text} 1 5"), "0 1 6");
    assert_answer(&format!("E {text} 0 5"), "20 0 5");
    assert_answer(&format!("E {text} 9 2147483647"), "21 1 2147483647");
    assert_answer(&format!("E {text} 9 1,2"), "24 0 1,2");
    assert_answer("E - 9 1", "REFUSED 5 0");
    let text = hex_of("PROGRAM P END_PROGRAM");
    assert_answer(&format!("E {text} 0 -"), "0 0 -");
}

#[test]
fn evaluate_refuses_code_too_long() {
    let text = format!(
        "PROGRAM P VAR A:DINT; END_VAR {} END_PROGRAM",
        "A:=A;".repeat(2_000)
    );
    let line = format!("E {} 1 0", hex_of(&text));
    assert_answer(&line, &format!("REFUSED 13 {}", text.len()));
}

#[test]
fn fill() {
    assert_answer(&format!("F {IMAGE} 1"), "0 0");
    assert_answer(&format!("F {IMAGE} 2"), "24");
    assert_answer(&format!("F {IMAGE} 4294967295"), "24");
    assert_answer(&format!("F {IMAGE}00 1"), "23");
    assert_answer("F 000001000000020006000300000000000000 0", "0 -");
    // BOOL TRUE, DINT -2.
    let image = "0a000100010100000002feffffff0000020006000300000000000000";
    assert_answer(&format!("F {image} 2"), "0 1,-2");
}

#[test]
fn desk() {
    assert_answer(&format!("D {}", hex_of(LISTING)), "ACCEPTED 35 12 2 1");
    assert_answer("D -", "REFUSED 5 0");
}

#[test]
fn errors() {
    for (line, word) in [
        ("", "request"),
        (" ", "request"),
        (" C 00", "request"),
        ("c 00", "request"),
        ("X 00", "request"),
        ("CC 00", "request"),
        ("\r", "request"),
        ("C", "fields"),
        ("C 00 1 2", "fields"),
        ("R 00 1", "fields"),
        ("E 00 1 2 3", "fields"),
        ("F 00", "fields"),
        ("D 00 1", "fields"),
        ("P", "fields"),
        ("P 00 1", "fields"),
        ("C ", "hex"),
        ("C 0", "hex"),
        ("C 0A", "hex"),
        ("C 0g", "hex"),
        ("C 00\r", "hex"),
        ("C --", "hex"),
        ("P ", "hex"),
        ("P 0", "hex"),
        ("P 0A", "hex"),
        ("C  00", "hex"),
        ("C 00 ", "number"),
        ("C 00 -1", "number"),
        ("C 00 x", "number"),
        ("C 00 4294967296", "number"),
        ("F 00 99999999999999999999", "number"),
        ("R 00 4294967296 1", "number"),
        ("R 00 -1 1", "number"),
        ("R 00 +1 1", "number"),
        ("R 00 1 2147483648", "number"),
        ("R 00 1 -2147483649", "number"),
        ("R 00 1 1,", "number"),
        ("R 00 1 ,1", "number"),
        ("R 00 1 -,1", "number"),
        ("R 00 1 --1", "number"),
        ("R 00 1 ", "number"),
        ("R 0 x y", "hex"),
    ] {
        assert_answer(line, &format!("ERROR {word}"));
    }
    assert_eq!(answer(b"C \xFF\xFE"), "ERROR hex");
    assert_eq!(answer(b"\xFF"), "ERROR request");
}

#[test]
fn the_program_answers_line_by_line() {
    let text = hex_of(LISTING);
    let input = format!("D {text}\n\nX\nR {IMAGE} 1 5\nD -");
    let wanted = "ACCEPTED 35 12 2 1\nERROR request\nERROR request\n0 1 6 11 6\nREFUSED 5 0\n";
    assert_eq!(second(&[], input.as_bytes()), wanted);
    assert_eq!(second(&["lines"], input.as_bytes()), wanted);
    assert_eq!(second(&[], b""), "");
    assert_eq!(
        second(&[], b"\xFF\xFE \x80\nD -\n"),
        "ERROR request\nREFUSED 5 0\n"
    );
}

#[test]
fn the_program_serves_long_lines() {
    let line = format!("D {}\nD -\n", "20".repeat(300_000));
    assert_eq!(
        second(&[], line.as_bytes()),
        "REFUSED 1 16384\nREFUSED 5 0\n"
    );
}

#[test]
fn the_program_prints_the_desks_line() {
    assert_eq!(
        second(&["desk"], LISTING.as_bytes()),
        "ACCEPTED 35 12 2 1\n"
    );
    assert_eq!(second(&["desk"], b""), "REFUSED 5 0\n");
}

#[test]
fn the_program_prints_requests() {
    let one = second(&["requests", "7", "50"], b"");
    assert_eq!(one.lines().count(), 50);
    assert_eq!(one, second(&["requests", "7", "50"], b""));
    assert_ne!(one, second(&["requests", "8", "50"], b""));
    let answers = second(&[], one.as_bytes());
    assert_eq!(answers.lines().count(), 50);
    assert!(!answers.contains("ERROR"));
}

#[test]
fn the_program_prints_edges() {
    let edges = second(&["edges"], b"");
    let answers = second(&[], edges.as_bytes());
    assert_eq!(answers.lines().count(), edges.lines().count());
    for number in ["0", "20", "21", "22", "23", "24", "25"] {
        let of_number = |line: &&str| line.split(' ').next() == Some(number);
        assert!(answers.lines().filter(of_number).count() > 10, "{number}");
    }
    assert!(!answers.contains("ERROR"));
}

#[test]
fn the_program_prints_texts() {
    let texts = second(&["texts", "7", "50"], b"");
    assert_eq!(texts, second(&["texts", "7", "50"], b""));
    assert_ne!(texts, second(&["texts", "8", "50"], b""));
    assert!(texts.lines().count() > 3_000);
    assert!(texts.lines().all(|line| line.starts_with("P ")));
    let answers: Vec<String> = texts.lines().map(|line| answer(line.as_bytes())).collect();
    let count = |start: &str| {
        answers
            .iter()
            .filter(|line| line.starts_with(start))
            .count()
    };
    for number in ["1", "2", "3", "4", "5", "10"] {
        assert!(count(&format!("REFUSED {number} ")) > 0, "{number}");
    }
    assert!(count("TREE ") > 1_000);
    assert_eq!(count("ERROR"), 0);
}
