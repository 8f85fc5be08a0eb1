//! Texts on both sides of each rule of tokens, of syntax and of nesting, one by one; no chance is in them.

use crate::numbers::{FOR_LIMIT, NAME_LIMIT, NESTING_LIMIT, PARENTHESES_LIMIT, TEXT_LIMIT};
use crate::tokens::{RESERVED, SYMBOLS};

type Texts = Vec<Vec<u8>>;

const BINARY: [&str; 15] = [
    "*", "/", "MOD", "+", "-", "<", ">", "<=", ">=", "=", "<>", "AND", "&", "XOR", "OR",
];
const UNARY: [&str; 3] = ["-", "+", "NOT"];

/// A program with these statements; nothing is declared, because only the walk asks for names.
fn program(statements: &str) -> String {
    format!("PROGRAM P {statements} END_PROGRAM")
}

fn assigned(expression: &str) -> String {
    program(&format!("A:={expression};"))
}

fn declared(name: &str, constant: &str) -> String {
    format!("PROGRAM P VAR {name}:DINT:={constant}; END_VAR END_PROGRAM")
}

fn texts(strings: impl IntoIterator<Item = String>) -> Texts {
    strings.into_iter().map(String::into_bytes).collect()
}

fn small(word: &str) -> String {
    word.to_ascii_lowercase()
}

/// Every second letter small.
fn mixed(word: &str) -> String {
    let letter = |(at, letter): (usize, char)| match at % 2 {
        0 => letter,
        _ => letter.to_ascii_lowercase(),
    };
    word.chars().enumerate().map(letter).collect()
}

// Length.

/// The longest text, and one that is longer and has a fault at its start.
fn lengths() -> Texts {
    let longest = program(&";".repeat(TEXT_LIMIT - program("").len()));
    let longer = format!("${longest}");
    texts([longest, longer])
}

// Tokens.

const NAMES: [&str; 34] = [
    "A", "z9", "_1", "_A", "_", "__", "__A", "_A_B", "A_", "A_B", "A__B", "A_1_2", "_1_", "END",
    "END_", "END_I", "END__IF", "END_IF_", "_END_IF", "IF_", "IF1", "INT", "LF", "CR", "FF",
    "RETURN", "CONTINUE", "INT#5", "A#", "A$", "A.B", "A..B", "1A", "A B",
];

/// Names next to the longest, of letters and with underscores in them.
fn long_names() -> Vec<String> {
    let mut names = Vec::new();
    for length in [NAME_LIMIT - 1, NAME_LIMIT, NAME_LIMIT + 1, 4 * NAME_LIMIT] {
        names.push("N".repeat(length));
        names.push(format!("_{}", "1".repeat(length - 1)));
        names.push(format!("END_PROGRAM{}", "X".repeat(length - 11)));
        names.push("A_".repeat(length / 2));
        names.push(format!("{}B", "A_".repeat(length / 2)));
    }
    names
}

/// A name as the program's, a variable's, an assigned one and an operand.
fn names() -> Texts {
    let mut found = Vec::new();
    let names = NAMES.iter().map(|name| name.to_string());
    for name in names.chain(long_names()) {
        found.push(format!("PROGRAM {name} END_PROGRAM"));
        found.push(declared(&name, "1"));
        found.push(program(&format!("{name}:={name};")));
    }
    texts(found)
}

/// Each reserved word where a name may stand, and as it may be written.
fn reserved_words() -> Texts {
    let mut found = Vec::new();
    for word in RESERVED {
        found.push(format!("PROGRAM {word} END_PROGRAM"));
        found.push(format!("PROGRAM {} END_PROGRAM", small(word)));
        found.push(format!("PROGRAM {} END_PROGRAM", mixed(word)));
        found.push(declared(word, "1"));
        found.push(declared("A", word));
        found.push(program(&format!("{}:=1;", mixed(word))));
        found.push(assigned(&mixed(word)));
        found.push(program(&format!("FOR {}:=1 TO 2 DO END_FOR;", small(word))));
        // What is nearly one is a name.
        let shorter = &word[..word.len() - 1];
        found.push(format!("PROGRAM {shorter} END_PROGRAM"));
        found.push(format!("PROGRAM {word}S END_PROGRAM"));
        found.push(format!("PROGRAM {word}1 END_PROGRAM"));
        found.push(format!("PROGRAM {word}_ END_PROGRAM"));
        found.push(format!("PROGRAM _{word} END_PROGRAM"));
        found.push(format!("PROGRAM {} END_PROGRAM", word.replace('_', "")));
    }
    texts(found)
}

const INTEGERS: [&str; 92] = [
    "0",
    "1",
    "9",
    "00",
    "007",
    "1_0",
    "1_000_000",
    "1_2_3",
    "1_",
    "1__0",
    "_1",
    "2147483646",
    "2147483647",
    "2147483648",
    "2147483649",
    "2_147_483_648",
    "02147483648",
    "21474836480",
    "4294967295",
    "4294967296",
    "4294967297",
    "9999999999",
    "6442450945",
    "18446744073709551615",
    "18446744073709551616",
    "18446744073709551617",
    "99999999999999999999999999999999",
    "0000000000000000000000000000000000000001",
    "2#0",
    "2#1",
    "2#2",
    "2#10",
    "2#1_0",
    "2#1__0",
    "2#1_",
    "2#_1",
    "2#",
    "2#_",
    "2#A",
    "2#1111111111111111111111111111111",
    "2#10000000000000000000000000000000",
    "2#10000000000000000000000000000001",
    "2#100000000000000000000000000000000",
    "2#00000000000000000000000000000000000001",
    "8#0",
    "8#7",
    "8#8",
    "8#9",
    "8#0_7",
    "8#",
    "8#17777777777",
    "8#20000000000",
    "8#20000000001",
    "8#40000000000",
    "16#0",
    "16#9",
    "16#A",
    "16#a",
    "16#F",
    "16#f",
    "16#G",
    "16#g",
    "16#1G",
    "16#aB_Cd",
    "16#",
    "16#_1",
    "16#1_",
    "16##1",
    "16#7FFF_FFFF",
    "16#80000000",
    "16#8000_0000",
    "16#80000001",
    "16#FFFFFFFF",
    "16#100000000",
    "16#1_0000_0000_0000_0000",
    "16#0000000000000000001",
    "0#0",
    "1#1",
    "3#1",
    "6#1",
    "10#1",
    "12#1",
    "02#1",
    "016#F",
    "1_6#F",
    "2#16#1",
    "#1",
    "0x10",
    "1E5",
    "1TO5",
    "9a",
    "1_A",
];

/// An integer as an operand, an initial value, a label and a step.
fn integers() -> Texts {
    let mut found = Vec::new();
    for integer in INTEGERS {
        found.push(assigned(integer));
        found.push(assigned(&format!("-{integer}-{integer}")));
        found.push(declared("A", &format!("-{integer}")));
        found.push(program(&format!(
            "CASE A OF {integer}..+{integer},{integer}: END_CASE;"
        )));
        found.push(program(&format!(
            "FOR I:={integer} TO {integer} BY {integer} DO END_FOR;"
        )));
    }
    texts(found)
}

/// Each byte alone, parted, beside letters and digits, and in both kinds of comment.
fn bytes() -> Texts {
    let around: [(&str, &str); 7] = [
        ("", ""),
        ("PROGRAM P ", " END_PROGRAM"),
        ("PROGRAM A", "B END_PROGRAM"),
        ("PROGRAM P A:=1", "2; END_PROGRAM"),
        ("PROGRAM P A:=B", "C; END_PROGRAM"),
        ("PROGRAM P (*", "*) END_PROGRAM"),
        ("PROGRAM P //", "END_PROGRAM"),
    ];
    let mut found = Vec::new();
    for (before, after) in around {
        for byte in 0..=255 {
            found.push([before.as_bytes(), &[byte], after.as_bytes()].concat());
        }
    }
    found
}

/// Two bytes of symbols beside each other, and parted.
fn symbols() -> Texts {
    let bytes = ":;,()+-*/<>=&.";
    let mut found = Vec::new();
    for first in bytes.chars() {
        for second in bytes.chars() {
            found.push(assigned(&format!("B{first}{second}C")));
            found.push(assigned(&format!("B {first} {second} C")));
        }
    }
    let longer = [
        ":==", "<>=", "<=>", ">=<", "<<=", ">>=", "==", "=<", "=>", "=:", "...", "....", ".. .",
        ". .", ":=:", ":= =", "**", "* *", "&&", "**=", "<>>", "<=>=",
    ];
    found.extend(longer.map(|symbols| assigned(&format!("B{symbols}C"))));
    let ranges = [
        "1..5",
        "1 .. 5",
        "1.. 5",
        "1 ..5",
        "1...5",
        "1....5",
        "1.5",
        "1. 5",
        "1.",
        ".5",
        "1..-5",
        "-1..+5",
        "1..5..9",
        "1,,2",
        ",1",
        "1,",
        "1..",
        "..5",
        "TRUE..FALSE",
        "16#1..16#5",
        "1..5,7..9",
    ];
    found.extend(ranges.map(|range| program(&format!("CASE A OF {range}: END_CASE;"))));
    texts(found)
}

const COMMENTS: [&str; 47] = [
    "(**)",
    "(***)",
    "(****)",
    "(*)",
    "(*)*)",
    "(*)*)*)",
    "(* (*) *)",
    "(* (*) *) *)",
    "(* *)",
    "(* *) *)",
    "(* (* *) *)",
    "(* (* *)",
    "(*(*(**)*)*)",
    "(*(*(**)*)",
    "(*(*(**)*)*)*)",
    "(*(**)(**)*)",
    "(* ( * ) *)",
    "(* )* *)",
    "(* **)",
    "(* **) *)",
    "(*",
    "(* *",
    "(* )",
    "(* $ \" ' *)",
    "(* // *)",
    "(* //\n*)",
    "(* // \n",
    "(* /* *)",
    "(* */ *)",
    "( *) *)",
    "( * *)",
    "*)",
    "* )",
    "//",
    "//\n",
    "//\r",
    "//\u{0C}",
    "//\t",
    "// (*\n",
    "// (*\n *)",
    "// *)\r",
    "///\n",
    "//*\n",
    "/*",
    "/* */",
    "/ *",
    "/(**)/",
];

/// A comment alone, before, in and behind a program, and between the bytes of what would be one token.
fn comments() -> Texts {
    let mut found = Vec::new();
    for comment in COMMENTS {
        found.push(comment.to_string());
        found.push(format!("{comment}PROGRAM P END_PROGRAM"));
        found.push(program(comment));
        found.push(format!("PROGRAM P END_PROGRAM{comment}"));
        found.push(assigned(&format!("B{comment}C")));
        found.push(assigned(&format!("B+{comment}C")));
    }
    for (first, second) in [
        ("A", ":(**)=1;"),
        ("A:=B<", "(**)>C;"),
        ("A:=B", "(**)C;"),
        ("A:=1", "(**)2;"),
        ("A:=B/", "(**)/C;"),
        ("A:=B/", "//x\nC;"),
        ("A:=B(", "(**)*C;"),
        ("END", "(**)_IF:=1;"),
        ("CASE A OF 1.", "(**).5: END_CASE;"),
    ] {
        found.push(program(&format!("{first}{second}")));
    }
    texts(found)
}

/// Tokens first, wherever they stand.
fn order() -> Texts {
    let faults = ["$", "A_", "A__B", "1A", "2147483649", "(*", "/*", "."];
    let mut found = Vec::new();
    for fault in faults {
        found.push(format!("PROGRAM PROGRAM {fault}"));
        found.push(format!("END_PROGRAM {fault} $"));
        found.push(format!("PROGRAM P END_PROGRAM {fault}"));
        found.push(format!("PROGRAM P END_PROGRAM END_PROGRAM {fault}"));
        found.push(assigned(&format!("{}1+{fault}", "(".repeat(17))));
        for other in faults {
            found.push(program(&format!("{fault} {other}")));
        }
    }
    let behind = ["", " ", "\n", "\t\r\n\u{0C} ", "(**)", " // "];
    for text in [
        "",
        "PROGRAM",
        "PROGRAM P",
        "PROGRAM P A:=1",
        "PROGRAM P END_PROGRAM",
    ] {
        found.extend(behind.map(|blanks| format!("{text}{blanks}")));
        found.extend(behind.map(|blanks| format!("{blanks}{text}")));
    }
    texts(found)
}

// Syntax.

/// What a program may begin with, so that each token can be tried behind it.
const BEGINNINGS: [&str; 78] = [
    "",
    "PROGRAM",
    "PROGRAM P",
    "PROGRAM P VAR",
    "PROGRAM P VAR A",
    "PROGRAM P VAR A:",
    "PROGRAM P VAR A:BOOL",
    "PROGRAM P VAR A:DINT",
    "PROGRAM P VAR A:DINT:=",
    "PROGRAM P VAR A:DINT:=-",
    "PROGRAM P VAR A:DINT:=+",
    "PROGRAM P VAR A:DINT:=1",
    "PROGRAM P VAR A:DINT:=TRUE",
    "PROGRAM P VAR A:DINT;",
    "PROGRAM P VAR END_VAR",
    "PROGRAM P ;",
    "PROGRAM P A",
    "PROGRAM P A:=",
    "PROGRAM P A:=B",
    "PROGRAM P A:=1",
    "PROGRAM P A:=TRUE",
    "PROGRAM P A:=-",
    "PROGRAM P A:=+",
    "PROGRAM P A:=NOT",
    "PROGRAM P A:=-1",
    "PROGRAM P A:=NOT B",
    "PROGRAM P A:=(",
    "PROGRAM P A:=(B",
    "PROGRAM P A:=(B)",
    "PROGRAM P A:=-(",
    "PROGRAM P A:=B*",
    "PROGRAM P A:=B+",
    "PROGRAM P A:=B<",
    "PROGRAM P A:=B=",
    "PROGRAM P A:=B AND",
    "PROGRAM P A:=B OR",
    "PROGRAM P A:=B=C",
    "PROGRAM P A:=B;",
    "PROGRAM P IF",
    "PROGRAM P IF X",
    "PROGRAM P IF X THEN",
    "PROGRAM P IF X THEN ;",
    "PROGRAM P IF X THEN ELSIF",
    "PROGRAM P IF X THEN ELSIF X",
    "PROGRAM P IF X THEN ELSIF X THEN",
    "PROGRAM P IF X THEN ELSE",
    "PROGRAM P IF X THEN ELSE ;",
    "PROGRAM P IF X THEN END_IF",
    "PROGRAM P CASE",
    "PROGRAM P CASE A",
    "PROGRAM P CASE A OF",
    "PROGRAM P CASE A OF -",
    "PROGRAM P CASE A OF 1",
    "PROGRAM P CASE A OF TRUE",
    "PROGRAM P CASE A OF 1..",
    "PROGRAM P CASE A OF 1..2",
    "PROGRAM P CASE A OF 1,",
    "PROGRAM P CASE A OF 1:",
    "PROGRAM P CASE A OF 1: ;",
    "PROGRAM P CASE A OF 1: ELSE",
    "PROGRAM P CASE A OF 1: END_CASE",
    "PROGRAM P FOR",
    "PROGRAM P FOR I",
    "PROGRAM P FOR I:=",
    "PROGRAM P FOR I:=1",
    "PROGRAM P FOR I:=1 TO",
    "PROGRAM P FOR I:=1 TO 2",
    "PROGRAM P FOR I:=1 TO 2 BY",
    "PROGRAM P FOR I:=1 TO 2 BY 3",
    "PROGRAM P FOR I:=1 TO 2 DO",
    "PROGRAM P WHILE",
    "PROGRAM P WHILE X",
    "PROGRAM P WHILE X DO",
    "PROGRAM P REPEAT",
    "PROGRAM P REPEAT UNTIL",
    "PROGRAM P REPEAT UNTIL X",
    "PROGRAM P EXIT",
    "PROGRAM P END_PROGRAM",
];

/// Every token behind every beginning, and none.
fn continuations() -> Texts {
    let mut found = Vec::new();
    for beginning in BEGINNINGS {
        found.push(beginning.to_string());
        for token in RESERVED.iter().chain(&SYMBOLS).chain(&["Q", "7"]) {
            found.push(format!("{beginning} {token}"));
        }
    }
    texts(found)
}

/// Operators beside each other, with their operands, so that levels and grouping show.
fn operators() -> Texts {
    let mut found = Vec::new();
    for first in BINARY {
        for second in BINARY {
            found.push(assigned(&format!("B {first} C {second} D")));
        }
        for sign in UNARY {
            found.push(assigned(&format!("{sign} B {first} C")));
            found.push(assigned(&format!("B {first} {sign} C")));
            found.push(assigned(&format!("{sign}(B {first} C)")));
        }
        found.push(assigned(&format!("B {first} (C {first} D)")));
        found.push(assigned(&format!("(B {first} C) {first} D")));
        found.push(assigned(&format!("B {first}")));
        found.push(assigned(&format!("{first} B")));
    }
    for first in UNARY {
        for second in UNARY {
            found.push(assigned(&format!("{first} {second} B")));
            found.push(assigned(&format!("{first}({second} B)")));
            found.push(assigned(&format!("B {first} {second} C")));
        }
    }
    texts(found)
}

/// An operator of each level, loosest first and tightest first; and each two levels, one between the other.
fn chains() -> Texts {
    let by_level = ["OR", "XOR", "&", "=", "<", "+", "*"];
    let mut against = by_level;
    against.reverse();
    let mut found = vec![
        assigned(&format!(
            "A{}",
            by_level.map(|op| format!(" {op} A")).concat()
        )),
        assigned(&format!(
            "A{}",
            against.map(|op| format!(" {op} A")).concat()
        )),
    ];
    for low in 0..by_level.len() {
        for high in low + 1..by_level.len() {
            let (loose, tight) = (by_level[low], by_level[high]);
            found.push(assigned(&format!("A {loose} B {tight} C {loose} D")));
            found.push(assigned(&format!("A {tight} B {loose} C {tight} D")));
        }
    }
    texts(found)
}

const STATEMENTS: [&str; 107] = [
    "",
    ";",
    ";;;",
    "A:=1",
    "A:=1;;",
    ";A:=1;",
    "A:=1 B:=2;",
    "A:=1; B:=2;",
    "A=1;",
    "A:1;",
    "A;",
    "A:=;",
    "A:=B:=1;",
    "1:=A;",
    "(A):=1;",
    "A:=();",
    "A:=(1;",
    "A:=1);",
    "A:=(1));",
    "A:=(B C);",
    "A:=B C;",
    "A:=1 2;",
    "A:=--1;",
    "A:=- -1;",
    "A:=A - -1;",
    "A:=A--1;",
    "A:=A---1;",
    "A:=-(-1);",
    "A:=NOT NOT X;",
    "A:=NOT -A;",
    "A:=-NOT A;",
    "A:=NOT(NOT X);",
    "X:=NOT A = B;",
    "X:=NOT (A = B);",
    "X:=A = NOT B;",
    "X:=A<B<C;",
    "X:=A=B=C;",
    "X:=A<B=C<D;",
    "X:=A=B AND C=D;",
    "X:=A OR B AND C;",
    "X:=(A OR B) AND C;",
    "A:=A**B;",
    "A:=A=>B;",
    "A:=-A*-B;",
    "A:=-A+-B;",
    "A:=TRUE+2147483648;",
    "A:=F(1);",
    "A:=B[1];",
    "A:=B.C;",
    "A:='x';",
    "A:={x};",
    "A:=DINT#1;",
    "IF X THEN END_IF;",
    "IF X THEN END_IF",
    "IF X THEN A:=1 END_IF;",
    "IF X THEN A:=1; END_IF;",
    "IF X A:=1; END_IF;",
    "IF THEN A:=1; END_IF;",
    "IF X THEN ; ELSE ; END_IF;",
    "IF X THEN ELSIF Y THEN END_IF;",
    "IF X THEN ELSIF Y THEN ELSIF Z THEN ELSE END_IF;",
    "IF X THEN ELSE ELSIF Y THEN END_IF;",
    "IF X THEN ELSE ELSE END_IF;",
    "IF X THEN ELSE IF Y THEN END_IF; END_IF;",
    "IF X THEN ELSE IF Y THEN END_IF;",
    "IF X THEN IF Y THEN ELSE END_IF; ELSE END_IF;",
    "IF X THEN END_CASE;",
    "IF X; THEN END_IF;",
    "CASE A OF 1: END_CASE;",
    "CASE A OF 1: ; END_CASE;",
    "CASE A OF 1: A:=1; 2: A:=2; ELSE A:=3; END_CASE;",
    "CASE A OF 1: A:=1 2: A:=2; END_CASE;",
    "CASE A OF END_CASE;",
    "CASE A OF ELSE END_CASE;",
    "CASE A OF ELSE A:=1; END_CASE;",
    "CASE A OF 1: ELSE ELSE END_CASE;",
    "CASE A OF 1: ELSE 2: END_CASE;",
    "CASE A OF 1:=2; END_CASE;",
    "CASE A OF 1 : =2; END_CASE;",
    "CASE A OF B: END_CASE;",
    "CASE A OF (1): END_CASE;",
    "CASE A OF -1,+2,TRUE,FALSE: END_CASE;",
    "CASE A OF - 1..+ 2: END_CASE;",
    "CASE A OF --1: END_CASE;",
    "CASE A OF -TRUE: END_CASE;",
    "CASE A OF NOT TRUE: END_CASE;",
    "CASE A OF 1+1: END_CASE;",
    "CASE A OF 1: CASE B OF 2: END_CASE; 3: END_CASE;",
    "CASE A, B OF 1: END_CASE;",
    "FOR I:=1 TO 2 DO END_FOR;",
    "FOR I:=1 TO 2 BY 3 DO END_FOR;",
    "FOR I:=1 TO 2 BY -3 DO ; END_FOR;",
    "FOR I:=1 TO 2 BY TRUE DO END_FOR;",
    "FOR I:=1 TO 2 BY (3) DO END_FOR;",
    "FOR I:=1 TO 2 BY A DO END_FOR;",
    "FOR I:=1 BY 3 TO 2 DO END_FOR;",
    "FOR I=1 TO 2 DO END_FOR;",
    "FOR I:=A+B*2 TO -(C) DO EXIT; END_FOR;",
    "FOR (I):=1 TO 2 DO END_FOR;",
    "WHILE X DO END_WHILE;",
    "WHILE X; DO END_WHILE;",
    "WHILE X AND Y DO A:=A+1; EXIT; END_WHILE;",
    "REPEAT UNTIL X END_REPEAT;",
    "REPEAT A:=1; UNTIL X; END_REPEAT;",
    "REPEAT A:=1; UNTIL NOT X END_REPEAT;",
    "EXIT;",
    "EXIT A;",
];

const PROGRAMS: [&str; 41] = [
    "PROGRAM P END_PROGRAM",
    "program p end_program",
    "PROGRAM P END_PROGRAM;",
    "PROGRAM P; END_PROGRAM",
    "PROGRAM P END_PROGRAM PROGRAM P END_PROGRAM",
    "PROGRAM END_PROGRAM",
    "PROGRAM 1 END_PROGRAM",
    "PROGRAM P Q END_PROGRAM",
    "PROGRAMP END_PROGRAM",
    "PROGRAM P END PROGRAM",
    "VAR A:DINT; END_VAR",
    "A:=1;",
    "END_PROGRAM",
    "PROGRAM P VAR END_VAR END_PROGRAM",
    "PROGRAM P VAR ; END_VAR END_PROGRAM",
    "PROGRAM P VAR A:DINT END_VAR END_PROGRAM",
    "PROGRAM P VAR A:DINT;; END_VAR END_PROGRAM",
    "PROGRAM P VAR A,B:DINT; END_VAR END_PROGRAM",
    "PROGRAM P VAR A:DINT; B:BOOL; END_VAR END_PROGRAM",
    "PROGRAM P VAR A:DINT; END_VAR; END_PROGRAM",
    "PROGRAM P VAR A:DINT; END_VAR VAR B:DINT; END_VAR END_PROGRAM",
    "PROGRAM P A:=1; VAR B:DINT; END_VAR END_PROGRAM",
    "PROGRAM P VAR A:DINT; END_PROGRAM",
    "PROGRAM P VAR A:INT; END_VAR END_PROGRAM",
    "PROGRAM P VAR A:A; END_VAR END_PROGRAM",
    "PROGRAM P VAR A DINT; END_VAR END_PROGRAM",
    "PROGRAM P VAR A:=1; END_VAR END_PROGRAM",
    "PROGRAM P VAR A:DINT=1; END_VAR END_PROGRAM",
    "PROGRAM P VAR A:DINT:=; END_VAR END_PROGRAM",
    "PROGRAM P VAR A:DINT:=B; END_VAR END_PROGRAM",
    "PROGRAM P VAR A:DINT:=1+1; END_VAR END_PROGRAM",
    "PROGRAM P VAR A:DINT:=(1); END_VAR END_PROGRAM",
    "PROGRAM P VAR A:DINT:=--1; END_VAR END_PROGRAM",
    "PROGRAM P VAR A:DINT:=-+1; END_VAR END_PROGRAM",
    "PROGRAM P VAR A:DINT:=-2147483648; B:DINT:=+1; C:DINT:=- 1; END_VAR END_PROGRAM",
    "PROGRAM P VAR A:BOOL:=TRUE; B:BOOL:=false; C:BOOL; END_VAR END_PROGRAM",
    "PROGRAM P VAR A:BOOL:=-TRUE; END_VAR END_PROGRAM",
    "PROGRAM P VAR A:BOOL:=NOT TRUE; END_VAR END_PROGRAM",
    "PROGRAM P VAR A:BOOL:=1; A:DINT:=TRUE; END_VAR END_PROGRAM",
    "PROGRAM P VAR P:DINT; END_VAR P:=P; END_PROGRAM",
    "PROGRAM\tP\rVAR\nA:DINT;\u{0C}END_VAR\r\nA:=A+1;\tEND_PROGRAM\n",
];

/// Every reserved word in its place.
const ALL_WORDS: &str = "PROGRAM P VAR A:DINT; X:BOOL; END_VAR IF X AND TRUE THEN EXIT; ELSIF \
    NOT X OR X XOR FALSE THEN ; ELSE A:=A MOD 2; END_IF; CASE A OF 1: ; END_CASE; FOR A:=1 TO 2 \
    BY 3 DO END_FOR; WHILE X DO END_WHILE; REPEAT UNTIL X END_REPEAT; END_PROGRAM";

/// Statements and programs, good and bad, one by one.
fn written() -> Texts {
    let statements = STATEMENTS.iter().map(|statements| program(statements));
    let programs = PROGRAMS.iter().map(|program| program.to_string());
    let words = [ALL_WORDS.to_string(), small(ALL_WORDS), mixed(ALL_WORDS)];
    texts(statements.chain(programs).chain(words))
}

// Nesting.

fn in_parentheses(inside: &str, count: usize) -> String {
    format!("{}{inside}{}", "(".repeat(count), ")".repeat(count))
}

/// Parentheses next to the most, wherever an expression may stand.
fn parentheses() -> Texts {
    let mut found = Vec::new();
    for count in PARENTHESES_LIMIT - 1..=PARENTHESES_LIMIT + 2 {
        let operand = in_parentheses("A", count);
        for expression in [
            operand.clone(),
            format!("-{operand}"),
            format!("B+{operand}*C"),
            format!("{operand}=NOT {operand}"),
            format!("(B)+{operand}-(C)"),
            in_parentheses("-(B)", count - 1),
            in_parentheses("B+(C)", count - 1),
            in_parentheses("(B)+C", count - 1),
            in_parentheses("", count),
            in_parentheses("A+", count),
            format!("{operand})"),
            format!("({operand}"),
            "(".repeat(count),
        ] {
            found.push(assigned(&expression));
        }
        found.push(program(&format!("IF {operand} THEN END_IF;")));
        found.push(program(&format!("IF X THEN ELSIF {operand} THEN END_IF;")));
        found.push(program(&format!("CASE {operand} OF 1: END_CASE;")));
        found.push(program(&format!("FOR I:={operand} TO 1 DO END_FOR;")));
        found.push(program(&format!("FOR I:=1 TO {operand} DO END_FOR;")));
        found.push(program(&format!("WHILE {operand} DO END_WHILE;")));
        found.push(program(&format!("REPEAT UNTIL {operand} END_REPEAT;")));
        found.push(program(&format!("A:=1; A:={operand}; B:=$;")));
        found.push(program(&format!("A:=1 A:={operand};")));
        found.push(program(&format!("{operand}:=1;")));
    }
    texts(found)
}

/// What stands before and behind a list one level deeper.
const NESTED: [(&str, &str); 7] = [
    ("IF X THEN ", "END_IF;"),
    ("IF X THEN ELSIF X THEN ", "END_IF;"),
    ("IF X THEN ELSE ", "END_IF;"),
    ("CASE A OF 1: ", "END_CASE;"),
    ("CASE A OF 1: ELSE ", "END_CASE;"),
    ("WHILE X DO ", "END_WHILE;"),
    ("REPEAT ", "UNTIL X END_REPEAT;"),
];

const FOR: (&str, &str) = ("FOR I:=1 TO 2 DO ", "END_FOR;");

/// A list within these, the first outermost.
fn within(levels: &[(&str, &str)], inside: &str) -> String {
    let before: String = levels.iter().map(|(before, _)| *before).collect();
    let behind: String = levels.iter().rev().map(|(_, behind)| *behind).collect();
    format!("{before}{inside}{behind}")
}

/// Statements next to the deepest nesting, of each kind and of all kinds.
fn nesting() -> Texts {
    let mut found = Vec::new();
    for count in [NESTING_LIMIT, NESTING_LIMIT + 1] {
        for level in NESTED {
            found.push(program(&within(&vec![level; count], "")));
            found.push(program(&level.0.repeat(count)));
        }
        let all: Vec<_> = NESTED.iter().copied().cycle().take(count).collect();
        found.push(program(&within(&all, "A:=((B));")));
        found.push(program(&within(&all, "EXIT")));
        let ifs = vec![NESTED[0]; count];
        found.push(program(&within(&ifs, "$")));
        found.push(program(&within(&ifs, "A:=;")));
        found.push(program(&within(
            &ifs,
            &format!("A:={};", in_parentheses("B", 16)),
        )));
        found.push(program(&format!("A:=; {}", within(&ifs, ""))));
        // What is closed counts no more.
        let mut again = within(&ifs[1..], "");
        again.push_str(&within(&ifs[..NESTING_LIMIT], ""));
        found.push(program(&again));
        // The last is one of these in the others' list.
        for level in NESTED {
            let mut levels = vec![NESTED[0]; count - 1];
            levels.push(level);
            found.push(program(&within(&levels, "")));
        }
    }
    texts(found)
}

/// FORs next to the most, by themselves and among others.
fn fors() -> Texts {
    let mut found = Vec::new();
    for count in FOR_LIMIT - 1..=FOR_LIMIT + 2 {
        let only = vec![FOR; count];
        found.push(program(&within(&only, "")));
        found.push(program(&within(&only, "A:=1;")));
        found.push(program(&FOR.0.repeat(count)));
        found.push(program(&format!(
            "{} {}",
            within(&only[1..], ""),
            within(&only, "")
        )));
        for level in [NESTED[0], NESTED[3], NESTED[5], NESTED[6]] {
            let mut inner = only.clone();
            inner.push(level);
            found.push(program(&within(&inner, "")));
            let mut between = only.clone();
            between.insert(count - 1, level);
            found.push(program(&within(&between, "")));
        }
        // Together with so many others that both limits are met at once.
        for others in [NESTING_LIMIT - FOR_LIMIT, NESTING_LIMIT - FOR_LIMIT + 1] {
            let mut levels = vec![NESTED[5]; others];
            levels.extend(&only);
            found.push(program(&within(&levels, "")));
        }
    }
    texts(found)
}

/// All of them.
pub fn all() -> Texts {
    let tokens = [
        lengths(),
        names(),
        reserved_words(),
        integers(),
        bytes(),
        symbols(),
        comments(),
        order(),
    ];
    let syntax = [continuations(), operators(), chains(), written()];
    let nesting = [parentheses(), nesting(), fors()];
    [tokens.concat(), syntax.concat(), nesting.concat()].concat()
}
