//! Valid texts: every statement, every operator, every way to write an integer.

use super::random::Random;
use crate::numbers::{FOR_LIMIT, NAME_LIMIT, NESTING_LIMIT, PARENTHESES_LIMIT};
use crate::program::Type;
use crate::tokens::RESERVED;

/// How tightly the operators bind, loosest 1; an operand is 9, one with a sign 8.
const OPERAND: usize = 9;
const SIGNED: usize = 8;
const ARITHMETIC: [(&str, usize); 5] = [("*", 7), ("/", 7), ("MOD", 7), ("+", 6), ("-", 6)];
const ORDER: [(&str, usize); 4] = [("<", 5), (">", 5), ("<=", 5), (">=", 5)];
const EQUALITY: [(&str, usize); 2] = [("=", 4), ("<>", 4)];
const LOGIC: [(&str, usize); 4] = [("AND", 3), ("&", 3), ("XOR", 2), ("OR", 1)];
const BOUNDS: [&str; 6] = ["-2147483647", "2147483647", "2147483646", "0", "-1", "1"];
const STEPS: [&str; 8] = [
    "1",
    "-1",
    "2",
    "-3",
    "4",
    "2147483647",
    "-2147483648",
    "-2147483647",
];
const PLAIN_NAMES: [&str; 8] = ["A", "B", "I", "END", "INT", "LF", "_1", "RETURN"];

/// Writes the tokens of one text.
pub struct Writer<'r> {
    random: &'r mut Random,
    tokens: Vec<String>,
    names: Vec<(String, Type)>,
    /// The variables of the enclosing FORs.
    enclosing_fors: Vec<String>,
    loops: usize,
    nesting: usize,
    parentheses: usize,
    /// How many more statements may be written.
    statements_left: usize,
}

fn digits_in(base: u32, mut value: u32) -> Vec<char> {
    let mut digits = Vec::new();
    while value > 0 || digits.is_empty() {
        digits.extend(char::from_digit(value % base, base));
        value /= base;
    }
    digits.reverse();
    digits
}

/// A number in some base, with zeros before it and underscores in it now and then.
fn spelled(random: &mut Random, value: u32) -> String {
    let (prefix, base) = random.pick(&[
        ("", 10),
        ("", 10),
        ("", 10),
        ("2#", 2),
        ("8#", 8),
        ("16#", 16),
    ]);
    let mut digits = digits_in(base, value);
    if random.percent(10) {
        digits.splice(0..0, ['0', '0']);
    }
    let mut spelled = prefix.to_string();
    for (index, digit) in digits.into_iter().enumerate() {
        if index > 0 && random.percent(5) {
            spelled.push('_');
        }
        spelled.push(digit);
    }
    spelled
}

fn long_name(random: &mut Random) -> String {
    let length = 1 + random.below(NAME_LIMIT);
    let mut name = String::from(random.pick(&["Q", "_z", "K"]));
    while name.len() < length {
        let underscore = !name.ends_with('_') && name.len() + 1 < length && random.percent(20);
        let letters = ["a", "Z", "0", "9", "x"];
        name.push_str(if underscore {
            "_"
        } else {
            random.pick(&letters)
        });
    }
    name
}

fn some_name(random: &mut Random) -> String {
    if random.percent(70) {
        random.pick(&PLAIN_NAMES).to_string()
    } else {
        long_name(random)
    }
}

impl<'r> Writer<'r> {
    fn new(random: &'r mut Random, statements: usize) -> Writer<'r> {
        Writer {
            random,
            tokens: Vec::new(),
            names: Vec::new(),
            enclosing_fors: Vec::new(),
            loops: 0,
            nesting: 0,
            parentheses: 0,
            statements_left: statements,
        }
    }

    fn write(&mut self, token: &str) {
        self.tokens.push(token.to_string());
    }

    /// Writes tokens parted by spaces.
    fn write_all(&mut self, tokens: &str) {
        for token in tokens.split(' ') {
            self.write(token);
        }
    }

    fn integer(&mut self, value: u32) {
        let spelled = spelled(self.random, value);
        self.tokens.push(spelled);
    }

    /// A constant with its sign as a token of its own.
    fn constant(&mut self, value: i32) {
        if value < 0 {
            self.write("-");
        } else if self.random.percent(15) {
            self.write("+");
        }
        self.integer(value.unsigned_abs());
    }

    // Declarations.

    fn new_name(&mut self) -> String {
        loop {
            let name = some_name(self.random);
            let capitals = name.to_ascii_uppercase();
            let taken = self.names.iter().any(|(known, _)| *known == capitals);
            if !taken && !RESERVED.contains(&capitals.as_str()) {
                return capitals;
            }
        }
    }

    fn initial(&mut self, kind: Type) {
        self.write(":=");
        if kind == Type::Dint {
            let value = self.random.value();
            self.constant(value);
        } else {
            let truth = self.random.pick(&["TRUE", "FALSE"]);
            self.write(truth);
        }
    }

    fn declaration(&mut self) {
        let name = self.new_name();
        let kind = self.random.pick(&[Type::Dint, Type::Dint, Type::Bool]);
        self.write(&name);
        self.write(":");
        self.write(if kind == Type::Dint { "DINT" } else { "BOOL" });
        if self.random.percent(30) {
            self.initial(kind);
        }
        self.write(";");
        self.names.push((name, kind));
    }

    fn declarations(&mut self) {
        let count = match self.random.below(20) {
            0 => 0,
            1 => 64,
            2 => self.random.below(65),
            _ => 1 + self.random.below(7),
        };
        if count > 0 || self.random.percent(50) {
            self.write("VAR");
            for _ in 0..count {
                self.declaration();
            }
            self.write("END_VAR");
        }
    }

    // Expressions.

    fn variable(&mut self, kind: Type) -> Option<String> {
        let of_kind = self.names.iter().filter(|(_, found)| *found == kind);
        let names: Vec<String> = of_kind.map(|(name, _)| name.clone()).collect();
        (!names.is_empty()).then(|| self.random.pick(&names))
    }

    fn operand(&mut self, kind: Type) {
        let variable = self.variable(kind);
        match (variable, kind) {
            (Some(name), _) if self.random.percent(65) => self.write(&name),
            (_, Type::Bool) => {
                let truth = self.random.pick(&["TRUE", "FALSE"]);
                self.write(truth);
            }
            (_, Type::Dint) if self.random.percent(8) => {
                let extreme = self.random.pick(&[2147483647, 2147483646, 65536, 46341]);
                self.integer(extreme);
            }
            (_, Type::Dint) => {
                let small = self.random.below(12) as u32;
                self.integer(small);
            }
        }
    }

    fn in_parentheses(&mut self, kind: Type, size: usize) {
        self.write("(");
        self.parentheses += 1;
        self.expression(kind, 1, size);
        self.parentheses -= 1;
        self.write(")");
    }

    /// One sign or NOT before an operand.
    fn signed(&mut self, kind: Type, size: usize) {
        let operator = match kind {
            Type::Bool => "NOT",
            Type::Dint => self.random.pick(&["-", "-", "+"]),
        };
        self.write(operator);
        self.expression(kind, OPERAND, size - 1);
    }

    /// An operator that gives this type, with how tightly it binds and what it takes.
    fn operator(&mut self, kind: Type) -> (&'static str, usize, Type) {
        let (table, takes): (&[(&'static str, usize)], Type) = match (kind, self.random.below(3)) {
            (Type::Dint, _) => (&ARITHMETIC, Type::Dint),
            (Type::Bool, 0) => (&ORDER, Type::Dint),
            (Type::Bool, 1) => (&EQUALITY, self.random.pick(&[Type::Bool, Type::Dint])),
            (Type::Bool, _) => (&LOGIC, Type::Bool),
        };
        let (symbol, binding) = self.random.pick(table);
        (symbol, binding, takes)
    }

    fn binary(&mut self, kind: Type, binding: usize, size: usize) {
        let (symbol, own, takes) = self.operator(kind);
        if own < binding {
            return self.in_some_parentheses(kind, size);
        }
        let left = self.random.below(size);
        self.expression(takes, own, left);
        self.write(symbol);
        self.expression(takes, own + 1, size - 1 - left);
    }

    fn in_some_parentheses(&mut self, kind: Type, size: usize) {
        if self.parentheses < PARENTHESES_LIMIT {
            self.in_parentheses(kind, size);
        } else {
            self.operand(kind);
        }
    }

    /// An expression of a type that binds at least so tightly, with about so many operators.
    fn expression(&mut self, kind: Type, binding: usize, size: usize) {
        if size == 0 {
            return self.operand(kind);
        }
        match self.random.below(10) {
            0 | 1 if binding <= SIGNED => self.signed(kind, size),
            2 => self.in_some_parentheses(kind, size - 1),
            _ if binding < SIGNED => self.binary(kind, binding, size),
            _ => self.in_some_parentheses(kind, size),
        }
    }

    fn whole(&mut self, kind: Type) {
        let size = match self.random.below(12) {
            0 => self.random.below(25),
            1..=5 => 0,
            _ => self.random.below(5),
        };
        self.expression(kind, 1, size);
    }

    // Statements.

    fn free_variable(&mut self, kind: Type) -> Option<String> {
        let name = self.variable(kind)?;
        (!self.enclosing_fors.contains(&name)).then_some(name)
    }

    fn assignment(&mut self) {
        let kind = self.random.pick(&[Type::Dint, Type::Dint, Type::Bool]);
        let Some(name) = self.free_variable(kind) else {
            return;
        };
        self.write(&name);
        self.write(":=");
        if kind == Type::Dint && self.random.percent(40) {
            let step = self.random.pick(&["+ 1", "- 1", "+ 2", "* 2"]);
            self.write(&name);
            self.write_all(step);
        } else {
            self.whole(kind);
        }
    }

    fn if_statement(&mut self) {
        self.write("IF");
        self.whole(Type::Bool);
        self.write("THEN");
        self.list();
        while self.random.percent(25) {
            self.write("ELSIF");
            self.whole(Type::Bool);
            self.write("THEN");
            self.list();
        }
        if self.random.percent(50) {
            self.write("ELSE");
            self.list();
        }
        self.write("END_IF");
    }

    fn label(&mut self) {
        let low = self.random.value();
        self.constant(low);
        if self.random.percent(40) {
            let width = self.random.pick(&[0, 1, 5, i32::MAX]);
            self.write("..");
            self.constant(low.saturating_add(width));
        }
    }

    fn group(&mut self) {
        self.label();
        while self.random.percent(30) {
            self.write(",");
            self.label();
        }
        self.write(":");
        self.list();
    }

    fn case_statement(&mut self) {
        self.write("CASE");
        self.whole(Type::Dint);
        self.write("OF");
        for _ in 0..1 + self.random.below(4) {
            self.group();
        }
        if self.random.percent(50) {
            self.write("ELSE");
            self.list();
        }
        self.write("END_CASE");
    }

    /// A bound as written, signs parted from their integer.
    fn extreme(&mut self, spelled: &str) {
        match spelled.strip_prefix('-') {
            Some(magnitude) => {
                self.write("-");
                self.write(magnitude);
            }
            None => self.write(spelled),
        }
    }

    fn bound(&mut self) {
        match self.random.below(10) {
            0 => {
                let bound = self.random.pick(&BOUNDS);
                self.extreme(bound);
            }
            1 => self.whole(Type::Dint),
            2 => self.in_parentheses(Type::Dint, 0),
            3 => {
                self.write("-");
                let small = self.random.below(5) as u32;
                self.integer(small);
            }
            _ => {
                let small = self.random.below(7) as u32;
                self.integer(small);
            }
        }
    }

    fn step(&mut self) {
        self.write("BY");
        if self.random.percent(30) {
            let step = self.random.pick(&STEPS);
            self.extreme(step);
        } else {
            let step = self.random.pick(&[1, 2, 3, -1, -2]);
            self.constant(step);
        }
    }

    fn for_statement(&mut self) {
        let Some(name) = self.free_variable(Type::Dint) else {
            return;
        };
        self.write("FOR");
        self.write(&name);
        self.write(":=");
        self.bound();
        self.write("TO");
        self.bound();
        if self.random.percent(50) {
            self.step();
        }
        self.write("DO");
        self.enclosing_fors.push(name);
        self.loop_body();
        self.enclosing_fors.pop();
        self.write("END_FOR");
    }

    fn loop_body(&mut self) {
        self.loops += 1;
        self.list();
        self.loops -= 1;
    }

    fn while_statement(&mut self) {
        self.write("WHILE");
        self.whole(Type::Bool);
        self.write("DO");
        self.loop_body();
        self.write("END_WHILE");
    }

    fn repeat_statement(&mut self) {
        self.write("REPEAT");
        self.loop_body();
        self.write("UNTIL");
        self.whole(Type::Bool);
        self.write("END_REPEAT");
    }

    /// An IF, CASE or loop.
    fn nested(&mut self) {
        self.nesting += 1;
        match self.random.below(8) {
            0 | 1 => self.if_statement(),
            2 | 3 => self.case_statement(),
            4 | 5 if self.enclosing_fors.len() < FOR_LIMIT => self.for_statement(),
            6 => self.while_statement(),
            _ => self.repeat_statement(),
        }
        self.nesting -= 1;
    }

    fn statement(&mut self) {
        match self.random.below(20) {
            0 => {}
            1 | 2 if self.loops > 0 => self.write("EXIT"),
            3..=9 if self.nesting < NESTING_LIMIT => self.nested(),
            _ => self.assignment(),
        }
        self.write(";");
    }

    fn list(&mut self) {
        while self.statements_left > 0 && self.random.percent(70) {
            self.statements_left -= 1;
            self.statement();
        }
    }

    fn program(mut self) -> Vec<String> {
        self.write("PROGRAM");
        let name = self.new_name();
        self.write(&name);
        self.declarations();
        while self.statements_left > 0 {
            self.list();
            // Lists end by chance, and the last ones must end too.
            self.statements_left = self.statements_left.saturating_sub(1);
        }
        self.write("END_PROGRAM");
        self.tokens
    }
}

/// The tokens of a valid text.
pub fn valid_tokens(random: &mut Random) -> Vec<String> {
    let statements = match random.below(10) {
        0 => 0,
        1 => random.below(60),
        _ => random.below(14),
    };
    Writer::new(random, statements).program()
}
