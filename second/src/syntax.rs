//! Tokens into a tree: the grammar, with number 5, and number 10 for nesting.

use crate::numbers::{refuse, Fault, Refusal, FOR_LIMIT, NESTING_LIMIT, PARENTHESES_LIMIT};
use crate::program::{Binary, Type, Unary};
use crate::tokens::{Kind, Token};

#[derive(Clone, Debug)]
pub struct Name {
    pub place: usize,
    pub spelling: String,
}

/// TRUE, FALSE, or an integer with `-`, `+` or nothing before it.
#[derive(Clone, Debug)]
pub struct Constant {
    /// The first byte, a sign included.
    pub place: usize,
    pub value: ConstantValue,
}

#[derive(Clone, Debug)]
pub enum ConstantValue {
    Truth(bool),
    Integer {
        /// The integer itself, without its sign.
        place: usize,
        negative: bool,
        magnitude: u32,
    },
}

#[derive(Clone, Debug)]
pub struct Declaration {
    pub name: Name,
    pub kind: Type,
    pub initial: Option<Constant>,
}

#[derive(Clone, Debug)]
pub enum Expression {
    Name(Name),
    Integer {
        place: usize,
        magnitude: u32,
    },
    Truth {
        place: usize,
        value: bool,
    },
    Parentheses {
        /// The `(`.
        place: usize,
        inside: Box<Expression>,
    },
    Unary(Operator<Unary>, Box<Expression>),
    /// Operators of one level, grouped from the left.
    Chain(Box<Expression>, Vec<(Operator<Binary>, Expression)>),
}

#[derive(Clone, Debug)]
pub struct Operator<Of> {
    pub place: usize,
    pub meaning: Of,
}

/// An expression that a statement holds, with its first byte.
#[derive(Clone, Debug)]
pub struct Whole {
    pub place: usize,
    pub expression: Expression,
}

#[derive(Clone, Debug)]
pub struct Branch {
    pub condition: Whole,
    pub list: Vec<Statement>,
}

#[derive(Clone, Debug)]
pub struct Label {
    pub low: Constant,
    pub high: Option<Constant>,
}

#[derive(Clone, Debug)]
pub struct Group {
    pub labels: Vec<Label>,
    pub list: Vec<Statement>,
}

#[derive(Clone, Debug)]
pub struct For {
    pub name: Name,
    pub initial: Whole,
    pub final_value: Whole,
    pub step: Option<Constant>,
    pub body: Vec<Statement>,
}

#[derive(Clone, Debug)]
pub enum Statement {
    Assignment {
        name: Name,
        value: Whole,
    },
    If {
        branches: Vec<Branch>,
        otherwise: Option<Vec<Statement>>,
    },
    Case {
        selector: Whole,
        groups: Vec<Group>,
        otherwise: Option<Vec<Statement>>,
    },
    For(For),
    While {
        condition: Whole,
        body: Vec<Statement>,
    },
    Repeat {
        body: Vec<Statement>,
        condition: Whole,
    },
    Exit {
        place: usize,
    },
}

#[derive(Clone, Debug)]
pub struct Tree {
    pub declarations: Vec<Declaration>,
    pub list: Vec<Statement>,
}

type Level = &'static [(&'static str, Binary)];

/// The binary operators, loosest level first.
const LEVELS: [Level; 7] = [
    &[("OR", Binary::Or)],
    &[("XOR", Binary::Xor)],
    &[("AND", Binary::And), ("&", Binary::And)],
    &[("=", Binary::Equal), ("<>", Binary::NotEqual)],
    &[
        ("<", Binary::Less),
        (">", Binary::Greater),
        ("<=", Binary::LessOrEqual),
        (">=", Binary::GreaterOrEqual),
    ],
    &[("+", Binary::Add), ("-", Binary::Subtract)],
    &[
        ("*", Binary::Times),
        ("/", Binary::Divide),
        ("MOD", Binary::Mod),
    ],
];

const UNARY: [(&str, Unary); 3] = [("-", Unary::Minus), ("+", Unary::Plus), ("NOT", Unary::Not)];

struct Reader<'t> {
    tokens: &'t [Token],
    text_length: usize,
    /// How many tokens have been read.
    read: usize,
    /// Parentheses open in this expression.
    parentheses: usize,
    /// IF, CASE and loops open.
    nesting: usize,
    /// FOR open.
    fors: usize,
}

impl Reader<'_> {
    fn kind(&self) -> Option<&Kind> {
        self.tokens.get(self.read).map(|token| &token.kind)
    }

    /// The place of the next token, at the end of text its length.
    fn place(&self) -> usize {
        match self.tokens.get(self.read) {
            Some(token) => token.place,
            None => self.text_length,
        }
    }

    fn at(&self, fixed: &str) -> bool {
        matches!(self.kind(), Some(Kind::Fixed(found)) if *found == fixed)
    }

    /// Reads the reserved word or symbol if it stands next.
    fn accept(&mut self, fixed: &str) -> bool {
        let found = self.at(fixed);
        if found {
            self.read += 1;
        }
        found
    }

    fn expect(&mut self, fixed: &str) -> Result<(), Refusal> {
        if self.accept(fixed) {
            Ok(())
        } else {
            self.continues_no_program()
        }
    }

    fn continues_no_program<T>(&self) -> Result<T, Refusal> {
        refuse(Fault::ContinuesNoProgram, self.place())
    }

    /// Refuses at the next token if one more of these would be nested too deep.
    fn room_for_one_more(&self, open: usize, limit: usize) -> Result<(), Refusal> {
        if open < limit {
            Ok(())
        } else {
            refuse(Fault::NestedTooDeep, self.place())
        }
    }

    fn name(&mut self) -> Result<Name, Refusal> {
        let Some(Kind::Name(spelling)) = self.kind() else {
            return self.continues_no_program();
        };
        let name = Name {
            place: self.place(),
            spelling: spelling.clone(),
        };
        self.read += 1;
        Ok(name)
    }

    fn truth(&mut self) -> Option<bool> {
        let value = self.at("TRUE");
        (self.accept("TRUE") || self.accept("FALSE")).then_some(value)
    }

    fn at_constant(&self) -> bool {
        let fixed = ["TRUE", "FALSE", "-", "+"];
        matches!(self.kind(), Some(Kind::Integer(_))) || fixed.iter().any(|word| self.at(word))
    }

    fn constant(&mut self) -> Result<Constant, Refusal> {
        let place = self.place();
        if let Some(value) = self.truth() {
            let value = ConstantValue::Truth(value);
            return Ok(Constant { place, value });
        }
        let negative = self.accept("-");
        if !negative {
            self.accept("+");
        }
        let Some(&Kind::Integer(magnitude)) = self.kind() else {
            return self.continues_no_program();
        };
        let value = ConstantValue::Integer {
            place: self.place(),
            negative,
            magnitude,
        };
        self.read += 1;
        Ok(Constant { place, value })
    }

    // Expressions.

    fn parentheses(&mut self) -> Result<Expression, Refusal> {
        self.room_for_one_more(self.parentheses, PARENTHESES_LIMIT)?;
        let place = self.place();
        self.expect("(")?;
        self.parentheses += 1;
        let inside = Box::new(self.expression(&LEVELS)?);
        self.expect(")")?;
        self.parentheses -= 1;
        Ok(Expression::Parentheses { place, inside })
    }

    fn operand(&mut self) -> Result<Expression, Refusal> {
        if self.at("(") {
            return self.parentheses();
        }
        let place = self.place();
        if let Some(value) = self.truth() {
            return Ok(Expression::Truth { place, value });
        }
        if let Some(&Kind::Integer(magnitude)) = self.kind() {
            self.read += 1;
            return Ok(Expression::Integer { place, magnitude });
        }
        Ok(Expression::Name(self.name()?))
    }

    fn signed_operand(&mut self) -> Result<Expression, Refusal> {
        let place = self.place();
        for (symbol, meaning) in UNARY {
            if self.accept(symbol) {
                let operator = Operator { place, meaning };
                let operand = self.operand()?;
                return Ok(Expression::Unary(operator, Box::new(operand)));
            }
        }
        self.operand()
    }

    fn binary_operator(&mut self, level: Level) -> Option<Operator<Binary>> {
        let place = self.place();
        for &(symbol, meaning) in level {
            if self.accept(symbol) {
                return Some(Operator { place, meaning });
            }
        }
        None
    }

    /// An expression whose operators are of these levels.
    fn expression(&mut self, levels: &[Level]) -> Result<Expression, Refusal> {
        let Some((&level, tighter)) = levels.split_first() else {
            return self.signed_operand();
        };
        let first = self.expression(tighter)?;
        let mut rest = Vec::new();
        while let Some(operator) = self.binary_operator(level) {
            rest.push((operator, self.expression(tighter)?));
        }
        if rest.is_empty() {
            Ok(first)
        } else {
            Ok(Expression::Chain(Box::new(first), rest))
        }
    }

    fn whole(&mut self) -> Result<Whole, Refusal> {
        let place = self.place();
        let expression = self.expression(&LEVELS)?;
        Ok(Whole { place, expression })
    }

    // Statements.

    fn assignment(&mut self) -> Result<Statement, Refusal> {
        let name = self.name()?;
        self.expect(":=")?;
        let value = self.whole()?;
        Ok(Statement::Assignment { name, value })
    }

    fn branch(&mut self) -> Result<Branch, Refusal> {
        let condition = self.whole()?;
        self.expect("THEN")?;
        let list = self.list()?;
        Ok(Branch { condition, list })
    }

    /// ELSE and its list, if wanted.
    fn otherwise(&mut self) -> Result<Option<Vec<Statement>>, Refusal> {
        if self.accept("ELSE") {
            Ok(Some(self.list()?))
        } else {
            Ok(None)
        }
    }

    fn if_statement(&mut self) -> Result<Statement, Refusal> {
        self.expect("IF")?;
        let mut branches = vec![self.branch()?];
        while self.accept("ELSIF") {
            branches.push(self.branch()?);
        }
        let otherwise = self.otherwise()?;
        self.expect("END_IF")?;
        Ok(Statement::If {
            branches,
            otherwise,
        })
    }

    fn label(&mut self) -> Result<Label, Refusal> {
        let low = self.constant()?;
        let high = if self.accept("..") {
            Some(self.constant()?)
        } else {
            None
        };
        Ok(Label { low, high })
    }

    fn group(&mut self) -> Result<Group, Refusal> {
        let mut labels = vec![self.label()?];
        while self.accept(",") {
            labels.push(self.label()?);
        }
        self.expect(":")?;
        let list = self.list()?;
        Ok(Group { labels, list })
    }

    fn case_statement(&mut self) -> Result<Statement, Refusal> {
        self.expect("CASE")?;
        let selector = self.whole()?;
        self.expect("OF")?;
        let mut groups = vec![self.group()?];
        while self.at_constant() {
            groups.push(self.group()?);
        }
        let otherwise = self.otherwise()?;
        self.expect("END_CASE")?;
        Ok(Statement::Case {
            selector,
            groups,
            otherwise,
        })
    }

    fn for_statement(&mut self) -> Result<Statement, Refusal> {
        self.room_for_one_more(self.fors, FOR_LIMIT)?;
        self.expect("FOR")?;
        self.fors += 1;
        let name = self.name()?;
        self.expect(":=")?;
        let initial = self.whole()?;
        self.expect("TO")?;
        let final_value = self.whole()?;
        let step = if self.accept("BY") {
            Some(self.constant()?)
        } else {
            None
        };
        self.expect("DO")?;
        let body = self.list()?;
        self.expect("END_FOR")?;
        self.fors -= 1;
        Ok(Statement::For(For {
            name,
            initial,
            final_value,
            step,
            body,
        }))
    }

    fn while_statement(&mut self) -> Result<Statement, Refusal> {
        self.expect("WHILE")?;
        let condition = self.whole()?;
        self.expect("DO")?;
        let body = self.list()?;
        self.expect("END_WHILE")?;
        Ok(Statement::While { condition, body })
    }

    fn repeat_statement(&mut self) -> Result<Statement, Refusal> {
        self.expect("REPEAT")?;
        let body = self.list()?;
        self.expect("UNTIL")?;
        let condition = self.whole()?;
        self.expect("END_REPEAT")?;
        Ok(Statement::Repeat { body, condition })
    }

    /// An IF, CASE or loop, one level deeper.
    fn nested(
        &mut self,
        read: fn(&mut Self) -> Result<Statement, Refusal>,
    ) -> Result<Statement, Refusal> {
        self.room_for_one_more(self.nesting, NESTING_LIMIT)?;
        self.nesting += 1;
        let statement = read(self)?;
        self.nesting -= 1;
        Ok(statement)
    }

    fn exit(&mut self) -> Result<Statement, Refusal> {
        let place = self.place();
        self.expect("EXIT")?;
        Ok(Statement::Exit { place })
    }

    /// The statement that begins here, if one does.
    fn statement(&mut self) -> Result<Option<Statement>, Refusal> {
        let statement = match self.kind() {
            Some(Kind::Name(_)) => self.assignment()?,
            Some(Kind::Fixed("IF")) => self.nested(Self::if_statement)?,
            Some(Kind::Fixed("CASE")) => self.nested(Self::case_statement)?,
            Some(Kind::Fixed("FOR")) => self.nested(Self::for_statement)?,
            Some(Kind::Fixed("WHILE")) => self.nested(Self::while_statement)?,
            Some(Kind::Fixed("REPEAT")) => self.nested(Self::repeat_statement)?,
            Some(Kind::Fixed("EXIT")) => self.exit()?,
            _ => return Ok(None),
        };
        Ok(Some(statement))
    }

    fn list(&mut self) -> Result<Vec<Statement>, Refusal> {
        let mut list = Vec::new();
        loop {
            if self.accept(";") {
                continue;
            }
            let Some(statement) = self.statement()? else {
                return Ok(list);
            };
            self.expect(";")?;
            list.push(statement);
        }
    }

    // The program.

    fn type_name(&mut self) -> Result<Type, Refusal> {
        if self.accept("BOOL") {
            Ok(Type::Bool)
        } else if self.accept("DINT") {
            Ok(Type::Dint)
        } else {
            self.continues_no_program()
        }
    }

    fn declaration(&mut self) -> Result<Declaration, Refusal> {
        let name = self.name()?;
        self.expect(":")?;
        let kind = self.type_name()?;
        let initial = if self.accept(":=") {
            Some(self.constant()?)
        } else {
            None
        };
        self.expect(";")?;
        Ok(Declaration {
            name,
            kind,
            initial,
        })
    }

    fn declarations(&mut self) -> Result<Vec<Declaration>, Refusal> {
        let mut declarations = Vec::new();
        if self.accept("VAR") {
            while !self.accept("END_VAR") {
                declarations.push(self.declaration()?);
            }
        }
        Ok(declarations)
    }

    fn program(&mut self) -> Result<Tree, Refusal> {
        self.expect("PROGRAM")?;
        self.name()?;
        let declarations = self.declarations()?;
        let list = self.list()?;
        self.expect("END_PROGRAM")?;
        if self.kind().is_some() {
            return self.continues_no_program();
        }
        Ok(Tree { declarations, list })
    }
}

/// The tree of a text's tokens, or the first token that continues no program or nests too deep.
pub fn tree(tokens: &[Token], text_length: usize) -> Result<Tree, Refusal> {
    let mut reader = Reader {
        tokens,
        text_length,
        read: 0,
        parentheses: 0,
        nesting: 0,
        fors: 0,
    };
    reader.program()
}
