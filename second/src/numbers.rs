//! The numbers given back, and the limits they guard.

/// Number 1: the longest text.
pub const TEXT_LIMIT: usize = 16_384;
/// Number 3: the longest name.
pub const NAME_LIMIT: usize = 32;
/// Number 4: the largest integer a text may write, good only after `-` in a constant.
pub const INTEGER_LIMIT: u32 = 2_147_483_648;
/// Number 9: the most variables.
pub const VARIABLE_LIMIT: usize = 64;
/// Number 10: the most parentheses open at once.
pub const PARENTHESES_LIMIT: usize = 16;
/// Number 10: the most IF, CASE and loops open at once.
pub const NESTING_LIMIT: usize = 16;
/// Number 10: the most FOR open at once, and the machine's held final values.
pub const FOR_LIMIT: usize = 8;
/// Number 10: the largest stack height, and the machine's stack.
pub const STACK_LIMIT: usize = 32;
/// Number 13: the longest code.
pub const CODE_LIMIT: usize = 8_192;
/// Number 17: the published length of working memory.
pub const WORKING_MEMORY_LENGTH: usize = 1_048_576;
/// The longest image: three record heads, 64 variables, the longest code and the two figures.
pub const IMAGE_LIMIT: usize = 3 * 4 + 5 * VARIABLE_LIMIT + CODE_LIMIT + 6;
/// The largest worst case that is stated.
pub const WORST_CASE_LIMIT: u32 = 4_000_000_000;
/// The worst case of a text that has none, or one over the limit.
pub const UNBOUNDED: u32 = 4_294_967_295;

/// Why a text is refused.
#[derive(Clone, Copy, Debug, PartialEq, Eq)]
pub enum Fault {
    TextTooLong = 1,
    NoToken = 2,
    BadName = 3,
    BadInteger = 4,
    ContinuesNoProgram = 5,
    DeclaredTwice = 6,
    UnknownName = 7,
    WrongType = 8,
    TooManyVariables = 9,
    NestedTooDeep = 10,
    ForVariableChanged = 11,
    ExitOutsideLoop = 12,
    CodeTooLong = 13,
    ImageDoesNotFit = 14,
    StepZero = 15,
    LowAboveHigh = 16,
    WorkingMemoryShort = 17,
}

impl Fault {
    pub fn number(self) -> u8 {
        self as u8
    }
}

/// A refused text: the number, and the place as an offset in the text.
#[derive(Clone, Copy, Debug, PartialEq, Eq)]
pub struct Refusal {
    pub fault: Fault,
    pub place: usize,
}

/// Refuses at a place.
pub fn refuse<T>(fault: Fault, place: usize) -> Result<T, Refusal> {
    Err(Refusal { fault, place })
}

/// How a run ends, or why an image or a table is not taken.
#[derive(Clone, Copy, Debug, PartialEq, Eq)]
pub enum Outcome {
    Done = 0,
    Spent = 20,
    Range = 21,
    Divide = 22,
    BadImage = 23,
    BadTable = 24,
    BadCode = 25,
}

impl Outcome {
    pub fn number(self) -> u8 {
        self as u8
    }
}
