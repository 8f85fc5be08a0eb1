//! The codes of the machine, in the order of the rules, with the lengths of their operands.

pub const TICK: u8 = 0x01;
pub const CONST: u8 = 0x02;
pub const LOAD: u8 = 0x03;
pub const STORE: u8 = 0x04;
pub const NEG: u8 = 0x05;
pub const NOT: u8 = 0x06;
pub const MUL: u8 = 0x07;
pub const DIV: u8 = 0x08;
pub const MOD: u8 = 0x09;
pub const ADD: u8 = 0x0A;
pub const SUB: u8 = 0x0B;
pub const LT: u8 = 0x0C;
pub const GT: u8 = 0x0D;
pub const LE: u8 = 0x0E;
pub const GE: u8 = 0x0F;
pub const EQ: u8 = 0x10;
pub const NE: u8 = 0x11;
pub const AND: u8 = 0x12;
pub const XOR: u8 = 0x13;
pub const OR: u8 = 0x14;
pub const JUMP: u8 = 0x15;
/// Pop, jump if 0.
pub const JUMP_IF_ZERO: u8 = 0x16;
pub const SPAN: u8 = 0x17;
/// Pop, jump if not 0.
pub const JUMP_IF_NOT_ZERO: u8 = 0x18;
pub const DROP: u8 = 0x19;
pub const HOLD: u8 = 0x1A;
pub const FIRST: u8 = 0x1B;
pub const NEXT: u8 = 0x1C;
pub const HALT: u8 = 0x1D;

/// How many operand bytes follow a code: slot and level one, a target two, values and step four.
pub fn operand_length(code: u8) -> Option<usize> {
    match code {
        TICK | NEG..=OR | DROP | HALT => Some(0),
        LOAD | STORE | HOLD => Some(1),
        JUMP | JUMP_IF_ZERO | JUMP_IF_NOT_ZERO => Some(2),
        CONST => Some(4),
        SPAN => Some(4 + 4),
        FIRST | NEXT => Some(1 + 1 + 4 + 2),
        _ => None,
    }
}
