//! The instruction set as a table, and the fetch of one instruction.

use super::reach::Reach;
use super::state::Answer;

#[derive(Clone, Copy, Debug, PartialEq, Eq)]
#[rustfmt::skip]
pub enum Op {
    Nop, Drop, Dup, Swap, Over, Nip, Rot, ToR, RFetch, RFrom, PspFetch, Catch, ResetSp, Throw,
    Add, Sub, Negate, OnePlus, OneMinus, TwoSlash, AddX, SubX,
    Equal, NotEqual, Less, Greater, ULess, UGreater, ZeroEqual, ZeroNotEqual, ZeroLess, ZeroGreater,
    Zero, And, Or, Invert, Xor, ShiftLeft, ShiftRight, XByte, XWord, MultS, MultU, DivS, DivU,
    FetchL, StoreL, FetchW, StoreW, FetchB, StoreB, QDup, LoadB, LoadW, LoadL, Jmp, Jsl, Jsr,
    Rti, Exit, Pause, Beq, Bra,
}

/// What is known of an instruction by its code alone.
#[derive(Debug)]
pub struct Row {
    pub op: Op,
    pub name: &'static str,
    /// Parameter cells that must be there, even if they are only looked at.
    pub takes: usize,
    /// Parameter cells in their place afterwards.
    pub leaves: usize,
    pub bytes: u32,
    pub cycles: u64,
}

const fn row(op: Op, name: &'static str, takes: usize, leaves: usize, bytes: u32, cycles: u64) -> Row {
    Row { op, name, takes, leaves, bytes, cycles }
}

/// Codes 00 to 39, each at its own index. THROW and ?DUP leave what depends on the cell they take: `depth_after`.
#[rustfmt::skip]
static FROM_00: [Row; 0x3A] = [
    //  op                name       takes leaves bytes cycles
    row(Op::Nop,          "NOP",         0, 0,    1,    1),
    row(Op::Drop,         "DROP",        1, 0,    1,    1),
    row(Op::Dup,          "DUP",         1, 2,    1,    1),
    row(Op::Swap,         "SWAP",        2, 2,    1,    1),
    row(Op::Over,         "OVER",        2, 3,    1,    1),
    row(Op::Nip,          "NIP",         2, 1,    1,    1),
    row(Op::Rot,          "ROT",         3, 3,    1,    1),
    row(Op::ToR,          ">R",          1, 0,    1,    1),
    row(Op::RFetch,       "R@",          0, 1,    1,    1),
    row(Op::RFrom,        "R>",          0, 1,    1,    1),
    row(Op::PspFetch,     "PSP@",        0, 1,    1,    1),
    row(Op::Catch,        "CATCH",       1, 0,    1,    2),
    row(Op::ResetSp,      "RESETSP",     0, 0,    1,    1),
    row(Op::Throw,        "THROW",       1, 0,    1,    3),
    row(Op::Add,          "+",           2, 1,    1,    1),
    row(Op::Sub,          "-",           2, 1,    1,    1),
    row(Op::Negate,       "NEGATE",      1, 1,    1,    1),
    row(Op::OnePlus,      "1+",          1, 1,    1,    1),
    row(Op::OneMinus,     "1-",          1, 1,    1,    1),
    row(Op::TwoSlash,     "2/",          1, 1,    1,    1),
    row(Op::AddX,         "ADDX",        2, 1,    1,    1),
    row(Op::SubX,         "SUBX",        2, 1,    1,    1),
    row(Op::Equal,        "=",           2, 1,    1,    1),
    row(Op::NotEqual,     "<>",          2, 1,    1,    1),
    row(Op::Less,         "<",           2, 1,    1,    1),
    row(Op::Greater,      ">",           2, 1,    1,    1),
    row(Op::ULess,        "U<",          2, 1,    1,    1),
    row(Op::UGreater,     "U>",          2, 1,    1,    1),
    row(Op::ZeroEqual,    "0=",          1, 1,    1,    1),
    row(Op::ZeroNotEqual, "0<>",         1, 1,    1,    1),
    row(Op::ZeroLess,     "0<",          1, 1,    1,    1),
    row(Op::ZeroGreater,  "0>",          1, 1,    1,    1),
    row(Op::Zero,         "ZERO",        0, 1,    1,    1),
    row(Op::And,          "AND",         2, 1,    1,    1),
    row(Op::Or,           "OR",          2, 1,    1,    1),
    row(Op::Invert,       "INVERT",      1, 1,    1,    1),
    row(Op::Xor,          "XOR",         2, 1,    1,    1),
    row(Op::ShiftLeft,    "LSL",         1, 1,    1,    1),
    row(Op::ShiftRight,   "LSR",         1, 1,    1,    1),
    row(Op::XByte,        "XBYTE",       1, 1,    1,    1),
    row(Op::XWord,        "XWORD",       1, 1,    1,    1),
    row(Op::MultS,        "MULTS",       2, 2,    1,    5),
    row(Op::MultU,        "MULTU",       2, 2,    1,    5),
    row(Op::DivS,         "DIVS",        2, 2,    1,   42),
    row(Op::DivU,         "DIVU",        2, 2,    1,   41),
    row(Op::FetchL,       "FETCH.L",     1, 1,    1,    2),
    row(Op::StoreL,       "STORE.L",     2, 0,    1,    2),
    row(Op::FetchW,       "FETCH.W",     1, 1,    1,    2),
    row(Op::StoreW,       "STORE.W",     2, 0,    1,    2),
    row(Op::FetchB,       "FETCH.B",     1, 1,    1,    2),
    row(Op::StoreB,       "STORE.B",     2, 0,    1,    2),
    row(Op::QDup,         "?DUP",        1, 1,    1,    2),
    row(Op::LoadB,        "LOAD.B",      0, 1,    2,    2),
    row(Op::LoadW,        "LOAD.W",      0, 1,    3,    2),
    row(Op::LoadL,        "LOAD.L",      0, 1,    5,    2),
    row(Op::Jmp,          "JMP",         1, 0,    1,    2),
    row(Op::Jsl,          "JSL",         0, 0,    4,    2),
    row(Op::Jsr,          "JSR",         1, 0,    1,    2),
];
static RTI: Row = row(Op::Rti, "RTI", 0, 0, 1, 2);
static EXIT: Row = row(Op::Exit, "EXIT", 0, 0, 1, 2);
static PAUSE: Row = row(Op::Pause, "PAUSE", 0, 0, 1, 1);
static BEQ: Row = row(Op::Beq, "BEQ", 1, 0, 2, 2);
static BRA: Row = row(Op::Bra, "BRA", 0, 0, 2, 2);

/// The code that passes the turn on where there are turns.
pub const PAUSE_CODE: u8 = 0x3E;

/// The row of a first byte, or nothing where no instruction begins with it.
pub fn row_of(code: u8) -> Option<&'static Row> {
    match code {
        0x00..=0x39 => Some(&FROM_00[usize::from(code)]),
        0x3C => Some(&RTI),
        0x3D => Some(&EXIT),
        PAUSE_CODE => Some(&PAUSE),
        0x80..=0xBF => Some(&BEQ),
        0xC0..=0xFF => Some(&BRA),
        _ => None,
    }
}

/// One known code of every instruction: a branch is named by the lowest of its 64 codes.
pub fn known_codes() -> impl Iterator<Item = u8> {
    (0x00..=0x39).chain([0x3C, 0x3D, PAUSE_CODE, 0x80, 0xC0])
}

/// A fetched instruction.
pub struct Instruction {
    pub row: &'static Row,
    /// The literal, the call's target or the branch's offset; 0 where the instruction has none.
    pub operand: u32,
    /// Address of the following instruction.
    pub next: u32,
}

/// Reads the instruction at an address, or answers 3, 4 or 17: its bytes are tested in order, each before it is read.
pub fn fetch(memory: &[u8], reach: Reach, address: u32) -> Result<Instruction, Answer> {
    let first = byte_at(memory, reach, address)?;
    let row = row_of(first).ok_or(Answer::UnknownCode)?;
    let mut operand = 0;
    for i in 1..row.bytes {
        operand = operand << 8 | u32::from(byte_at(memory, reach, address.wrapping_add(i))?);
    }
    if matches!(row.op, Op::Beq | Op::Bra) {
        operand = branch_offset(first, operand);
    }
    Ok(Instruction { row, operand, next: address.wrapping_add(row.bytes) })
}

fn byte_at(memory: &[u8], reach: Reach, address: u32) -> Result<u8, Answer> {
    let at = address as usize;
    let byte = memory.get(at).ok_or(Answer::CodeOutsideMemory)?;
    match reach.allows(at..at + 1) {
        true => Ok(*byte),
        false => Err(Answer::InAnothersPart),
    }
}

/// The low six bits of the code and the second byte, as a 14-bit two's complement number.
fn branch_offset(first: u8, second: u32) -> u32 {
    let field = u32::from(first & 0x3F) << 8 | second;
    if field < 0x2000 {
        field
    } else {
        field.wrapping_sub(0x4000)
    }
}
