//! The machine's state, when it is well formed, and the answer numbers.

/// Bytes of memory: code and data mixed.
pub const MEMORY: usize = 32_768;
/// Cells of the parameter stack, and of the return stack.
pub const CELLS: usize = 64;
/// Highest subroutine level.
pub const FRAMES: usize = 32;
/// Highest exception level.
pub const CATCHES: usize = 8;
/// Local cells of one subroutine level.
pub const LOCALS: usize = 16;
/// Cells of one exception level.
pub const CATCH_CELLS: usize = 8;

/// One subroutine level.
#[derive(Clone, Copy, Debug, Default, PartialEq, Eq)]
pub struct Frame {
    pub locals: [u32; LOCALS],
    /// R as it was before the call.
    pub copy_of_r: usize,
    pub return_address: u32,
}

/// One exception level.
#[derive(Clone, Copy, Debug, Default, PartialEq, Eq)]
pub struct Catch {
    pub cells: [u32; CATCH_CELLS],
    /// S as it was before the CATCH.
    pub copy_of_s: usize,
    /// P after CATCH took its address.
    pub copy_of_p: usize,
    pub throw_address: u32,
}

/// The last THROW of non-zero that was carried out; zeros before the first.
#[derive(Clone, Copy, Debug, Default, PartialEq, Eq)]
pub struct LastThrow {
    /// Where that THROW stands.
    pub address: u32,
    /// The number thrown.
    pub code: u32,
}

/// The interrupt unit: lines 1 to 15, of which one routine at a time is served. Zeros in a fresh machine.
#[derive(Clone, Copy, Debug, Default, PartialEq, Eq)]
pub struct Lines {
    /// Bit n set lets line n in; bit 0 is free and without effect.
    pub mask: u32,
    /// Bit n set: line n waits. Bit 0 is clear, since there is no line 0.
    pub waiting: u32,
    /// 1 while a routine is in progress, else 0.
    pub block: u32,
}

impl Lines {
    fn is_well_formed(self) -> bool {
        self.mask < 1 << 16 && self.waiting < 1 << 16 && self.waiting.is_multiple_of(2) && self.block <= 1
    }
}

/// Everything but the memory. Level 0 of both arrays has cells but makes no use of its other fields.
#[derive(Clone, Debug, PartialEq, Eq)]
pub struct Machine {
    pub parameters: [u32; CELLS],
    pub p: usize,
    pub returns: [u32; CELLS],
    pub r: usize,
    pub frames: [Frame; FRAMES + 1],
    pub s: usize,
    pub catches: [Catch; CATCHES + 1],
    pub e: usize,
    pub program_counter: u32,
    /// The extend flag: 0 or 1.
    pub flag: u32,
    /// Any two numbers are well formed.
    pub last_throw: LastThrow,
    pub lines: Lines,
}

impl Machine {
    pub fn fresh() -> Machine {
        Machine {
            parameters: [0; CELLS],
            p: 0,
            returns: [0; CELLS],
            r: 0,
            frames: [Frame::default(); FRAMES + 1],
            s: 0,
            catches: [Catch::default(); CATCHES + 1],
            e: 0,
            program_counter: 0,
            flag: 0,
            last_throw: LastThrow::default(),
            lines: Lines::default(),
        }
    }

    pub fn is_well_formed(&self) -> bool {
        if self.p > CELLS || self.r > CELLS || self.s > FRAMES || self.e > CATCHES || self.flag > 1 {
            return false;
        }
        let frames = &self.frames[1..=self.s];
        let catches = &self.catches[1..=self.e];
        self.lines.is_well_formed()
            && rises_to(frames.iter().map(|frame| frame.copy_of_r), self.r)
            && rises_to(catches.iter().map(|catch| catch.copy_of_s), self.s)
            && catches.iter().all(|catch| catch.copy_of_p < CELLS)
    }

    /// A full stack is the caller's to rule out.
    pub fn push(&mut self, value: u32) {
        self.parameters[self.p] = value;
        self.p += 1;
    }

    /// The old value stays in its cell. An empty stack is the caller's to rule out.
    pub fn pop(&mut self) -> u32 {
        self.p -= 1;
        self.parameters[self.p]
    }
}

/// Each number is below the next, and the last is below the end.
fn rises_to(numbers: impl Iterator<Item = usize>, end: usize) -> bool {
    let with_end: Vec<usize> = numbers.chain([end]).collect();
    with_end.windows(2).all(|pair| pair[0] < pair[1])
}

/// How a run or a reading ended. The discriminants are the numbers that are printed.
#[derive(Clone, Copy, Debug, PartialEq, Eq)]
pub enum Answer {
    Finished = 0,
    BudgetSpent = 1,
    BadInput = 2,
    CodeOutsideMemory = 3,
    UnknownCode = 4,
    TooFewParameters = 5,
    ReturnStackEmpty = 6,
    NothingCatches = 7,
    ParametersFull = 8,
    ReturnsFull = 9,
    FramesFull = 10,
    CatchesFull = 11,
    BadAddress = 12,
    DivisorZero = 13,
    BadImage = 14,
    NoRoutine = 16,
    InAnothersPart = 17,
}

impl Answer {
    pub fn number(self) -> u64 {
        self as u64
    }
}
