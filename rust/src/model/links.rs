//! The three linked stacks. Room and depth are the caller's to have tested.

use super::state::{Catch, Frame, LastThrow, Machine, LOCALS};

impl Machine {
    /// Writes the return address to the return stack and to a new subroutine level, and goes to the target.
    pub fn call(&mut self, target: u32, return_address: u32) {
        self.s += 1;
        self.frames[self.s] = Frame { locals: [0; LOCALS], copy_of_r: self.r, return_address };
        self.push_return(return_address);
        self.program_counter = target;
    }

    /// A call that also pushes an exception level. The new level begins with the cells of the level below it.
    pub fn catch(&mut self, target: u32, return_address: u32) {
        let cells = self.catches[self.e].cells;
        self.e += 1;
        self.catches[self.e] =
            Catch { cells, copy_of_s: self.s, copy_of_p: self.p, throw_address: return_address.wrapping_add(1) };
        self.call(target, return_address);
    }

    /// Goes back by the subroutine level alone: the return cell is not asked.
    pub fn exit(&mut self) {
        let frame = self.frames[self.s];
        self.program_counter = frame.return_address;
        self.r = frame.copy_of_r;
        self.drop_frame();
    }

    /// As EXIT; and the next line may enter.
    pub fn return_from_line(&mut self) {
        self.exit();
        self.lines.block = 0;
    }

    pub fn push_return(&mut self, value: u32) {
        self.returns[self.r] = value;
        self.r += 1;
    }

    /// A frame whose return cell is gone goes with it.
    pub fn pop_return(&mut self) -> u32 {
        self.r -= 1;
        if self.s > 0 && self.r <= self.frames[self.s].copy_of_r {
            self.drop_frame();
        }
        self.returns[self.r]
    }

    /// A catch whose frame is gone goes with it.
    fn drop_frame(&mut self) {
        self.s -= 1;
        if self.e > 0 && self.s <= self.catches[self.e].copy_of_s {
            self.e -= 1;
        }
    }

    /// Takes the machine back to the moment of the top CATCH and hands over the number thrown. It notes that number and the
    /// address of the THROW, which nothing takes back.
    pub fn throw(&mut self, address: u32, number: u32) {
        self.last_throw = LastThrow { address, code: number };
        let catch = self.catches[self.e];
        self.program_counter = catch.throw_address;
        self.s = catch.copy_of_s;
        self.r = self.frames[catch.copy_of_s + 1].copy_of_r;
        self.p = catch.copy_of_p;
        self.push(number);
        self.e -= 1;
    }

    /// The last throw and the block stay: they are no pointers.
    pub fn reset_pointers(&mut self) {
        self.p = 0;
        self.r = 0;
        self.s = 0;
        self.e = 0;
    }
}
