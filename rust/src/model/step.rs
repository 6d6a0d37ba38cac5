//! One instruction.

use super::codes::{fetch, Instruction, Op};
use super::place::{load, place, store, width};
use super::reach::Reach;
use super::refusal::refusal;
use super::state::{Answer, Machine, MEMORY};
use super::word::{divide_signed, divide_unsigned, multiply_signed, multiply_unsigned, truth, wrapped};

/// Carries out the next instruction and gives its cycles, or ends the run with machine and memory as they were.
pub fn step(machine: &mut Machine, memory: &mut [u8; MEMORY], reach: Reach) -> Result<u64, Answer> {
    let instruction = fetch(memory, reach, machine.program_counter)?;
    if instruction.row.op == Op::Exit && machine.s == 0 {
        return Err(Answer::Finished);
    }
    if let Some(answer) = refusal(machine, reach, &instruction) {
        return Err(answer);
    }
    Ok(carry_out(machine, memory, &instruction))
}

/// Does what the instruction says; every refusal has been ruled out.
fn carry_out(machine: &mut Machine, memory: &mut [u8; MEMORY], instruction: &Instruction) -> u64 {
    let Instruction { row, operand, next } = *instruction;
    let mut cycles = row.cycles;
    let here = machine.program_counter;
    machine.program_counter = next;
    match row.op {
        Op::Nop | Op::Pause => {}
        Op::Drop => {
            machine.pop();
        }
        Op::Dup => one_to_two(machine, |a| (a, a)),
        Op::Swap => two_to_two(machine, |a, b| (b, a)),
        Op::Over => {
            let below = machine.parameters[machine.p - 2];
            machine.push(below);
        }
        Op::Nip => two_to_one(machine, |_, b| b),
        Op::Rot => {
            let (c, b, a) = (machine.pop(), machine.pop(), machine.pop());
            machine.push(b);
            machine.push(c);
            machine.push(a);
        }
        Op::ToR => {
            let value = machine.pop();
            machine.push_return(value);
        }
        Op::RFetch => machine.push(machine.returns[machine.r - 1]),
        Op::RFrom => {
            let value = machine.pop_return();
            machine.push(value);
        }
        Op::PspFetch => machine.push(machine.p as u32),
        Op::Catch => {
            let target = machine.pop();
            machine.catch(target, next);
        }
        Op::ResetSp => machine.reset_pointers(),
        Op::Throw => {
            let number = machine.pop();
            if number == 0 {
                cycles = 1;
            } else {
                machine.throw(here, number);
            }
        }

        Op::Add => two_with_flag(machine, |a, b, _| a + b),
        Op::Sub => two_with_flag(machine, |a, b, _| a - b),
        Op::Negate => one_to_one(machine, |a| 0u32.wrapping_sub(a)),
        Op::OnePlus => one_to_one(machine, |a| a.wrapping_add(1)),
        Op::OneMinus => one_to_one(machine, |a| a.wrapping_sub(1)),
        Op::TwoSlash => one_to_one(machine, |a| (a as i32 >> 1) as u32),
        Op::AddX => two_with_flag(machine, |a, b, flag| a + b + flag),
        Op::SubX => two_with_flag(machine, |a, b, flag| a - b - flag),

        Op::Equal => two_to_one(machine, |a, b| truth(a == b)),
        Op::NotEqual => two_to_one(machine, |a, b| truth(a != b)),
        Op::Less => two_to_one(machine, |a, b| truth((a as i32) < b as i32)),
        Op::Greater => two_to_one(machine, |a, b| truth(a as i32 > b as i32)),
        Op::ULess => two_to_one(machine, |a, b| truth(a < b)),
        Op::UGreater => two_to_one(machine, |a, b| truth(a > b)),
        Op::ZeroEqual => one_to_one(machine, |a| truth(a == 0)),
        Op::ZeroNotEqual => one_to_one(machine, |a| truth(a != 0)),
        Op::ZeroLess => one_to_one(machine, |a| truth((a as i32) < 0)),
        Op::ZeroGreater => one_to_one(machine, |a| truth(a as i32 > 0)),
        Op::Zero => machine.push(0),

        Op::And => two_to_one(machine, |a, b| a & b),
        Op::Or => two_to_one(machine, |a, b| a | b),
        Op::Invert => one_to_one(machine, |a| !a),
        Op::Xor => two_to_one(machine, |a, b| a ^ b),
        Op::ShiftLeft => one_to_one(machine, |a| a << 1),
        Op::ShiftRight => one_to_one(machine, |a| a >> 1),
        Op::XByte => one_to_one(machine, |a| a as i8 as u32),
        Op::XWord => one_to_one(machine, |a| a as i16 as u32),
        Op::MultS => two_to_two(machine, multiply_signed),
        Op::MultU => two_to_two(machine, multiply_unsigned),
        Op::DivS => two_to_two(machine, divide_signed),
        Op::DivU => two_to_two(machine, divide_unsigned),

        Op::FetchL | Op::FetchW | Op::FetchB => {
            let width = width(row.op);
            let address = machine.pop();
            if let Some(place) = place(width, address) {
                let value = load(machine, memory, width, place);
                machine.push(value);
            }
        }
        Op::StoreL | Op::StoreW | Op::StoreB => {
            let width = width(row.op);
            let address = machine.pop();
            let value = machine.pop();
            if let Some(place) = place(width, address) {
                store(machine, memory, width, place, value);
            }
        }
        Op::QDup => {
            let top = machine.parameters[machine.p - 1];
            if top != 0 {
                machine.push(top);
            }
        }
        Op::LoadB | Op::LoadW | Op::LoadL => machine.push(operand),

        Op::Jmp => machine.program_counter = machine.pop(),
        Op::Jsl => machine.call(operand, next),
        Op::Jsr => {
            let target = machine.pop();
            machine.call(target, next);
        }
        Op::Rti => machine.return_from_line(),
        Op::Exit => machine.exit(),
        Op::Beq => {
            if machine.pop() == 0 {
                machine.program_counter = next.wrapping_add(operand);
            }
        }
        Op::Bra => machine.program_counter = next.wrapping_add(operand),
    }
    cycles
}

/// ( a -- f(a) )
fn one_to_one(machine: &mut Machine, f: impl Fn(u32) -> u32) {
    let a = machine.pop();
    machine.push(f(a));
}

/// ( a -- x y )
fn one_to_two(machine: &mut Machine, f: impl Fn(u32) -> (u32, u32)) {
    let a = machine.pop();
    let (x, y) = f(a);
    machine.push(x);
    machine.push(y);
}

/// ( a b -- f(a, b) )
fn two_to_one(machine: &mut Machine, f: impl Fn(u32, u32) -> u32) {
    let (b, a) = (machine.pop(), machine.pop());
    machine.push(f(a, b));
}

/// ( a b -- x y )
fn two_to_two(machine: &mut Machine, f: impl Fn(u32, u32) -> (u32, u32)) {
    let (b, a) = (machine.pop(), machine.pop());
    let (x, y) = f(a, b);
    machine.push(x);
    machine.push(y);
}

/// ( a b -- x ), the flag telling whether the exact result had to wrap.
fn two_with_flag(machine: &mut Machine, exact: impl Fn(i64, i64, i64) -> i64) {
    let (b, a) = (machine.pop(), machine.pop());
    let (value, flag) = wrapped(exact(a.into(), b.into(), machine.flag.into()));
    machine.push(value);
    machine.flag = flag;
}
