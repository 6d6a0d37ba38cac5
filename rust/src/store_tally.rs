//! The stores of runs that hand out the memory sum: which way they move it, how they leave it, and in whose part they lie.

use std::cmp::Ordering;
use std::ops::Range;

use crate::counts::Named;
use crate::model::codes::row_of;
use crate::model::observer::{Observer, Seen};
use crate::model::place::{load, place, width, Place};
use crate::model::reach::{Reach, SHARED};
use crate::model::state::{Answer, Machine, MEMORY};
use crate::model::sum::sum_of;
use crate::touches::data_of;

const CODES: [u8; 3] = [0x2E, 0x30, 0x32];
const UP: &str = "moves the sum up";
const DOWN: &str = "moves the sum down";
const SAME: &str = "of the same bytes";
const OTHERS: &str = "of others, same sum";
const ACROSS: &str = "across 16,384";
/// What can be seen of a store; a machine alone shows the first of these.
#[rustfmt::skip]
const WHAT: [&str; 11] = [
    UP, DOWN, SAME, OTHERS, "to cells in view", "refused with 5", "refused with 12",
    "refused with 17", "to shared memory", "to its own part", ACROSS,
];
const ALONE: usize = 7;

pub struct StoreTally {
    pub seen: Named,
    /// What the store that is being tried does, if it is carried out.
    tried: Option<Vec<&'static str>>,
}

impl StoreTally {
    pub fn alone() -> StoreTally {
        StoreTally::of("stores where the sum is handed out", &WHAT[..ALONE])
    }

    pub fn in_turns() -> StoreTally {
        StoreTally::of("in turns: stores", &WHAT)
    }

    fn of(title: &'static str, what: &[&str]) -> StoreTally {
        let names = CODES.iter().filter_map(|&code| row_of(code)).flat_map(|row| {
            // One byte has no other order, and lies on one side.
            let possible = what.iter().filter(move |&&what| width(row.op) > 1 || ![OTHERS, ACROSS].contains(&what));
            possible.map(move |what| format!("{} {what}", row.name))
        });
        StoreTally { seen: Named::new(title, names), tried: None }
    }

    fn saw(&mut self, code: u8, what: &str) {
        if let Some(row) = row_of(code).filter(|_| CODES.contains(&code)) {
            self.seen.saw(format!("{} {what}", row.name));
        }
    }
}

impl Observer for StoreTally {
    fn trying(&mut self, reach: Reach, machine: &Machine, memory: &[u8; MEMORY]) {
        let store = data_of(reach, machine, memory).filter(|(code, _)| CODES.contains(code));
        self.tried = store.map(|(_, bytes)| does(reach, machine, memory, bytes));
    }

    fn completed(&mut self, code: u8, _: Seen, _: Seen) {
        for what in self.tried.take().into_iter().flatten() {
            self.saw(code, what);
        }
    }

    fn refused(&mut self, code: u8, _: Seen, answer: Answer) {
        // An instruction of which a byte is in another's part is refused with 17 too, and is no store.
        let is_store = self.tried.take().is_some();
        match answer {
            Answer::TooFewParameters => self.saw(code, "refused with 5"),
            Answer::BadAddress => self.saw(code, "refused with 12"),
            Answer::InAnothersPart if is_store => self.saw(code, "refused with 17"),
            _ => {}
        }
    }
}

/// What a store to these bytes does. One to cells, and one that lies in a part, is told of where the sum would move with it.
fn does(reach: Reach, machine: &Machine, memory: &[u8; MEMORY], bytes: Range<usize>) -> Vec<&'static str> {
    let width = bytes.len();
    let Some(place) = place(width, bytes.start as u32) else { return Vec::new() };
    let is_memory = matches!(place, Place::Memory(_));
    let old = load(machine, memory, width, place).to_be_bytes();
    let new = (machine.parameters[machine.p - 2] & u32::MAX >> (32 - 8 * width)).to_be_bytes();
    let how = match sum_of(&new).cmp(&sum_of(&old)) {
        Ordering::Greater => UP,
        Ordering::Less => DOWN,
        Ordering::Equal if new == old => SAME,
        Ordering::Equal => OTHERS,
    };
    let moves = how == UP || how == DOWN;
    match (is_memory, reach) {
        (true, Reach::Task(_)) if moves => vec![how, part(bytes)],
        (true, _) => vec![how],
        (false, _) if moves => vec!["to cells in view"],
        (false, _) => Vec::new(),
    }
}

fn part(bytes: Range<usize>) -> &'static str {
    match (bytes.start < SHARED, bytes.end > SHARED) {
        (true, false) => "to shared memory",
        (true, true) => ACROSS,
        (false, _) => "to its own part",
    }
}

#[cfg(test)]
mod tests {
    use super::*;
    use crate::model::turn::turn;

    /// What one instruction at an address of a memory that is else full of 5 is seen as.
    fn seen(reach: Reach, at: usize, code: u8, cells: &[u32]) -> Vec<String> {
        let mut memory = [5; MEMORY];
        memory[at] = code;
        let mut machine = Machine { program_counter: at as u32, ..Machine::fresh() };
        cells.iter().for_each(|&cell| machine.push(cell));
        let mut tally = StoreTally::in_turns();
        turn(&mut machine, &mut memory, reach, 1, &mut tally);
        tally.seen.counts().into_iter().filter(|(_, count)| *count > 0).map(|(name, _)| name).collect()
    }

    #[test]
    fn stores_of_a_machine_alone_have_the_right_names() {
        let cases: [(u8, &[u32], &[&str]); 16] = [
            (0x2E, &[0x0505_0506, 100], &["STORE.L moves the sum up"]),
            (0x2E, &[0x0505_0405, 16_383], &["STORE.L moves the sum down"]),
            (0x2E, &[0x0505_0505, 20_000], &["STORE.L of the same bytes"]),
            (0x2E, &[0x0505_0406, 20_000], &["STORE.L of others, same sum"]),
            (0x30, &[0xFFFF_0600, 100], &["STORE.W moves the sum down"]),
            (0x30, &[0x0000_0505, 100], &["STORE.W of the same bytes"]),
            (0x30, &[0x0000_0406, 100], &["STORE.W of others, same sum"]),
            (0x32, &[0xFFFF_FF04, 100], &["STORE.B moves the sum down"]),
            (0x32, &[0xFFFF_FF05, 100], &["STORE.B of the same bytes"]),
            (0x2E, &[1, 0x10002], &["STORE.L to cells in view"]),
            (0x32, &[0xFF00, 0x10002], &[]),
            (0x2E, &[100], &["STORE.L refused with 5"]),
            (0x30, &[1, 32_767], &["STORE.W refused with 12"]),
            (0x32, &[1, 32_768], &["STORE.B refused with 12"]),
            (0x2D, &[1, 100], &[]),
            (0x2D, &[], &[]),
        ];
        for (code, cells, names) in cases {
            assert_eq!(seen(Reach::Alone, 0, code, cells), names, "{code:02X} with {cells:X?}");
        }
    }

    #[test]
    fn stores_of_tasks_have_the_right_names() {
        let up = |place: &str| vec!["STORE.W moves the sum up".to_string(), format!("STORE.W {place}")];
        for (number, address, names) in [
            (0, 16_382, up("to shared memory")),
            (0, 16_383, up("across 16,384")),
            (0, 16_384, up("to its own part")),
            (1, 16_382, up("to shared memory")),
            (1, 16_383, vec!["STORE.W refused with 17".to_string()]),
            (1, 20_480, up("to its own part")),
        ] {
            assert_eq!(seen(Reach::Task(number), 0, 0x30, &[0x0506, address]), names, "task {number} at {address}");
        }
    }

    #[test]
    fn a_code_in_anothers_part_is_no_store() {
        assert!(seen(Reach::Task(0), 20_480, 0x30, &[1, 100]).is_empty());
        assert!(seen(Reach::Task(0), 20_479, 0x35, &[1, 100]).is_empty());
    }
}
