//! Both machines on the same input, every byte compared.

use crate::boundary::PROVED;
use crate::chains::{Lengths, Runner};
use crate::line_calls::LineCall;
use crate::memories::Memory;
use crate::model::bench::bench;
use crate::model::image::{load_image, Loaded};
use crate::model::reach::{Reach, TASKS};
use crate::model::run::{run, Outcome};
use crate::model::state::{Answer, Machine, MEMORY};
use crate::model::tasks::{run_tasks, Task};
use crate::random::Random;
use crate::state_bytes::{numbers_in, spell, spell_read_result, spell_result, spell_tasks, take_lines, STATE_BYTES};
use crate::tally::Tally;
use crate::task_chains::Pace;

/// A buffer that takes the longest text.
pub const OUT: usize = 1024;
/// The boundary's number for a buffer that does not suit.
const REFUSED: u64 = 2;

/// Two machines disagree; the text says on what.
pub struct Difference(pub String);

/// How much of an output buffer is lent.
#[derive(Clone, Copy)]
pub enum Room {
    Plenty,
    /// Just what the text needs.
    Exact,
    /// So many bytes too few.
    Short(usize),
}

impl Room {
    /// Bytes that are lent for a text of so many.
    pub fn bytes(self, text: usize) -> usize {
        match self {
            Room::Plenty => OUT,
            Room::Exact => text,
            Room::Short(by) => text.saturating_sub(by),
        }
    }
}

pub struct Comparison {
    /// What lies in a buffer before a call, so that an untouched byte can be told from a written one.
    noise: Vec<u8>,
    ours: Vec<u8>,
    theirs: Vec<u8>,
    pub tally: Tally,
}

impl Comparison {
    pub fn new(random: &mut Random) -> Comparison {
        let noise = random.bytes(2 * MEMORY);
        Comparison { noise, ours: Vec::new(), theirs: Vec::new(), tally: Tally::default() }
    }

    /// Runs an image on both; gives the steps where there was a run.
    pub fn image(&mut self, image: &[u8], memory_length: usize, room: Room) -> Result<Option<u64>, Difference> {
        self.ours.clear();
        self.ours.extend(&self.noise[..memory_length]);
        self.theirs.clone_from(&self.ours);

        let model = bench(image, &mut self.ours, &mut self.tally.instructions);
        let text = model.text.as_bytes();
        let out_length = room.bytes(text.len());
        let mut expected = self.noise[..out_length].to_vec();
        let mut out = expected.clone();
        let fits = memory_length == MEMORY && text.len() <= out_length;
        if fits {
            expected[..text.len()].copy_from_slice(text);
        }
        let expected_number = if fits { text.len() as u64 } else { REFUSED };
        self.tally.answer(if fits { model.answer() } else { Answer::BadInput });

        let number = PROVED.bench(image, &mut self.theirs, &mut out);
        if number == expected_number && out == expected && self.theirs == self.ours {
            return Ok(model.outcome.ok().map(|outcome| outcome.steps));
        }
        Err(Difference(format!(
            "image  {}\nmemory of {memory_length} bytes, out of {out_length}\nmodel  {expected_number}: {}\nproved {number}: {}\n{}{}",
            hex(image),
            first_line(&expected),
            first_line(&out),
            first_difference("out", &expected, &out),
            first_difference("memory", &self.ours, &self.theirs),
        )))
    }

    /// Reads an image on both, into buffers full of noise; gives what was read.
    pub fn read(&mut self, image: &[u8], lengths: Lengths) -> Result<Option<(Loaded, Memory)>, Difference> {
        let [machines, memory, result] =
            [lengths.machines, lengths.memory, lengths.result].map(|length| self.noise[..length].to_vec());
        let mut read = None;
        let left = self.hand_to_both(
            || format!("read {}", hex(image)),
            Buffers { machines, memory, result },
            |ours, tally| {
                let suits = lengths.suit(Lengths::OF_READ);
                let loaded = if suits { load_image(image, &mut ours.memory) } else { Err(Answer::BadInput) };
                tally.read(lengths, loaded.as_ref().err());
                match loaded {
                    Ok(loaded) => {
                        ours.machines = spell(&loaded.machine);
                        ours.result = spell_read_result(&loaded);
                        read = Some(loaded);
                        0
                    }
                    Err(answer) => answer.number(),
                }
            },
            |theirs| PROVED.read_image(image, &mut theirs.memory, &mut theirs.machines, &mut theirs.result),
        )?;
        let Some(loaded) = read else { return Ok(None) };
        let [_, sum] = numbers_in(&left.result);
        let memory = Memory { bytes: left.memory, sum };
        must_be_true(&memory)?;
        Ok(Some((loaded, memory)))
    }

    /// Runs machines on both, and leaves memory and sum as they did. The model gives the machines as they then are, and the
    /// outcome; it is asked where the lengths suit those that are wanted.
    fn run_on_both(
        &mut self,
        words: String,
        machines: Vec<u8>,
        memory: &mut Memory,
        [lengths, wanted]: [Lengths; 2],
        model: impl FnOnce(&Memory, &mut Vec<u8>, &mut Tally) -> (Vec<u8>, Outcome),
        proved: impl FnOnce(&mut Buffers) -> u64,
    ) -> Result<(), Difference> {
        let before = Buffers {
            machines: filled(machines, lengths.machines),
            memory: filled(memory.bytes.clone(), lengths.memory),
            result: self.noise[..lengths.result].to_vec(),
        };
        let mut handed_back = memory.sum;
        let left = self.hand_to_both(
            || words,
            before,
            |ours, tally| {
                if !lengths.suit(wanted) {
                    return REFUSED;
                }
                let (machines, outcome) = model(memory, &mut ours.memory, tally);
                ours.machines = machines;
                ours.result = spell_result(outcome);
                handed_back = outcome.sum;
                0
            },
            proved,
        )?;
        let was_true = memory.has_true_sum();
        memory.sum = handed_back;
        // Of a wrong length it was a copy, which no run alters.
        if lengths.memory == MEMORY {
            memory.bytes = left.memory;
        }
        if was_true {
            must_be_true(memory)?;
        }
        Ok(())
    }

    /// Hands the same buffers to both, and gives them as both leave them.
    fn hand_to_both(
        &mut self,
        words: impl FnOnce() -> String,
        before: Buffers,
        model: impl FnOnce(&mut Buffers, &mut Tally) -> u64,
        proved: impl FnOnce(&mut Buffers) -> u64,
    ) -> Result<Buffers, Difference> {
        let (mut ours, mut theirs) = (before.clone(), before.clone());
        let expected_number = model(&mut ours, &mut self.tally);
        let number = proved(&mut theirs);
        if number == expected_number && theirs == ours {
            return Ok(theirs);
        }
        Err(Difference(format!(
            "{}\nbefore {}\nmemory {}\nmodel  {expected_number}: result {}\nproved {number}: result {}\n{}{}",
            words(),
            hex(&before.machines),
            hex(&before.memory),
            hex(&ours.result),
            hex(&theirs.result),
            first_difference("what was handed in", &ours.machines, &theirs.machines),
            first_difference("memory", &ours.memory, &theirs.memory),
        )))
    }
}

/// What is lent to a call beside an image.
#[derive(Clone, PartialEq)]
struct Buffers {
    machines: Vec<u8>,
    memory: Vec<u8>,
    result: Vec<u8>,
}

/// Both could hand back the same sum and be wrong, so the bytes are added up afresh.
fn must_be_true(memory: &Memory) -> Result<(), Difference> {
    match memory.has_true_sum() {
        true => Ok(()),
        false => Err(Difference(format!("the sum {} is not that of the memory {}", memory.sum, hex(&memory.bytes)))),
    }
}

impl Runner for Comparison {
    type Failure = Difference;

    /// Runs a state on both, and leaves machine, memory and sum as they did.
    fn state(
        &mut self,
        kind: &'static str,
        machine: &mut Machine,
        memory: &mut Memory,
        budget: u64,
        lengths: Lengths,
    ) -> Result<(), Difference> {
        self.tally.kind(kind);
        let sum = memory.sum;
        self.run_on_both(
            format!("a state, budget {budget}, sum {sum}"),
            spell(machine),
            memory,
            [lengths, Lengths::OF_STATE],
            |handed, memory, tally| {
                tally.lines.begins();
                let mut first = (&mut tally.instructions, &mut tally.sums);
                let outcome = run(machine, memory, budget, sum, &mut (&mut first, &mut tally.lines));
                tally.answer(outcome.answer);
                tally.lines.ran(machine, outcome);
                tally.sums.ran(handed, outcome, memory, || {
                    let with_another = run(&mut machine.clone(), &mut memory.clone(), budget, 0, &mut ());
                    with_another.answer != Answer::BadInput
                });
                (spell(machine), outcome)
            },
            |theirs| PROVED.run_state(&mut theirs.machines, &mut theirs.memory, budget, sum, &mut theirs.result),
        )
    }

    /// Runs four tasks on both, and leaves tasks, memory and sum as they did.
    fn tasks(
        &mut self,
        kind: &'static str,
        tasks: &mut [Task; TASKS],
        memory: &mut Memory,
        pace: Pace,
        lengths: Lengths,
    ) -> Result<(), Difference> {
        let Pace { quantum, budget } = pace;
        self.tally.turns.kind(kind);
        let sum = memory.sum;
        self.run_on_both(
            format!("four tasks, quantum {quantum}, budget {budget}, sum {sum}"),
            spell_tasks(tasks),
            memory,
            [lengths, Lengths::OF_TASKS],
            |handed, memory, tally| {
                tally.turns.begins(tasks, pace);
                let before = tasks.clone();
                let outcome = run_tasks(tasks, memory, quantum, budget, sum, &mut tally.turns);
                tally.turns.answer(outcome.answer);
                tally.turns.ran(&before, tasks, outcome);
                tally.turns.sums.ran(handed, outcome, memory, || {
                    let with_another = run_tasks(&mut tasks.clone(), &mut memory.clone(), quantum, budget, 0, &mut ());
                    with_another.answer != Answer::BadInput
                });
                (spell_tasks(tasks), outcome)
            },
            |theirs| {
                PROVED.run_tasks(&mut theirs.machines, &mut theirs.memory, quantum, budget, sum, &mut theirs.result)
            },
        )
    }

    /// Makes a call of the host's on both, and leaves the machine's lines as they did.
    fn lines(&mut self, reach: Reach, machine: &mut Machine, call: LineCall, length: usize) -> Result<(), Difference> {
        self.tally.called(reach, machine, call, length);
        let before = [filled(spell(machine), length), self.noise[..BEHIND].to_vec()].concat();
        let (mut ours, mut theirs) = (before.clone(), before);
        let expected = call.by_model(&mut ours[..length]);
        let number = call.by(PROVED, &mut theirs[..length]);
        if number != expected || theirs != ours {
            return Err(Difference(format!(
                "{call:?} of a state of {length} bytes\nbefore {}\nmodel  {expected}\nproved {number}\n{}",
                hex(&spell(machine)),
                first_difference("what was handed in", &ours, &theirs),
            )));
        }
        if length == STATE_BYTES {
            take_lines(machine, &ours);
        }
        Ok(())
    }
}

/// What lies behind a state that is lent for a call of the host's, and must stay.
const BEHIND: usize = 16;

/// Bytes cut or filled up to a length.
pub fn filled(mut bytes: Vec<u8>, length: usize) -> Vec<u8> {
    bytes.resize(length, 0xA5);
    bytes
}

/// Bytes in hexadecimal, many zeros in a row by their number.
fn hex(bytes: &[u8]) -> String {
    let mut text = String::new();
    for row in bytes.chunk_by(|a, b| (*a == 0) == (*b == 0)) {
        if row[0] == 0 && row.len() > 16 {
            text += &format!(" {} zeros ", row.len());
        } else {
            text.extend(row.iter().map(|byte| format!("{byte:02X}")));
        }
    }
    text
}

/// The first line of an output buffer, readable where it is text.
fn first_line(out: &[u8]) -> String {
    let line = out.split(|&byte| byte == b'\n').next().unwrap_or_default();
    String::from_utf8_lossy(line).escape_debug().to_string()
}

fn first_difference(what: &str, ours: &[u8], theirs: &[u8]) -> String {
    match ours.iter().zip(theirs).position(|(a, b)| a != b) {
        Some(at) => format!("{what} differs first at byte {at}: model {:02X}, proved {:02X}\n", ours[at], theirs[at]),
        None => String::new(),
    }
}

#[cfg(test)]
mod tests {
    use super::*;

    #[test]
    fn a_sum_that_is_not_true_is_a_difference() {
        let memory = |sum| Memory { bytes: vec![250, 7], sum };
        assert!(must_be_true(&memory(257)).is_ok());
        assert!([0, 1, 256, 258].iter().all(|&sum| must_be_true(&memory(sum)).is_err()));
    }
}
