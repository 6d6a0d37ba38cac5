//! The lines: which entered and how, what kept others waiting, what the instructions made of the block, and what the host's
//! calls were.

use crate::counts::{stretch, Named, Stretch};
use crate::line_calls::LineCall;
use crate::model::codes::{row_of, Op};
use crate::model::entry::due;
use crate::model::observer::{Observer, Seen};
use crate::model::reach::{Reach, TASKS};
use crate::model::run::Outcome;
use crate::model::state::{Answer, Lines, Machine, CELLS, FRAMES, MEMORY};
use crate::model::tasks::Task;
use crate::model::turn::Turn;
use crate::state_bytes::STATE_BYTES;
use crate::throw_tally::throws;

const OVER_MASKED: &str = "entry over a masked line";
const SEVERAL: &str = "entry with several due";
const REFUSED: &str = "entry, then refused";
const NO_STEPS: &str = "entry in a run of no steps";
const AFTER_RTI: &str = "entry right after RTI";
const AFTER_WANT: &str = "entry after want of room";
const BEFORE_EXIT: &str = "entry before EXIT at S = 0";
const FULL_RETURNS: &str = "due, no room: R = 64";
const FULL_FRAMES: &str = "due, no room: S = 32";
const FINISHED: &str = "due, EXIT at S = 0, R = 64";
const BLOCKED: &str = "due while a routine runs";
const NO_BLOCK: &str = "RTI refused, block 0";
const NO_LEVEL: &str = "RTI refused, S = 0";
const TWICE: &str = "raised twice";
const IN_ITS_ROUTINE: &str = "raised in its own routine";
const AT_FIRST: &str = "entry at a turn's start";
const WITHIN: &str = "entry within a turn";
const NOT_READY: &str = "due, task 0 not ready";
const NO_ENTRY: &str = "due in tasks 1 to 3";
const RTI: &str = "RTI in tasks 1 to 3";
const RTI_REFUSED: &str = "RTI refused in 1 to 3";
/// What can be seen of lines; a machine alone shows the first of these.
#[rustfmt::skip]
const WHAT: [&str; 25] = [
    OVER_MASKED, SEVERAL, REFUSED, NO_STEPS, AFTER_RTI, AFTER_WANT, BEFORE_EXIT, FULL_RETURNS, FULL_FRAMES, FINISHED,
    BLOCKED, NO_BLOCK, NO_LEVEL, TWICE, IN_ITS_ROUTINE,
    "block left by EXIT", "block left by THROW", "block left by R>", "block left by RESETSP",
    AT_FIRST, WITHIN, NOT_READY, NO_ENTRY, RTI, RTI_REFUSED,
];
const ALONE: usize = 19;

const RAISED: [Stretch; 4] = [
    ("line 0", 0..=0),
    ("line 1 to 15", 1..=15),
    ("line 16 or more", 16..=u32::MAX as u64),
    ("line past 32 bits", 1 << 32..=u64::MAX),
];
const MASKS: [Stretch; 3] = [
    ("mask of 16 bits", 0..=0xFFFF),
    ("mask of more", 0x1_0000..=u32::MAX as u64),
    ("mask past 32 bits", 1 << 32..=u64::MAX),
];
const OF_A_WRONG_LENGTH: [&str; 2] = ["line, wrong length", "mask, wrong length"];
const OF_A_BROKEN_STATE: &str = "state not well formed";

pub struct LinesTally {
    entries: Named,
    seen: Named,
    calls: Named,
    /// Of the machine that came to an instruction last: its task's number, 0 where it is alone, and what it came with.
    number: usize,
    came_with: Lines,
    at_the_end: bool,
    /// Whether a line entered before the instruction that is being tried; whether one did in this run.
    entered: bool,
    entered_in_run: bool,
    /// Whether the instruction before was an RTI; whether one that is due has had no room; whether a turn begins.
    after_rti: bool,
    wants_room: bool,
    turn_begins: bool,
    /// The line whose routine is in progress in the machine that lines enter, as far as that is known.
    routine: Option<u32>,
    /// That machine, as a run left it.
    left: Option<Machine>,
    run_begins: bool,
}

impl LinesTally {
    pub fn alone() -> LinesTally {
        let titles = ["entries, by the line's number", "lines and the block", "calls of the host for lines"];
        LinesTally::with(titles, &WHAT[..ALONE])
    }

    pub fn in_turns() -> LinesTally {
        let titles = [
            "in turns: entries, by the line's number",
            "in turns: lines and the block",
            "in turns: calls of the host for lines",
        ];
        LinesTally::with(titles, &WHAT)
    }

    fn with([entries, seen, calls]: [&'static str; 3], what: &[&str]) -> LinesTally {
        let call_names = RAISED.iter().chain(&MASKS).map(|(name, _)| *name).chain(OF_A_WRONG_LENGTH);
        let call_names = call_names.chain([OF_A_BROKEN_STATE]);
        LinesTally {
            entries: Named::new(entries, 1..=15),
            seen: Named::new(seen, what),
            calls: Named::new(calls, call_names),
            number: 0,
            came_with: Lines::default(),
            at_the_end: false,
            entered: false,
            entered_in_run: false,
            after_rti: false,
            wants_room: false,
            turn_begins: false,
            routine: None,
            left: None,
            run_begins: false,
        }
    }

    /// A run is about to begin.
    pub fn begins(&mut self) {
        self.run_begins = true;
        self.entered_in_run = false;
        self.after_rti = false;
        self.wants_room = false;
        self.turn_begins = true;
    }

    /// A run is over, and left the machine that lines enter so.
    pub fn ran(&mut self, machine: &Machine, outcome: Outcome) {
        if self.entered_in_run && outcome.steps == 0 {
            self.seen.saw(NO_STEPS);
        }
        // A run in which that machine came to no instruction says nothing of it.
        if !self.run_begins {
            self.left = Some(machine.clone());
        }
    }

    /// Tasks that were handed in so have had steps.
    pub fn ran_tasks(&mut self, handed: &[Task; TASKS], outcome: Outcome) {
        if outcome.steps > 0 && !handed[0].is_ready() && due(&handed[0].machine).is_some() {
            self.seen.saw(NOT_READY);
        }
    }

    /// A host is about to make a call on a state of this length, of the machine that lines enter or of another.
    pub fn called(&mut self, machine: &Machine, call: LineCall, length: usize) {
        let (right, wrong) = match call {
            LineCall::Raise(line) => (stretch(&RAISED, line), OF_A_WRONG_LENGTH[0]),
            LineCall::SetMask(mask) => (stretch(&MASKS, mask), OF_A_WRONG_LENGTH[1]),
        };
        self.calls.saw(if length == STATE_BYTES { right } else { wrong });
        if length == STATE_BYTES && !machine.is_well_formed() {
            self.calls.saw(OF_A_BROKEN_STATE);
        }
        match call {
            LineCall::Raise(line @ 1..=15) if length == STATE_BYTES => {
                if machine.lines.waiting >> line & 1 == 1 {
                    self.seen.saw(TWICE);
                }
                if machine.lines.block == 1 && self.routine == Some(line as u32) && self.is_as_left(machine) {
                    self.seen.saw(IN_ITS_ROUTINE);
                }
            }
            _ => {}
        }
    }

    /// But for what a host does to the lines.
    fn is_as_left(&self, machine: &Machine) -> bool {
        self.left.as_ref().is_some_and(|left| Machine { lines: machine.lines, ..left.clone() } == *machine)
    }

    fn saw_entry(&mut self, line: u32) {
        self.entries.saw(line);
        let Lines { mask, waiting, .. } = self.came_with;
        let masked = waiting & !mask;
        let cases = [
            (masked.trailing_zeros() < line, OVER_MASKED),
            ((waiting & mask).count_ones() > 1, SEVERAL),
            (self.after_rti, AFTER_RTI),
            (self.wants_room, AFTER_WANT),
            (self.at_the_end, BEFORE_EXIT),
        ];
        cases.iter().filter(|(applies, _)| *applies).for_each(|(_, what)| self.seen.saw(what));
        self.routine = Some(line);
        self.wants_room = false;
        self.entered_in_run = true;
    }

    /// A line is due in the machine that lines enter, which has a routine or no room.
    fn saw_wait(&mut self, machine: &Machine) {
        match (machine.lines.block, machine.r, machine.s) {
            (1, _, _) => self.seen.saw(BLOCKED),
            (_, CELLS, _) => self.seen.saw(FULL_RETURNS),
            (_, _, FRAMES) => self.seen.saw(FULL_FRAMES),
            _ => return,
        }
        self.wants_room = machine.lines.block == 0;
    }

    /// The lists, with the columns and the width of each.
    pub fn named(&self) -> [(&Named, usize, usize); 3] {
        [(&self.entries, 6, 10), (&self.seen, 3, 28), (&self.calls, 3, 26)]
    }
}

impl Observer for LinesTally {
    fn coming(&mut self, reach: Reach, machine: &Machine, memory: &[u8; MEMORY]) {
        self.number = if let Reach::Task(number) = reach { number } else { 0 };
        self.came_with = machine.lines;
        let code = memory.get(machine.program_counter as usize);
        self.at_the_end = machine.s == 0 && code == Some(&0x3D);
        if self.number == 0 && self.run_begins {
            self.run_begins = false;
            self.routine = self.routine.filter(|_| self.is_as_left(machine));
        }
        if due(machine).is_some() {
            match self.number {
                0 => self.saw_wait(machine),
                _ if machine.lines.block == 0 && machine.r < CELLS && machine.s < FRAMES => self.seen.saw(NO_ENTRY),
                _ => {}
            }
        }
    }

    fn trying(&mut self, reach: Reach, machine: &Machine, _: &[u8; MEMORY]) {
        self.entered = machine.lines.waiting != self.came_with.waiting;
        if self.entered {
            self.saw_entry((machine.lines.waiting ^ self.came_with.waiting).trailing_zeros());
            if reach != Reach::Alone {
                self.seen.saw(if self.turn_begins { AT_FIRST } else { WITHIN });
            }
        }
    }

    fn completed(&mut self, code: u8, before: Seen, after: Seen) {
        let Some(row) = row_of(code) else { return };
        self.turn_begins = false;
        if self.number == 0 {
            self.after_rti = row.op == Op::Rti;
        }
        if row.op == Op::Rti {
            match self.number {
                0 => self.routine = None,
                _ => self.seen.saw(RTI),
            }
        }
        let leaves = match row.op {
            Op::Exit => true,
            Op::Throw => throws(code, before),
            Op::RFrom | Op::ResetSp => after.s < before.s,
            _ => false,
        };
        if leaves && before.lines.block == 1 {
            self.seen.saw(format!("block left by {}", row.name));
        }
    }

    fn refused(&mut self, _: u8, before: Seen, answer: Answer) {
        if self.entered {
            self.seen.saw(REFUSED);
        }
        match answer {
            Answer::NoRoutine => {
                self.seen.saw(if before.lines.block == 0 { NO_BLOCK } else { NO_LEVEL });
                if self.number > 0 {
                    self.seen.saw(RTI_REFUSED);
                }
            }
            Answer::Finished if self.number == 0 && self.wants_room => self.seen.saw(FINISHED),
            _ => {}
        }
    }

    fn turn_over(&mut self, _: usize, _: Turn, _: u64, _: u64) {
        self.turn_begins = true;
    }
}

#[cfg(test)]
mod tests {
    use super::*;
    use crate::model::run::run;
    use crate::model::state::Frame;
    use crate::model::tasks::{run_tasks, READY};

    /// At address 100, in which the lines of the mask are let in and those that wait do so.
    fn machine(s: usize, lines: Lines) -> Machine {
        let mut machine = Machine { program_counter: 100, r: 40, s, lines, ..Machine::fresh() };
        for level in 1..=s {
            machine.frames[level] = Frame { copy_of_r: level - 1, return_address: 100, ..Frame::default() };
        }
        machine
    }

    fn memory(routines: u8, code: u8) -> Vec<u8> {
        let mut memory = vec![routines; MEMORY];
        memory[100] = code;
        memory
    }

    fn names(named: &Named) -> Vec<String> {
        named.counts().into_iter().filter(|(_, count)| *count > 0).map(|(name, _)| name).collect()
    }

    /// What a run is seen as, where all routines begin with one code and the machine stands before another.
    fn seen(mut machine: Machine, routines: u8, code: u8, budget: u64) -> Vec<String> {
        let mut tally = LinesTally::alone();
        tally.begins();
        let outcome = run(&mut machine, &mut memory(routines, code), budget, 0, &mut tally);
        tally.ran(&machine, outcome);
        names(&tally.seen)
    }

    const NOP: u8 = 0x00;
    const DROP: u8 = 0x01;
    const FROM_R: u8 = 0x09;
    const RESET: u8 = 0x0C;
    const RETURN: u8 = 0x3C;
    const EXIT: u8 = 0x3D;

    #[test]
    fn entries_have_the_right_names() {
        let one = |s, mask, waiting| machine(s, Lines { mask, waiting, block: 0 });
        assert!(seen(one(1, 0xFFFF, 0), NOP, NOP, 1).is_empty());
        assert!(seen(one(1, 2, 2), NOP, NOP, 0).is_empty());
        assert!(seen(one(1, 2, 2), NOP, NOP, 1).is_empty());
        assert_eq!(seen(one(1, 4, 6), NOP, NOP, 1), [OVER_MASKED]);
        assert!(seen(one(1, 2, 6), NOP, NOP, 1).is_empty());
        assert_eq!(seen(one(1, 6, 6), NOP, NOP, 1), [SEVERAL]);
        assert_eq!(seen(one(1, 6, 6), RETURN, NOP, 2), [SEVERAL, AFTER_RTI]);
        assert_eq!(seen(one(1, 6, 6), NOP, NOP, 2), [SEVERAL, BLOCKED]);
        assert_eq!(seen(one(1, 2, 2), DROP, NOP, 1), [REFUSED, NO_STEPS]);
        assert_eq!(seen(one(0, 2, 2), RETURN, EXIT, 2), [BEFORE_EXIT]);
    }

    #[test]
    fn a_want_of_room_has_the_right_names() {
        let full = |s| Machine { r: CELLS, ..machine(s, Lines { mask: 2, waiting: 2, block: 0 }) };
        assert_eq!(seen(full(1), NOP, NOP, 1), [FULL_RETURNS]);
        assert_eq!(seen(full(1), NOP, FROM_R, 2), [AFTER_WANT, FULL_RETURNS]);
        assert_eq!(seen(full(0), NOP, EXIT, 2), [FULL_RETURNS, FINISHED]);
        let high = machine(FRAMES, Lines { mask: 2, waiting: 2, block: 0 });
        assert_eq!(seen(high.clone(), NOP, NOP, 1), [FULL_FRAMES]);
        assert_eq!(seen(high, NOP, EXIT, 2), [AFTER_WANT, FULL_FRAMES]);
    }

    #[test]
    fn what_leaves_the_block_and_what_is_refused_have_the_right_names() {
        let block = |s, block| machine(s, Lines { block, ..Lines::default() });
        for (s, blocked, code, names) in [
            (1, 1, EXIT, &["block left by EXIT"][..]),
            (1, 0, EXIT, &[]),
            (1, 1, RESET, &["block left by RESETSP"]),
            (0, 1, RESET, &[]),
            (1, 1, FROM_R, &[]),
            (1, 1, RETURN, &[]),
            (1, 0, RETURN, &[NO_BLOCK]),
            (0, 0, RETURN, &[NO_BLOCK]),
            (0, 1, RETURN, &[NO_LEVEL]),
        ] {
            assert_eq!(seen(block(s, blocked), NOP, code, 1), names, "{code:02X} with S {s} and block {blocked}");
        }
        // One return cell above the level is the level's own.
        let lost = Machine { r: 1, ..block(1, 1) };
        assert_eq!(seen(lost, NOP, FROM_R, 1), ["block left by R>"]);
        let mut thrown = Machine { e: 1, ..block(1, 1) };
        thrown.push(0);
        assert!(seen(thrown.clone(), NOP, 0x0D, 1).is_empty());
        thrown.parameters[0] = 5;
        assert_eq!(seen(thrown, NOP, 0x0D, 1), ["block left by THROW"]);
    }

    #[test]
    fn calls_have_the_right_names() {
        let mut tally = LinesTally::alone();
        let mut machine = machine(1, Lines { mask: 8, waiting: 8, block: 0 });
        let call = |tally: &mut LinesTally, machine: &Machine, call| tally.called(machine, call, STATE_BYTES);
        call(&mut tally, &machine, LineCall::Raise(3));
        call(&mut tally, &machine, LineCall::Raise(4));
        assert_eq!((names(&tally.seen), names(&tally.calls)), (vec![TWICE.into()], vec!["line 1 to 15".into()]));
        tally.begins();
        let outcome = run(&mut machine, &mut memory(NOP, NOP), 1, 0, &mut tally);
        tally.ran(&machine, outcome);
        call(&mut tally, &machine, LineCall::Raise(4));
        assert_eq!(names(&tally.seen), [TWICE]);
        // What a host does to the lines, and a run that is refused, leave the machine the same.
        machine.lines.mask = 0;
        tally.begins();
        let broken = run(&mut machine.clone(), &mut [], 1, 0, &mut tally);
        tally.ran(&machine, broken);
        call(&mut tally, &machine, LineCall::Raise(3));
        assert_eq!(names(&tally.seen), [TWICE, IN_ITS_ROUTINE]);
        // In another machine it is another's routine.
        call(&mut tally, &Machine { p: 1, ..machine.clone() }, LineCall::Raise(3));
        assert_eq!(tally.seen.counts().iter().filter(|(name, count)| name == IN_ITS_ROUTINE && *count == 1).count(), 1);
        for (wrong, name) in [
            (LineCall::Raise(0), "line 0"),
            (LineCall::Raise(16), "line 16 or more"),
            (LineCall::Raise(1 << 32), "line past 32 bits"),
            (LineCall::SetMask(0xFFFF), "mask of 16 bits"),
            (LineCall::SetMask(0x1_0000), "mask of more"),
            (LineCall::SetMask(1 << 32), "mask past 32 bits"),
        ] {
            let mut tally = LinesTally::alone();
            call(&mut tally, &machine, wrong);
            assert_eq!(names(&tally.calls), [name]);
            tally = LinesTally::alone();
            tally.called(&machine, wrong, 5);
            assert_eq!(names(&tally.calls).len(), 1);
            assert!(names(&tally.calls)[0].ends_with(", wrong length"));
        }
    }

    /// What a run of four tasks is seen as, of which the first two are ready and run from address 100 as above.
    fn seen_in_turns(machines: [Machine; 2], kept: u64, routines: u8, code: u8, budget: u64) -> Vec<String> {
        let [first, second] = machines;
        let gone = Task { machine: Machine::fresh(), kept: 0 };
        let mut tasks =
            [Task { machine: first, kept }, Task { machine: second, kept: READY }, gone.clone(), gone.clone()];
        let mut tally = LinesTally::in_turns();
        tally.begins();
        let before = tasks.clone();
        let outcome = run_tasks(&mut tasks, &mut memory(routines, code), 2, budget, 0, &mut tally);
        tally.ran(&tasks[0].machine, outcome);
        tally.ran_tasks(&before, outcome);
        names(&tally.seen)
    }

    #[test]
    fn turns_have_the_right_names() {
        let with = |mask, waiting, block| machine(1, Lines { mask, waiting, block });
        let none = || with(0, 0, 0);
        assert_eq!(seen_in_turns([with(2, 2, 0), none()], READY, NOP, NOP, 3), [AT_FIRST]);
        let two = [AFTER_RTI, SEVERAL, AT_FIRST, WITHIN];
        let entered = seen_in_turns([with(6, 6, 0), none()], READY, RETURN, NOP, 2);
        assert!(entered.len() == 4 && two.iter().all(|name| entered.iter().any(|seen| seen == name)), "{entered:?}");
        assert_eq!(seen_in_turns([with(2, 2, 0), none()], 16, NOP, NOP, 3), [NOT_READY]);
        assert_eq!(seen_in_turns([none(), with(2, 2, 0)], READY, NOP, NOP, 3), [NO_ENTRY]);
        assert_eq!(seen_in_turns([none(), with(0, 0, 1)], 0, NOP, RETURN, 1), [RTI]);
        assert_eq!(seen_in_turns([none(), with(0, 0, 0)], 0, NOP, RETURN, 1), [NO_BLOCK, RTI_REFUSED]);
    }
}
