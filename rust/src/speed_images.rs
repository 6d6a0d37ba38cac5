//! The programs of the speed table.
//!
//! The first two follow the primitive mixes that were counted in real Forth programs: one dominated by calls and returns
//! (a compiler), one by a loop over arrays (data acquisition). A constant or a variable of theirs is a literal here, and
//! the loop's end is spelled in codes, since no single code does it.

use crate::assembler::{assemble, image};

/// The largest budget: every program but the small one loops until it is spent.
const STEPS: u32 = 1_000_000;

pub struct SpeedImage {
    pub name: &'static str,
    pub file: Vec<u8>,
    /// Steps of one run.
    pub steps: u64,
    /// Costs are told for a step where the run is long, and for the whole run where it is small.
    pub per_step: bool,
}

pub fn speed_images() -> Vec<SpeedImage> {
    let long = |name, source: &str| SpeedImage {
        name,
        file: image(&assemble(source), &[1, 2], Some(STEPS)),
        steps: STEPS.into(),
        per_step: true,
    };
    vec![
        long("calls", CALLS),
        long("arrays", ARRAYS),
        long("exceptions", EXCEPTIONS),
        long("arithmetic", ARITHMETIC),
        long("branches", BRANCHES),
        long("flags", &flags(0x10000)),
        long("bytes", &flags(0x4000)),
        SpeedImage { name: "small run", file: image(&assemble(SMALL), &[1, 2], None), steps: 10, per_step: false },
    ]
}

/// A counter, two variables and a buffer of bytes, seen to by many short words.
const CALLS: &str = "
    start:   JSL tally  JSL text  JSL choose  BRA start

    counter: LOAD.W $4000  EXIT
    state:   LOAD.W $4004  EXIT

    tally:   JSL counter  DUP  FETCH.L  1+  SWAP  STORE.L
             JSL full  BEQ more
             ZERO  JSL counter  STORE.L
    more:    JSL mark  EXIT
    full:    JSL counter  FETCH.L  LOAD.B 200  =  EXIT

    mark:    JSL counter  FETCH.L  DUP  LOAD.B 3  AND  BEQ even
             LOAD.W $4004  STORE.L  BRA marked
    even:    DROP
    marked:  EXIT

    text:    JSL place  DUP  FETCH.B  DUP  BEQ blank
             1-  SWAP  STORE.B  EXIT
    blank:   DROP  LOAD.B 7  SWAP  STORE.B  EXIT
    place:   JSL counter  FETCH.L  LOAD.B 15  AND  LOAD.W $4100  +  EXIT

    choose:  JSL state  FETCH.L  DUP  >R  LOAD.B 1  AND  BEQ plain
             R>  DUP  JSL keep  BRA chosen
    plain:   R>  ?DUP  BEQ none
    chosen:  DROP
    none:    EXIT
    keep:    DUP  BEQ kept
             JSL state  FETCH.L  OVER  =  BEQ kept
             ZERO  OVER  OR  BEQ kept
    kept:    DROP  EXIT
";

/// Two arrays of bytes and one of cells: a difference with its sign taken off, a running sum and a peak.
const ARRAYS: &str = "
    start:   ZERO  ZERO  >R
    next:    R@  LOAD.W $4000  +  FETCH.B
             R@  LOAD.W $4100  +  FETCH.B  -
             DUP  0<  BEQ positive
             NEGATE
    positive:
             R@  LSL  LSL  LOAD.W $4200  +
             OVER  SWAP  STORE.L
             +
             R@  JSL cell  FETCH.L  +
             R@  LOAD.W $4100  +  DUP  FETCH.B  LOAD.B 3  +  SWAP  STORE.B
             R>  1+  DUP  >R  LOAD.B 64  =  BEQ next
             R>  DROP  LOAD.W $4400  STORE.L
             BRA start
    cell:    LSL  LSL  LOAD.W $4200  +  EXIT
";

/// Words under CATCH that return, throw at once, throw from a call below, and throw on what they caught.
const EXCEPTIONS: &str = "
    start:   LOAD.B good    CATCH ZERO  DROP
             LOAD.B bad     CATCH ZERO  DROP
             LOAD.B deep    CATCH ZERO  DROP
             LOAD.B again   CATCH ZERO  DROP
             BRA start
    good:    LOAD.B 5  LOAD.L $10000  STORE.L  LOAD.L $10000  FETCH.L  DROP  ZERO  THROW  EXIT
    bad:     LOAD.B 9  THROW
    deep:    JSL below  EXIT
    below:   JSL bottom  EXIT
    bottom:  LOAD.B 11  >R  R@  THROW
    again:   LOAD.B bad  CATCH ZERO  THROW  EXIT
";

/// A 64-bit sum, products, quotients, shifts and comparisons on the parameter stack.
const ARITHMETIC: &str = "
    start:   LOAD.L $9E3779B9  ROT  +  SWAP  LOAD.L $7F4A7C15  ADDX
             OVER  OVER  XOR
             DUP  LSL  XOR  DUP  LSR  LSR  XOR  DUP  2/  XOR
             LOAD.L $85EBCA6B  MULTU  XOR
             LOAD.W 641  DIVU  -
             NEGATE  INVERT  1+  1-
             LOAD.B 9  MULTS  SUBX
             LOAD.B 7  DIVS  OR
             DUP  XWORD  OVER  XBYTE  <  AND
             OVER  U<  0=  DROP
             BRA start
";

/// A count down to 0, again and again: of 401 steps, 399 are 1-, DUP and the branches.
const BRANCHES: &str = "
    start:   DROP  LOAD.B 100
    next:    1-  DUP  BEQ start
             BRA next
";

/// A word that keeps four flags in bytes from this address on, those of a local or of memory: each round sets three, asks
/// three and now and then counts in the fourth. Of 24 steps, 6 are FETCH.B or STORE.B.
fn flags(at: u32) -> String {
    let [odd, low, both, last] = [0, 1, 2, 3].map(|byte| format!("LOAD.L ${:X}", at + byte));
    // A call clears the local, so the STORE.L that clears all four at once is wanted by memory alone.
    format!(
        "
    start:   JSL survey  BRA start
    survey:  ZERO  {odd}  STORE.L
             LOAD.B 64
    next:    DUP  LOAD.B 1  AND  {odd}  STORE.B
             DUP  LOAD.B 9  U<  {low}  STORE.B
             {odd}  FETCH.B  {low}  FETCH.B  AND  BEQ asked
             {both}  FETCH.B  1+  {both}  STORE.B
    asked:   1-  DUP  0=  {last}  STORE.B
             {last}  FETCH.B  BEQ next
             DROP  EXIT
    "
    )
}

/// Ten steps and an end.
const SMALL: &str = "LOAD.B 5  LOAD.B 7  +  DUP  LOAD.W $4000  STORE.L  JSL word  1+  DUP  EXIT  word: EXIT";

#[cfg(test)]
mod tests {
    use super::*;
    use crate::model::bench::bench;
    use crate::model::observer::{Observer, Seen};
    use crate::model::state::{Answer, MEMORY};

    struct Counts([u64; 256]);

    impl Observer for Counts {
        fn completed(&mut self, code: u8, _: Seen, _: Seen) {
            self.0[usize::from(code)] += 1;
        }
    }

    fn counts(image: &SpeedImage) -> Counts {
        let mut counts = Counts([0; 256]);
        let outcome = bench(&image.file, &mut vec![0; MEMORY], &mut counts).outcome.expect("a good image");
        let expected = if image.per_step { Answer::BudgetSpent } else { Answer::Finished };
        assert_eq!((outcome.answer, outcome.steps), (expected, image.steps), "{}", image.name);
        counts
    }

    #[test]
    fn programs_run_as_long_as_they_say_and_flags_as_bytes_do() {
        let counted: Vec<_> = speed_images().iter().map(|image| (image.name, counts(image).0)).collect();
        let of = |name| counted.iter().find(|(known, _)| *known == name).expect("an image of this name").1;
        assert_eq!(of("flags"), of("bytes"));
    }

    #[test]
    fn calls_follow_the_counted_mix() {
        let counts = counts(&speed_images()[0]).0;
        let share = |codes: &[usize]| codes.iter().map(|&code| counts[code]).sum::<u64>() as f64 / 10_000.0;
        let branches = |first: usize| share(&(first..first + 64).collect::<Vec<_>>());
        let shares = [
            ("call", share(&[0x38]), 13.9),
            ("return", share(&[0x3D]), 13.6),
            ("branch on zero", branches(0x80), 7.8),
            ("dup", share(&[0x02]), 7.7),
            ("fetch", share(&[0x2D]), 6.3),
            ("constant, variable, literal", share(&[0x20, 0x34, 0x35, 0x36]), 15.9),
            ("branch", branches(0xC0), 3.5),
            ("swap", share(&[0x03]), 2.4),
            ("and", share(&[0x21]), 1.9),
            ("store", share(&[0x2E]), 1.9),
            ("drop", share(&[0x01]), 1.3),
        ];
        for (name, share, counted) in shares {
            assert!((share - counted).abs() < 2.5, "{name}: {share:.1} here, {counted} counted");
        }
    }
}
