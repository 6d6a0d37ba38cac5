//! The door to the two machines that are not the model, the proved libraries and the plain C interpreter, and to the
//! painted stack.
//!
//! Nothing outside this file is unsafe.

use std::sync::Mutex;

/// The proved machine was not linked: the plain C interpreter answers under its names.
pub const STAND_IN: bool = cfg!(stand_in);

type Bench = unsafe extern "C" fn(*const u8, usize, *mut u8, usize, *mut u8, usize) -> u64;
type ReadImage = unsafe extern "C" fn(*const u8, usize, *mut u8, usize, *mut u8, usize, *mut u8, usize) -> u64;
type RunState = unsafe extern "C" fn(*mut u8, usize, *mut u8, usize, u64, u64, *mut u8, usize) -> u64;
type RunTasks = unsafe extern "C" fn(*mut u8, usize, *mut u8, usize, u64, u64, u64, *mut u8, usize) -> u64;
type OnLines = unsafe extern "C" fn(*mut u8, usize, u64) -> u64;

#[rustfmt::skip]
extern "C" {
    fn glidecotton_bench(image: *const u8, image_len: usize, memory: *mut u8, memory_len: usize, out: *mut u8, out_len: usize) -> u64;
    fn glidecotton_read_image(image: *const u8, image_len: usize, memory: *mut u8, memory_len: usize, state: *mut u8, state_len: usize, result: *mut u8, result_len: usize) -> u64;
    fn glidecotton_run_state(state: *mut u8, state_len: usize, memory: *mut u8, memory_len: usize, budget: u64, sum: u64, result: *mut u8, result_len: usize) -> u64;
    fn glidecotton_run_tasks(tasks: *mut u8, tasks_len: usize, memory: *mut u8, memory_len: usize, quantum: u64, budget: u64, sum: u64, result: *mut u8, result_len: usize) -> u64;
    fn glidecotton_raise_line(state: *mut u8, state_len: usize, line: u64) -> u64;
    fn glidecotton_set_mask(state: *mut u8, state_len: usize, mask: u64) -> u64;
    fn plain_bench(image: *const u8, image_len: usize, memory: *mut u8, memory_len: usize, out: *mut u8, out_len: usize) -> u64;
    fn plain_read_image(image: *const u8, image_len: usize, memory: *mut u8, memory_len: usize, state: *mut u8, state_len: usize, result: *mut u8, result_len: usize) -> u64;
    fn plain_run_state(state: *mut u8, state_len: usize, memory: *mut u8, memory_len: usize, budget: u64, sum: u64, result: *mut u8, result_len: usize) -> u64;
    fn plain_run_tasks(tasks: *mut u8, tasks_len: usize, memory: *mut u8, memory_len: usize, quantum: u64, budget: u64, sum: u64, result: *mut u8, result_len: usize) -> u64;
    fn plain_raise_line(state: *mut u8, state_len: usize, line: u64) -> u64;
    fn plain_set_mask(state: *mut u8, state_len: usize, mask: u64) -> u64;
    fn painted_call(function: *const (), nine_words: *const u64, painted_with: u8, its_answer: *mut u64) -> u64;
    static promised_stack: u64;
    static promised_tasks_stack: u64;
}

/// A machine behind the boundary.
#[derive(Clone, Copy)]
pub struct Foreign {
    bench: Bench,
    read_image: ReadImage,
    run_state: RunState,
    run_tasks: RunTasks,
    raise_line: OnLines,
    set_mask: OnLines,
}

pub const PROVED: Foreign = Foreign {
    bench: glidecotton_bench,
    read_image: glidecotton_read_image,
    run_state: glidecotton_run_state,
    run_tasks: glidecotton_run_tasks,
    raise_line: glidecotton_raise_line,
    set_mask: glidecotton_set_mask,
};
pub const PLAIN_C: Foreign = Foreign {
    bench: plain_bench,
    read_image: plain_read_image,
    run_state: plain_run_state,
    run_tasks: plain_run_tasks,
    raise_line: plain_raise_line,
    set_mask: plain_set_mask,
};

impl Foreign {
    /// Runs an image; gives the length of the text in `out`, or 2 where a buffer does not suit.
    pub fn bench(self, image: &[u8], memory: &mut [u8], out: &mut [u8]) -> u64 {
        // SAFETY: each pointer comes with the length of its own slice, no two slices overlap, and the callee keeps none.
        unsafe {
            (self.bench)(image.as_ptr(), image.len(), memory.as_mut_ptr(), memory.len(), out.as_mut_ptr(), out.len())
        }
    }

    /// Reads an image; gives 0, 14 where it is refused, or 2 where a buffer has a wrong length.
    pub fn read_image(self, image: &[u8], memory: &mut [u8], state: &mut [u8], result: &mut [u8]) -> u64 {
        // SAFETY: as above.
        unsafe {
            (self.read_image)(
                image.as_ptr(),
                image.len(),
                memory.as_mut_ptr(),
                memory.len(),
                state.as_mut_ptr(),
                state.len(),
                result.as_mut_ptr(),
                result.len(),
            )
        }
    }

    /// Runs a state spelled in bytes; gives 0, or 2 where `state` or `result` has a wrong length.
    pub fn run_state(self, state: &mut [u8], memory: &mut [u8], budget: u64, sum: u64, result: &mut [u8]) -> u64 {
        // SAFETY: as above.
        unsafe {
            (self.run_state)(
                state.as_mut_ptr(),
                state.len(),
                memory.as_mut_ptr(),
                memory.len(),
                budget,
                sum,
                result.as_mut_ptr(),
                result.len(),
            )
        }
    }

    /// Runs four tasks spelled in bytes; gives 0, or 2 where `tasks` or `result` has a wrong length.
    pub fn run_tasks(
        self,
        tasks: &mut [u8],
        memory: &mut [u8],
        quantum: u64,
        budget: u64,
        sum: u64,
        result: &mut [u8],
    ) -> u64 {
        // SAFETY: as above.
        unsafe {
            (self.run_tasks)(
                tasks.as_mut_ptr(),
                tasks.len(),
                memory.as_mut_ptr(),
                memory.len(),
                quantum,
                budget,
                sum,
                result.as_mut_ptr(),
                result.len(),
            )
        }
    }

    /// Makes a line of a state spelled in bytes wait; gives 0, or 2 where the state has a wrong length or there is no such
    /// line.
    pub fn raise_line(self, state: &mut [u8], line: u64) -> u64 {
        // SAFETY: as above.
        unsafe { (self.raise_line)(state.as_mut_ptr(), state.len(), line) }
    }

    /// Sets the mask of a state spelled in bytes; gives 0, or 2 where the state has a wrong length or the mask too many bits.
    pub fn set_mask(self, state: &mut [u8], mask: u64) -> u64 {
        // SAFETY: as above.
        unsafe { (self.set_mask)(state.as_mut_ptr(), state.len(), mask) }
    }
}

/// What a call on a painted stack gave.
pub struct Painted {
    pub answer: u64,
    /// Bytes of stack that it took, as `c/painted.c` counts them.
    pub stack: u64,
}

/// The bytes of stack that `glidecotton.h` says are enough for a call.
pub fn promise() -> u64 {
    // SAFETY: a constant of `c/painted.c`.
    unsafe { promised_stack }
}

/// And for a run of four tasks.
pub fn promise_of_tasks() -> u64 {
    // SAFETY: as above.
    unsafe { promised_tasks_stack }
}

/// Runs an image on a stack painted with a byte, by the proved machine.
pub fn painted_bench(paint: u8, image: &[u8], memory: &mut [u8], out: &mut [u8]) -> Painted {
    let words = [lent(image), lent_to_write(memory), lent_to_write(out)];
    // SAFETY: each pointer comes with the length of its own slice, no two slices overlap, and the callee keeps none.
    unsafe { painted(glidecotton_bench as *const (), &words.concat(), paint) }
}

/// Reads an image on a stack painted with a byte, by the proved reader.
pub fn painted_read_image(paint: u8, image: &[u8], memory: &mut [u8], state: &mut [u8], result: &mut [u8]) -> Painted {
    let words = [lent(image), lent_to_write(memory), lent_to_write(state), lent_to_write(result)];
    // SAFETY: as above.
    unsafe { painted(glidecotton_read_image as *const (), &words.concat(), paint) }
}

/// Runs a state with a budget and a sum on a stack painted with a byte, by the proved machine.
pub fn painted_run_state(paint: u8, state: &mut [u8], memory: &mut [u8], with: [u64; 2], result: &mut [u8]) -> Painted {
    let words = [lent_to_write(state), lent_to_write(memory), with, lent_to_write(result)];
    // SAFETY: as above.
    unsafe { painted(glidecotton_run_state as *const (), &words.concat(), paint) }
}

/// Runs four tasks with a quantum, a budget and a sum on a stack painted with a byte, by the proved machine.
pub fn painted_run_tasks(paint: u8, tasks: &mut [u8], memory: &mut [u8], with: [u64; 3], result: &mut [u8]) -> Painted {
    let words = [&lent_to_write(tasks)[..], &lent_to_write(memory), &with, &lent_to_write(result)];
    // SAFETY: as above.
    unsafe { painted(glidecotton_run_tasks as *const (), &words.concat(), paint) }
}

/// Makes a line wait on a stack painted with a byte, by the proved library.
pub fn painted_raise_line(paint: u8, state: &mut [u8], line: u64) -> Painted {
    let words = [&lent_to_write(state)[..], &[line]];
    // SAFETY: as above.
    unsafe { painted(glidecotton_raise_line as *const (), &words.concat(), paint) }
}

/// Sets the mask on a stack painted with a byte, by the proved library.
pub fn painted_set_mask(paint: u8, state: &mut [u8], mask: u64) -> Painted {
    let words = [&lent_to_write(state)[..], &[mask]];
    // SAFETY: as above.
    unsafe { painted(glidecotton_set_mask as *const (), &words.concat(), paint) }
}

fn lent(bytes: &[u8]) -> [u64; 2] {
    [bytes.as_ptr() as u64, bytes.len() as u64]
}

fn lent_to_write(bytes: &mut [u8]) -> [u64; 2] {
    [bytes.as_mut_ptr() as u64, bytes.len() as u64]
}

/// There is one painted stack.
static STACK: Mutex<()> = Mutex::new(());

/// The function must take these words, nine at the most, as a C function does, and be safe to call with them.
unsafe fn painted(function: *const (), words: &[u64], paint: u8) -> Painted {
    let _alone = STACK.lock();
    let mut nine = [0; 9];
    nine[..words.len()].copy_from_slice(words);
    let mut answer = 0;
    let stack = painted_call(function, nine.as_ptr(), paint, &mut answer);
    Painted { answer, stack }
}

#[cfg(test)]
mod tests {
    use super::*;

    /// Fills so many bytes of its frame with the byte that it is handed.
    extern "C" fn fills<const BYTES: usize>(byte: u64) -> u64 {
        std::hint::black_box([byte as u8; BYTES]).len() as u64
    }

    fn stack_of(function: extern "C" fn(u64) -> u64, byte: u8, paint: u8) -> u64 {
        // SAFETY: the function takes one word, and every word will do.
        unsafe { painted(function as *const (), &[byte.into()], paint).stack }
    }

    #[test]
    fn the_stack_of_a_call_is_seen() {
        let (small, large) = (stack_of(fills::<100>, 1, 0xA5), stack_of(fills::<5000>, 1, 0xA5));
        assert!((100..2_000).contains(&small), "{small}");
        assert!((small + 4_900..small + 20_000).contains(&large), "{small} and {large}");
    }

    #[test]
    fn what_is_written_in_the_colour_of_the_paint_is_seen_on_another() {
        let on_another = stack_of(fills::<5000>, 0xA5, 0x5A);
        assert!(on_another >= 5_000, "{on_another}");
    }

    #[rustfmt::skip]
    extern "C" fn all_nine(a: u64, b: u64, c: u64, d: u64, e: u64, f: u64, g: u64, h: u64, i: u64) -> u64 {
        [a, b, c, d, e, f, g, h, i].iter().fold(0, |number, word| 10 * number + word)
    }

    #[test]
    fn nine_words_are_handed_over() {
        // SAFETY: the function takes nine words, and every word will do.
        let painted = unsafe { painted(all_nine as *const (), &[1, 2, 3, 4, 5, 6, 7, 8, 9], 0xA5) };
        assert_eq!(painted.answer, 123_456_789);
    }

    #[test]
    fn a_call_gives_its_answer() {
        // SAFETY: as above.
        let painted = unsafe { painted(fills::<7> as *const (), &[0], 0xA5) };
        assert_eq!(painted.answer, 7);
    }
}
