//! The sizes of the frames in a library, read from its code as objdump prints it.

/// A function that is left in a library, and the bytes of its frame: all that it puts on the stack but what it calls.
#[derive(Debug, PartialEq)]
pub struct Frame {
    pub function: String,
    pub bytes: u64,
}

/// Reads what `objdump -d --no-show-raw-insn` prints of x86-64 code. Whatever moves the stack pointer down counts once, wherever in a
/// function it stands; what moves it in a way that no size can be told of is refused.
pub fn frames(text: &str) -> Result<Vec<Frame>, String> {
    let mut frames = Vec::new();
    let mut probe = Probe::None;
    for line in text.lines() {
        if let Some(name) = line.split_once(" <").and_then(|(_, rest)| rest.strip_suffix(">:")) {
            frames.push(Frame { function: name.to_string(), bytes: 0 });
            probe = Probe::None;
        } else if let Some((_, instruction)) = line.split_once(":\t") {
            let frame = frames.last_mut().ok_or_else(|| format!("code before any function: {line}"))?;
            let (bytes, next) = moved(instruction, probe)
                .ok_or_else(|| format!("{}: no frame of a fixed size: {instruction}", frame.function))?;
            frame.bytes += bytes;
            probe = next;
        }
    }
    match frames.is_empty() {
        true => Err("no function".to_string()),
        false => Ok(frames),
    }
}

/// How far the code is in the loop that touches a large frame page by page: a register becomes the stack pointer less the frame's size, and
/// the stack pointer goes down to it in steps of which that size has a whole number.
#[derive(Clone, Copy)]
enum Probe<'a> {
    None,
    Copied(&'a str),
    Bound(&'a str, u64),
    Steps(&'a str),
}

/// By how many bytes an instruction moves the stack pointer down, and how far the probing is behind it.
fn moved<'a>(instruction: &'a str, probe: Probe<'a>) -> Option<(u64, Probe<'a>)> {
    let (mnemonic, operands) = instruction.split_once(' ').unwrap_or((instruction, ""));
    let operands = operands.split('#').next().unwrap_or("").trim();
    match (mnemonic, operands.rsplit_once(','), probe) {
        ("push", ..) => Some((8, Probe::None)),
        ("mov", Some(("%rsp", register)), _) => Some((0, Probe::Copied(register))),
        ("sub", Some((size, register)), Probe::Copied(copy)) if register == copy => {
            Some((0, Probe::Bound(register, number(size)?)))
        }
        ("sub", Some((step, "%rsp")), Probe::Bound(register, size)) => {
            (size % number(step)? == 0).then_some((size, Probe::Steps(register)))
        }
        ("movq", Some(("$0x0", "(%rsp)")), Probe::Steps(_)) => Some((0, probe)),
        ("cmp", Some((register, "%rsp")), Probe::Steps(bound)) if register == bound => Some((0, Probe::None)),
        (_, _, Probe::Steps(_)) => None,
        ("sub", Some((size, "%rsp")), _) => Some((number(size)?, Probe::None)),
        ("add" | "cmp" | "test", Some((_, "%rsp")), _) => Some((0, Probe::None)),
        ("pop", ..) => (operands != "%rsp").then_some((0, Probe::None)),
        ("leave" | "enter", ..) => None,
        (_, Some((_, "%rsp")), _) => None,
        _ => Some((0, Probe::None)),
    }
}

/// A number that stands in the code itself.
fn number(text: &str) -> Option<u64> {
    u64::from_str_radix(text.strip_prefix("$0x")?, 16).ok().filter(|number| *number > 0 && *number < 1 << 31)
}

/// No function calls itself, so that a call takes no more than all frames together.
pub fn sum(frames: &[Frame]) -> u64 {
    frames.iter().map(|frame| frame.bytes).sum()
}

#[cfg(test)]
mod tests {
    use super::*;

    fn of(function: &str, bytes: u64) -> Frame {
        Frame { function: function.to_string(), bytes }
    }

    fn code(instructions: &[&str]) -> String {
        let lines: String = instructions.iter().map(|instruction| format!("  1f:\t{instruction}\n")).collect();
        format!("In archive libone.a:\n\none.o:     file format elf64-x86-64\n\n0000000000000000 <one::two>:\n{lines}")
    }

    #[test]
    fn frames_are_read_and_added() {
        let first = code(&[
            "push   %rbp",
            "sub    $0xc00,%rsp",
            "movq   $0x0,(%rsp)",
            "sub    $0x2b8,%rsp",
            "add    $0xeb8,%rsp",
        ]);
        let read = frames(&format!("{first}\n0000000000000020 <three>:\n  20:\tlea    0x8(%rsp),%rdi\n  25:\tret\n"));
        let read = read.expect("two frames");
        assert_eq!(read, [of("one::two", 8 + 0xc00 + 0x2b8), of("three", 0)]);
        assert_eq!(sum(&read), 3776);
    }

    #[test]
    fn a_probed_frame_counts_once() {
        let start = ["mov    %rsp,%r11", "sub    $0x7800,%r11", "sub    $0xc00,%rsp", "movq   $0x0,(%rsp)"];
        let end = ["cmp    %r11,%rsp", "jne    14 <one::two+0x14>", "sub    $0xb18,%rsp", "ret"];
        let whole: Vec<_> = start.iter().chain(&end).copied().collect();
        assert_eq!(frames(&code(&whole)), Ok(vec![of("one::two", 0x7800 + 0xb18)]));
        for (at, other) in [(1, "sub    $0x7801,%r11"), (3, "ret"), (4, "cmp    %r10,%rsp"), (4, "add    $0xc00,%rsp")]
        {
            let mut wrong = whole.clone();
            wrong[at] = other;
            assert!(frames(&code(&wrong)).is_err(), "{other}");
        }
    }

    #[test]
    fn other_frames_are_refused() {
        for wrong in [
            "sub    %rax,%rsp",
            "and    $0xffffffffffffffe0,%rsp",
            "mov    %rbp,%rsp",
            "lea    -0x28(%rbp),%rsp",
            "pop    %rsp",
            "leave",
            "sub    $0xffffffffffffff80,%rsp",
        ] {
            assert!(frames(&code(&["push   %rbx", wrong])).is_err(), "{wrong}");
        }
        assert!(frames("").is_err());
        assert!(frames("  1f:\tret\n").is_err());
    }
}
