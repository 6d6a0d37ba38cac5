//! The speed table: proved machine, plain C and model side by side on the same images, states and tasks; and what a host
//! saves that reads the memory sum.
//!
//! Instructions are counted by callgrind inside the entry function of each machine and repeat exactly; nanoseconds are
//! the best of several rounds and are only as quiet as the computer.

use std::process::{Command, ExitCode};
use std::time::Instant;

use glidecotton_rust::arguments::Arguments;
use glidecotton_rust::boundary::STAND_IN;
use glidecotton_rust::counts::grouped;
use glidecotton_rust::speed_states::{SHORT_RUN, SHORT_RUNS, WAYS};
use glidecotton_rust::speed_work::{all_work, Work, CONTENDERS};

/// A ratio above this is marked, and one of instructions fails.
const LIMIT: f64 = 1.15;
/// The same for four tasks in turns, and for a state in slices, of which most is that it is handed in and back.
const LIMIT_IN_TURNS: f64 = 1.4;
/// Rounds of timing, of which the quickest counts.
const ROUNDS: usize = 15;
/// Callgrind counts a string instruction once for each byte it moves; this keeps the C library from using them.
const NO_STRING_INSTRUCTIONS: &str =
    "glibc.cpu.x86_rep_stosb_threshold=1000000:glibc.cpu.x86_rep_movsb_threshold=1000000";

/// What the words ask for.
enum Wish {
    Times,
    TimesAndInstructions,
    /// One measurement, in the process that callgrind watches: the contender's or the way's name, and the work's number.
    Counted(String, usize),
}

fn wish() -> Result<Wish, ExitCode> {
    let mut arguments = Arguments::of_program()?;
    let times_alone = arguments.flag("--no-counting");
    let counted = arguments.value("--counted");
    let work = arguments.number("--work", 0)?;
    arguments.end()?;
    Ok(match counted {
        Some(name) => Wish::Counted(name, work as usize),
        None if times_alone => Wish::Times,
        None => Wish::TimesAndInstructions,
    })
}

fn main() -> ExitCode {
    let wish = match wish() {
        Ok(wish) => wish,
        Err(end) => return end,
    };
    let all = all_work();
    if let Wish::Counted(name, work) = wish {
        repeat(&name, &all[work]);
        return ExitCode::SUCCESS;
    }
    if STAND_IN {
        println!("the plain C interpreter stands in for the proved machine");
    }
    if let Some(work) = all.iter().find(|work| !work.all_agree()) {
        println!("the machines do not agree on '{}'", work.name());
        return ExitCode::FAILURE;
    }
    let [read, added_up] = WAYS.map(|way| way.repeat());
    if read != added_up {
        println!("the sums that are handed back are not what the memory adds up to");
        return ExitCode::FAILURE;
    }
    print_table("nanoseconds", &all, time);
    if let Wish::Times = wish {
        return ExitCode::SUCCESS;
    }
    let over = print_table("instructions", &all, count_instructions);
    print_ways();
    let limits = format!("{LIMIT}, or over {LIMIT_IN_TURNS} in turns and slices");
    if over > 0 {
        println!("{over} of the ratios of instructions are over {limits}");
        return ExitCode::FAILURE;
    }
    println!("no ratio of instructions is over {limits}");
    ExitCode::SUCCESS
}

/// Does what has this name, for callgrind to count.
fn repeat(name: &str, work: &Work) {
    if let Some(contender) = CONTENDERS.iter().find(|contender| contender.name == name) {
        contender.repeat(work);
    }
    if let Some(way) = WAYS.iter().find(|way| way.name == name) {
        way.repeat();
    }
}

/// Nanoseconds of each contender, the rounds of all taking turns.
fn time(_: usize, work: &Work) -> [f64; 3] {
    let mut best = [f64::INFINITY; 3];
    for _ in 0..ROUNDS {
        for (contender, best) in CONTENDERS.iter().zip(&mut best) {
            let start = Instant::now();
            contender.repeat(work);
            *best = best.min(start.elapsed().as_nanos() as f64 / work.units().0 as f64);
        }
    }
    best
}

fn count_instructions(index: usize, work: &Work) -> [f64; 3] {
    CONTENDERS.map(|contender| counted(contender.name, contender.entry(work), index) as f64 / work.units().0 as f64)
}

/// A host that reads the sum beside one that adds up the memory.
fn print_ways() {
    let [read, added_up] = WAYS.map(|way| counted(way.name, way.entry, 0) / SHORT_RUNS);
    println!(
        "instructions for a run of {SHORT_RUN} steps: {} with the memory sum read after it, {} with the memory added up afresh",
        grouped(read),
        grouped(added_up)
    );
}

/// Instructions inside the entry function of a contender or a way, what it calls included.
fn counted(name: &str, entry: &str, index: usize) -> u64 {
    let this_program = std::env::current_exe().expect("the program's own path");
    let output = Command::new("valgrind")
        .env("GLIBC_TUNABLES", NO_STRING_INSTRUCTIONS)
        .args(["--tool=callgrind", "--callgrind-out-file=/dev/null"])
        .arg(format!("--toggle-collect={entry}"))
        .arg(this_program)
        .args(["--stand-in", "--counted", name, "--work", &index.to_string()])
        .output()
        .unwrap_or_else(|error| panic!("valgrind: {error}"));
    let text = String::from_utf8_lossy(&output.stderr);
    text.lines()
        .find_map(|line| line.split_once("Collected : ")?.1.trim().parse().ok())
        .filter(|&count| count > 0)
        .unwrap_or_else(|| panic!("callgrind counted nothing in {entry}:\n{text}"))
}

/// Prints a row for each image, state and run of tasks, all rows together after the last is measured; gives how many of the
/// proved machine's ratios are over their limit.
fn print_table(title: &str, all: &[Work], measure: fn(usize, &Work) -> [f64; 3]) -> usize {
    let mut rows = format!("{title:<24}{:>10}{:>10}{:>10}   model/C  proved/C\n", "plain C", "proved", "model");
    let mut over = 0;
    for (index, work) in all.iter().enumerate() {
        eprintln!("measuring {title}: '{}', row {} of {}", work.name(), index + 1, all.len());
        let [c, proved, model] = measure(index, work);
        let ratio = proved / c;
        let limit = limit(work);
        let mark = if ratio > limit { " !" } else { "" };
        rows += &format!(
            "  {:<13}{:<9}{c:>10.1}{proved:>10.1}{model:>10.1}{:>10.2}{ratio:>10.2}  {}{mark}\n",
            work.name(),
            work.units().1,
            model / c,
            bar(ratio, limit)
        );
        over += usize::from(ratio > limit);
    }
    print!("{rows}");
    over
}

fn limit(work: &Work) -> f64 {
    match work {
        Work::Image(_) | Work::State(_) => LIMIT,
        Work::Lines(_) | Work::Tasks(_) => LIMIT_IN_TURNS,
    }
}

/// Twenty marks to the whole; a stroke stands at 1, at the limit and at 2.
fn bar(ratio: f64, limit: f64) -> String {
    let marks = |ratio: f64| (ratio * 20.0).round() as usize;
    let strokes = [1.0, limit, 2.0].map(marks);
    let filled = marks(ratio);
    let mut bar = String::new();
    for mark in 1..=filled.clamp(marks(2.0), marks(4.0)) {
        bar.push(if mark <= filled { '#' } else { '.' });
        if strokes.contains(&mark) {
            bar.push('|');
        }
    }
    bar
}
