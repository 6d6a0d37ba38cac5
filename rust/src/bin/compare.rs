//! Compares the proved machine with the model, on images, on states and on four tasks.

use std::process::ExitCode;
use std::time::Instant;

use glidecotton_rust::arguments::Arguments;
use glidecotton_rust::boundary::STAND_IN;
use glidecotton_rust::budgets::edges;
use glidecotton_rust::chains::{any_state, in_slices, Lengths};
use glidecotton_rust::comparison::{Comparison, Difference, Room};
use glidecotton_rust::counts::grouped;
use glidecotton_rust::damage::sweep;
use glidecotton_rust::model::image::Loaded;
use glidecotton_rust::model::state::MEMORY;
use glidecotton_rust::programs::{any_image, buffers, lengths_of_read};
use glidecotton_rust::progress::Progress;
use glidecotton_rust::random::Random;
use glidecotton_rust::task_chains::any_tasks;

struct Plan {
    seed: u64,
    images: u64,
    states: u64,
    tasks: u64,
}

fn plan() -> Result<Plan, ExitCode> {
    let mut arguments = Arguments::of_program()?;
    let short = arguments.flag("--short");
    let seed = arguments.number("--seed", 1)?;
    let images = arguments.number("--images", if short { 400_000 } else { 3_000_000 })?;
    let states = arguments.number("--states", if short { 150_000 } else { 600_000 })?;
    let tasks = arguments.number("--tasks", if short { 100_000 } else { 500_000 })?;
    arguments.end()?;
    Ok(Plan { seed, images, states, tasks })
}

fn main() -> ExitCode {
    let Plan { seed, images, states, tasks } = match plan() {
        Ok(plan) => plan,
        Err(end) => return end,
    };
    let subject = if STAND_IN { "the plain C interpreter (a stand-in)" } else { "the proved machine" };
    println!(
        "{subject} against the model: seed {seed}, {} images, {} states, {} runs of four tasks",
        grouped(images),
        grouped(states),
        grouped(tasks)
    );
    let start = Instant::now();
    let mut random = Random::new(seed);
    let mut comparison = Comparison::new(&mut random);
    let result = compare_images(&mut comparison, &mut random, images)
        .and_then(|()| compare_runs("states compared", states, || any_state(&mut comparison, &mut random)))
        .and_then(|()| compare_runs("runs of four tasks compared", tasks, || any_tasks(&mut comparison, &mut random)));
    if let Err(Difference(text)) = result {
        println!("A DIFFERENCE (seed {seed})\n{text}");
        return ExitCode::FAILURE;
    }
    print!("{}", comparison.tally);
    println!("no difference in {} seconds", start.elapsed().as_secs());
    let shortfalls = comparison.tally.shortfalls();
    for shortfall in &shortfalls {
        println!("TOO SELDOM: {shortfall}");
    }
    if shortfalls.is_empty() {
        ExitCode::SUCCESS
    } else {
        ExitCode::FAILURE
    }
}

fn compare_images(comparison: &mut Comparison, random: &mut Random, images: u64) -> Result<(), Difference> {
    let mut progress = Progress::new("images compared", images);
    let swept = sweep().into_iter().map(|file| ("image: swept damage", file));
    let fixed: Vec<_> = swept.chain(edges().map(|file| ("image: edge of a budget", file))).collect();
    for (kind, file) in &fixed {
        comparison.tally.kind(kind);
        comparison.image(file, MEMORY, Room::Plenty)?;
        comparison.read(file, Lengths::OF_READ)?;
    }
    for done in fixed.len() as u64..images {
        progress.done(done);
        let (kind, file) = any_image(random);
        comparison.tally.kind(kind);
        let (memory, room) = buffers(random);
        if let Some(steps) = comparison.image(&file, memory, room)? {
            comparison.tally.program(steps);
        }
        if random.percent(25) {
            compare_read(comparison, random, &file)?;
        }
    }
    Ok(())
}

/// Compares what the reader makes of an image, and now and then runs of that, with the reader's sum.
fn compare_read(comparison: &mut Comparison, random: &mut Random, file: &[u8]) -> Result<(), Difference> {
    let read = comparison.read(file, lengths_of_read(random))?;
    if let Some((Loaded { mut machine, budget, .. }, mut memory)) = read.filter(|_| random.percent(20)) {
        in_slices(comparison, random, "state: as it was read", &mut machine, &mut memory, budget)?;
    }
    Ok(())
}

/// Compares runs of states or of tasks until there are as many as wanted.
fn compare_runs(
    what: &'static str,
    wanted: u64,
    mut some: impl FnMut() -> Result<u64, Difference>,
) -> Result<(), Difference> {
    let mut progress = Progress::new(what, wanted);
    let mut runs = 0;
    while runs < wanted {
        progress.done(runs);
        runs += some()?;
    }
    Ok(())
}
