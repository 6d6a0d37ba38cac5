//! The stack table: the most that each exported function was seen to take on a painted stack, beside the frames of
//! its library.

use std::convert::Infallible;
use std::fs;
use std::path::Path;
use std::process::{Command, ExitCode};

use glidecotton_rust::arguments::{refuse, Arguments};
use glidecotton_rust::boundary::{promise, promise_of_tasks, STAND_IN};
use glidecotton_rust::budgets::edges;
use glidecotton_rust::chains::any_state;
use glidecotton_rust::comparison::Room;
use glidecotton_rust::counts::grouped;
use glidecotton_rust::damage::sweep;
use glidecotton_rust::frames::{frames, sum, Frame};
use glidecotton_rust::model::state::MEMORY;
use glidecotton_rust::painted::{Depth, Depths};
use glidecotton_rust::programs::{any_image, buffers};
use glidecotton_rust::progress::Progress;
use glidecotton_rust::random::Random;
use glidecotton_rust::task_chains::any_tasks;

const FOLDERS: [&str; 2] = ["../sheet", "../samples"];
/// Where the libraries are.
const LIBRARIES: &str = "../target/staticlib";
/// The folders have at least so many images.
const LEAST_WRITTEN: u64 = 350;
/// Each function is to be called at least so often.
const LEAST_CALLS: u64 = 10_000;
/// On x86-64 a call puts this on the stack beside the frame, also a call of memcpy or memset.
const RETURN_ADDRESS: u64 = 8;
/// And so much memcpy and memset, which the C library has, may write below their stack pointer.
const BELOW_THE_POINTER: u64 = 128;

struct Plan {
    seed: u64,
    images: u64,
    states: u64,
    tasks: u64,
}

/// A row of the table.
struct Row {
    function: &'static str,
    depth: Depth,
    frames: Vec<Frame>,
    /// What `glidecotton.h` says is enough.
    promised: u64,
}

fn plan() -> Result<Plan, ExitCode> {
    if STAND_IN {
        return Err(refuse("the proved libraries are not linked: there is nothing to measure"));
    }
    let mut arguments = Arguments::of_program()?;
    let short = arguments.flag("--short");
    let seed = arguments.number("--seed", 1)?;
    let images = arguments.number("--images", if short { 30_000 } else { 300_000 })?;
    let states = arguments.number("--states", if short { 15_000 } else { 150_000 })?;
    let tasks = arguments.number("--tasks", if short { 15_000 } else { 150_000 })?;
    arguments.end()?;
    Ok(Plan { seed, images, states, tasks })
}

fn main() -> ExitCode {
    let plan = match plan() {
        Ok(plan) => plan,
        Err(end) => return end,
    };
    match measured(&plan) {
        Ok(faults) if faults.is_empty() => ExitCode::SUCCESS,
        Ok(faults) => failed(&faults),
        Err(why) => failed(&[why]),
    }
}

fn failed(why: &[String]) -> ExitCode {
    why.iter().for_each(|line| println!("FAILED: {line}"));
    ExitCode::FAILURE
}

/// Measures and prints the table; gives what is wrong with it, or why there is none.
fn measured(plan: &Plan) -> Result<Vec<String>, String> {
    let [of_bench, of_read_image, of_run_state, of_run_tasks, of_raise_line, of_set_mask] = [
        frames_of("glidecotton", "glidecotton_bench")?,
        frames_of("reader", "glidecotton_read_image")?,
        frames_of("host", "glidecotton_run_state")?,
        frames_of("tasks", "glidecotton_run_tasks")?,
        frames_of("lines", "glidecotton_raise_line")?,
        frames_of("lines", "glidecotton_set_mask")?,
    ];
    let mut depths = Depths::default();
    let mut random = Random::new(plan.seed);
    let written = measure_written(&mut depths)?;
    let images = measure_images(&mut depths, &mut random, plan.images);
    let states = measure_runs("states measured", plan.states, || any_state(&mut depths, &mut random));
    let tasks = measure_runs("runs of four tasks measured", plan.tasks, || any_tasks(&mut depths, &mut random));

    let rows = [
        Row { function: "glidecotton_bench", depth: depths.bench, frames: of_bench, promised: promise() },
        Row {
            function: "glidecotton_read_image",
            depth: depths.read_image,
            frames: of_read_image,
            promised: promise(),
        },
        Row { function: "glidecotton_run_state", depth: depths.run_state, frames: of_run_state, promised: promise() },
        Row {
            function: "glidecotton_run_tasks",
            depth: depths.run_tasks,
            frames: of_run_tasks,
            promised: promise_of_tasks(),
        },
        Row {
            function: "glidecotton_raise_line",
            depth: depths.raise_line,
            frames: of_raise_line,
            promised: promise(),
        },
        Row { function: "glidecotton_set_mask", depth: depths.set_mask, frames: of_set_mask, promised: promise() },
    ];
    print_table(&rows);
    println!(
        "in {} images of sheet/ and samples/, {} generated ones, {} states and {} runs of four tasks",
        grouped(written),
        grouped(images),
        grouped(states),
        grouped(tasks)
    );
    let too_few =
        (written < LEAST_WRITTEN).then(|| format!("sheet/ and samples/ have fewer than {LEAST_WRITTEN} images"));
    Ok(rows.iter().flat_map(faults).chain(too_few).collect())
}

/// The frames of a library, which must have this function that it exports.
fn frames_of(library: &str, exported: &str) -> Result<Vec<Frame>, String> {
    let file = format!("{LIBRARIES}/lib{library}.a");
    let mut objdump = Command::new("objdump");
    let printed = objdump.args(["-d", "--no-show-raw-insn", &file]).env("LC_ALL", "C").output();
    let printed = printed.map_err(|error| format!("objdump: {error}"))?;
    if !printed.status.success() {
        return Err(format!("objdump {file}: {}", String::from_utf8_lossy(&printed.stderr)));
    }
    let frames = frames(&String::from_utf8_lossy(&printed.stdout)).map_err(|why| format!("{file}: {why}"))?;
    match frames.iter().any(|frame| frame.function == exported) {
        true => Ok(frames),
        false => Err(format!("{file} has no frame of {exported}")),
    }
}

/// The images that lie in the folders; gives their number.
fn measure_written(depths: &mut Depths) -> Result<u64, String> {
    let mut seen = 0;
    for folder in FOLDERS {
        let entries = fs::read_dir(folder).map_err(|error| format!("{folder}: {error}"))?;
        for path in entries.flatten().map(|entry| entry.path()).filter(|path| is_image(path)) {
            let file = fs::read(&path).map_err(|error| format!("{}: {error}", path.display()))?;
            depths.image(&file, MEMORY, Room::Plenty);
            seen += 1;
        }
    }
    Ok(seen)
}

fn is_image(path: &Path) -> bool {
    path.extension().is_some_and(|ending| ending == "image")
}

/// Damaged files, edges of budgets and random images; gives their number.
fn measure_images(depths: &mut Depths, random: &mut Random, images: u64) -> u64 {
    let mut progress = Progress::new("images measured", images);
    let fixed: Vec<_> = sweep().into_iter().chain(edges()).collect();
    fixed.iter().for_each(|file| depths.image(file, MEMORY, Room::Plenty));
    let mut done = fixed.len() as u64;
    while done < images {
        progress.done(done);
        let (_, file) = any_image(random);
        let (memory, room) = buffers(random);
        depths.image(&file, memory, room);
        done += 1;
    }
    done
}

/// Random states or tasks, well formed and broken; gives the number of runs.
fn measure_runs(what: &'static str, wanted: u64, mut some: impl FnMut() -> Result<u64, Infallible>) -> u64 {
    let mut progress = Progress::new(what, wanted);
    let mut done = 0;
    while done < wanted {
        progress.done(done);
        let Ok(runs) = some();
        done += runs;
    }
    done
}

/// A row for each function, and where its library has more functions than one, a line for each frame below it.
fn print_table(rows: &[Row]) {
    println!("{:<26}{:>13}{:>11}{:>11}", "bytes of stack", "deepest seen", "frames", "promised");
    for row in rows {
        let [deepest, frames, promised] = [row.depth.deepest, sum(&row.frames), row.promised].map(grouped);
        println!("  {:<24}{deepest:>13}{frames:>11}{promised:>11}", row.function);
        if row.frames.len() > 1 {
            row.frames.iter().for_each(|frame| println!("    {:<35}{:>11}", frame.function, grouped(frame.bytes)));
        }
    }
}

/// What is wrong with a row.
fn faults(row: &Row) -> Vec<String> {
    let Row { function, depth, frames, promised } = row;
    let explained = sum(frames) + RETURN_ADDRESS * frames.len() as u64 + BELOW_THE_POINTER;
    let took = format!("{function} took {} bytes", grouped(depth.deepest));
    let enough = grouped(*promised);
    let mut faults = Vec::new();
    if depth.calls < LEAST_CALLS {
        faults.push(format!("{function} was called {} times, and {LEAST_CALLS} are the least", depth.calls));
    }
    // A function may keep all in registers.
    if depth.deepest == 0 && sum(frames) > 0 {
        faults.push(format!("{took}: nothing was measured"));
    }
    if depth.deepest > *promised {
        faults.push(format!("{took}, and glidecotton.h promises {enough}"));
    }
    if explained > *promised {
        faults.push(format!("the frames of {function} come to {}, and {enough} are promised", grouped(explained)));
    }
    if depth.deepest > explained {
        faults.push(format!("{took}, and its frames explain {}", grouped(explained)));
    }
    faults
}
