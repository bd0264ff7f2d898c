//! Times the proved host library and program beside plain Rust, prints the table and draws the cost of a step.
//!
//! `bench FOLDER PROGRAM`: the folder for inputs and the chart, and the proved program; plain Rust's `play` stands
//! beside this one. `bench instructions` counts the looks' instructions; for that it runs itself under valgrind as
//! `bench looks SIDE ROW TIMES`, without a clock.

mod chart;
mod font;
mod instructions;
mod looks;
mod merges;
mod png;
mod program;
mod public;
mod random;
mod replays;
mod report;
mod schedule;
mod tables;
mod timing;
mod world;

use chart::Line;
use public::Kind;
use std::path::Path;
use std::{env, fs, io};
use timing::Times;

/// How often each point of the chart is measured, so that a minute's disturbance does not bend a line.
const PASSES: usize = 5;

/// The least times of a step by messages, over all passes.
fn costs(kind: Kind) -> Vec<(u16, Times)> {
    let point = |messages| (messages, public::step_times(messages, kind));
    let pass = |_| (0..=1024).step_by(64).map(point).collect();
    let least = |best: Vec<(u16, Times)>, next: Vec<(u16, Times)>| {
        best.into_iter().zip(next).map(|((at, best), (_, next))| (at, best.least(next))).collect()
    };
    (0..PASSES).map(pass).reduce(least).unwrap()
}

/// The cost of a public step against the number of messages.
fn draw_cost(path: &Path) -> io::Result<()> {
    let (claims, looks) = (costs(Kind::Claim), costs(Kind::Look));
    let proved = |points: &[(u16, Times)]| points.iter().map(|&(at, times)| (at, times.proved)).collect();
    let plain = |points: &[(u16, Times)]| points.iter().map(|&(at, times)| (at, times.plain)).collect();
    let lines = [
        Line { name: "proved, a claim", points: proved(&claims) },
        Line { name: "plain Rust, a claim", points: plain(&claims) },
        Line { name: "proved, a look over all", points: proved(&looks) },
        Line { name: "plain Rust, a look over all", points: plain(&looks) },
    ];
    chart::draw(path, "cost of a public step, all tests included", &lines)
}

/// All that is timed.
fn time(folder: &Path, proved: &Path) -> io::Result<()> {
    fs::create_dir_all(folder)?;
    let plain = env::current_exe()?.with_file_name("play");
    public::calls_of_all_sizes();
    replays::matches();
    replays::adds();
    program::lines(&fs::canonicalize(proved)?, &plain, folder)?;
    looks::looks();
    public::soundness();
    merges::merges();
    let chart = folder.join("cost.png");
    draw_cost(&chart)?;
    println!("\nchart: {}", chart.display());
    Ok(())
}

fn main() -> io::Result<()> {
    let arguments: Vec<String> = env::args().skip(1).collect();
    let arguments: Vec<&str> = arguments.iter().map(String::as_str).collect();
    let number = |text: &str| text.parse().map_err(io::Error::other);
    match arguments[..] {
        ["instructions"] => instructions::table(),
        ["looks", side, row, times] => {
            instructions::play(side, number(row)?, number(times)?);
            Ok(())
        }
        [folder, proved] => time(folder.as_ref(), proved.as_ref()),
        _ => Err(io::Error::other("bench FOLDER PROGRAM, or bench instructions")),
    }
}
