//! The programs, from the start of the process to its end: a million lines on table P, and two million.

use crate::random::Random;
use crate::report::{Target, heading, row};
use crate::tables;
use crate::timing::{Times, least_of};
use std::fs::{self, File};
use std::io::{self, BufWriter, Write};
use std::path::{Path, PathBuf};
use std::process::{Command, Stdio};
use std::time::Instant;

const LINES: usize = 1_000_000;
const ROUNDS: usize = 41;

/// Adds and steps of any of 32 senders, an add in four; before long all of them wait, on a board of 609 messages, and
/// nearly all lines are refused.
fn write_input(path: &Path, lines: usize) -> io::Result<()> {
    let mut out = BufWriter::new(File::create(path)?);
    let mut random = Random::new(7);
    for _ in 0..lines {
        let sender = random.below(32);
        if random.below(4) == 0 {
            let (channel, property) = (random.below(2), random.below(8));
            writeln!(out, "a {sender} {channel} {property} {}", random.below(200_000) as i64 - 100_000)?;
        } else {
            writeln!(out, "s {sender}")?;
        }
    }
    out.flush()
}

struct Run<'a> {
    program: &'a Path,
    folder: &'a Path,
    input: PathBuf,
}

impl Run<'_> {
    fn to(&self, out: Stdio) -> io::Result<()> {
        let input = File::open(&self.input)?;
        let status = Command::new(self.program).current_dir(self.folder).stdin(input).stdout(out).status()?;
        if status.success() { Ok(()) } else { Err(io::Error::other(format!("{}: {status}", self.program.display()))) }
    }

    fn nanoseconds(&self) -> f64 {
        let start = Instant::now();
        self.to(Stdio::null()).unwrap();
        start.elapsed().as_nanos() as f64
    }

    fn printout(&self) -> io::Result<Vec<u8>> {
        let path = self.folder.join("printout");
        self.to(File::create(&path)?.into())?;
        fs::read(path)
    }
}

/// Both programs on an input of so many lines, which they answer alike.
fn runs<'a>(programs: [&'a Path; 2], folder: &'a Path, lines: usize) -> io::Result<[Run<'a>; 2]> {
    let input = folder.join(format!("input-{lines}"));
    write_input(&input, lines)?;
    let runs = programs.map(|program| Run { program, folder, input: input.clone() });
    assert!(runs[0].printout()? == runs[1].printout()?, "the programs print different answers");
    Ok(runs)
}

pub fn lines(proved: &Path, plain: &Path, folder: &Path) -> io::Result<()> {
    fs::write(folder.join("rules.bin"), tables::P)?;
    let ([a, b], [c, d]) = (runs([proved, plain], folder, LINES)?, runs([proved, plain], folder, 2 * LINES)?);
    let [a, b, c, d] = least_of(
        ROUNDS,
        [&mut || a.nanoseconds(), &mut || b.nanoseconds(), &mut || c.nanoseconds(), &mut || d.nanoseconds()],
    );
    let (one, two) = (Times { proved: a, plain: b }, Times { proved: c, plain: d });
    heading("3 program on table P, output to null", "ms", "speed");
    row("1,000,000 lines", one.map(|ns| ns / 1e6), 1.0 / one.ratio(), Target::None);
    row("2,000,000 lines", two.map(|ns| ns / 1e6), 1.0 / two.ratio(), Target::None);
    let growth = Times { proved: c / a, plain: d / b };
    row("twice the lines take so many times as long", growth, growth.ratio(), Target::None);
    let speed = one.map(|ns| LINES as f64 * 1e6 / ns);
    row("thousand lines a second", speed, 1.0 / one.ratio(), Target::None);
    Ok(())
}
