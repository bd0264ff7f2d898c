//! Instructions of a look, counted by callgrind: the program runs itself under valgrind.

use crate::looks::{self, Looks};
use crate::report::{Target, heading_of_looks, row_of_looks};
use crate::world::{Proved, restore};
use reference::{Rows, calls};
use std::io::{Error, Result};
use std::process::Command;
use std::{env, str};

/// Proved, plain Rust by words, and one by one.
const SIDES: [&str; 3] = ["proved", "words", "one"];

pub fn table() -> Result<()> {
    heading_of_looks("instructions", "ratio");
    for (row, looks) in looks::all().iter().enumerate() {
        let mut figures = [0.0; 3];
        for (figure, side) in figures.iter_mut().zip(SIDES) {
            *figure = (counted(row, side, 2)? - counted(row, side, 1)?) / looks.steps().len() as f64;
        }
        row_of_looks(looks.name, figures, [Target::None; 2]);
    }
    Ok(())
}

/// The instructions of a whole run of this program.
fn counted(row: usize, side: &str, times: usize) -> Result<f64> {
    let mut valgrind = Command::new("valgrind");
    valgrind.args(["--tool=callgrind", "--callgrind-out-file=/dev/null"]).arg(env::current_exe()?);
    let output = valgrind.args(["looks", side, &row.to_string(), &times.to_string()]).output()?;
    let said = str::from_utf8(&output.stderr).map_err(Error::other)?;
    let count = said.lines().find_map(|line| line.split_once("Collected : ")?.1.trim().parse().ok());
    count.filter(|_| output.status.success()).ok_or_else(|| Error::other(said))
}

/// Plays a row's looks twice, or once and then a list of none, so that the two runs differ by the looks alone.
pub fn play(side: &str, row: usize, times: usize) {
    let looks = &looks::all()[row];
    let (steps, none) = (looks.steps(), Rows::default());
    let lists = [&steps, if times == 2 { &steps } else { &none }];
    match side {
        "proved" => play_proved(looks, lists),
        "words" => play_words(looks, lists),
        _ => play_one_by_one(looks, lists),
    }
}

fn play_proved(looks: &Looks, lists: [&Rows; 2]) {
    let saved = Proved::of(&looks.board());
    let (mut proved, mut answers) = (saved.clone(), vec![0; lists[0].len()]);
    for rows in lists {
        proved.restore(&saved);
        assert_eq!(proved.replay(&looks.table, rows, &mut answers), 0);
    }
}

fn play_words(looks: &Looks, lists: [&Rows; 2]) {
    let saved = looks.board();
    let (mut board, mut answers) = (saved.clone(), vec![0; lists[0].len()]);
    for rows in lists {
        restore(&mut board, &saved);
        calls::replay(&looks.table, &mut board, rows, &mut answers).unwrap();
    }
}

fn play_one_by_one(looks: &Looks, lists: [&Rows; 2]) {
    let (board, mut answers) = (looks.board(), vec![0; lists[0].len()]);
    for rows in lists {
        looks.one_by_one(&board, &mut answers[..rows.len()]);
    }
}
