//! The printed table.

use crate::timing::Times;

/// A bound on a figure.
#[derive(Clone, Copy)]
pub enum Target {
    None,
    AtMost(f64),
    AtLeast(f64),
}

impl Target {
    /// The bound, and whether it is kept.
    fn verdict(self, figure: f64) -> String {
        match self {
            Target::None => String::new(),
            Target::AtMost(most) => format!("<= {most:<4} {}", kept(figure <= most)),
            Target::AtLeast(least) => format!(">= {least:<4} {}", kept(figure >= least)),
        }
    }
}

fn kept(kept: bool) -> &'static str {
    if kept { "kept" } else { "MISSED" }
}

pub fn heading(text: &str, unit: &str, ratio: &str) {
    println!("\n{:50} {:>11} {:>11} {:>7}  target", format!("{text}, {unit}"), "proved", "plain Rust", ratio);
}

/// A figure of both, with a bound on their ratio.
pub fn row(name: &str, figures: Times, ratio: f64, target: Target) {
    let (proved, plain) = (number(figures.proved), number(figures.plain));
    println!("  {name:48} {proved:>11} {plain:>11} {ratio:>7.2}  {}", target.verdict(ratio));
}

/// A figure of both, with a bound on the proved one.
pub fn row_of_proved(name: &str, figures: Times, ratio: f64, target: Target) {
    let (proved, plain) = (number(figures.proved), number(figures.plain));
    println!("  {name:48} {proved:>11} {plain:>11} {ratio:>7.2}  {}", target.verdict(figures.proved));
}

pub fn heading_of_looks(unit: &str, ratio: &str) {
    let text = format!("4 a look over 1,024 messages, {unit}");
    let [proved, words, one, times] = ["proved", "plain Rust", "one by one", "times"];
    println!("\n{text:50} {proved:>11} {words:>11} {one:>11} {ratio:>7}  target         {times:>7}  target");
}

/// A figure of the proved looks, of plain Rust's by words, and of those one by one, with bounds on the ratios of these
/// two to the first.
pub fn row_of_looks(name: &str, figures: [f64; 3], targets: [Target; 2]) {
    let [speed, times] = [figures[1] / figures[0], figures[2] / figures[0]];
    let verdicts = [targets[0].verdict(speed), targets[1].verdict(times)];
    let [proved, words, one] = figures.map(number);
    print!("  {name:48} {proved:>11} {words:>11} {one:>11} {speed:>7.2}  {:14}", verdicts[0]);
    println!(" {times:>7.2}  {}", verdicts[1]);
}

/// Three digits or more, with commas between thousands.
fn number(value: f64) -> String {
    if value < 100.0 {
        return format!("{value:.1}");
    }
    let digits = format!("{value:.0}");
    let comma = |at: usize| at > 0 && (digits.len() - at).is_multiple_of(3);
    digits.chars().enumerate().flat_map(|(at, digit)| comma(at).then_some(',').into_iter().chain([digit])).collect()
}
