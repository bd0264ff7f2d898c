//! A chart of lines over a number of messages, with its axes.

use crate::font;
use crate::png::Image;
use std::{io, path::Path};

const PALETTE: [[u8; 3]; 7] =
    [[255, 255, 255], [0, 0, 0], [215, 215, 215], [200, 30, 30], [30, 90, 200], [240, 150, 130], [130, 180, 240]];
const BLACK: u8 = 1;
const GREY: u8 = 2;
/// The first colour of a line.
const FIRST: u8 = 3;
const LEFT: i32 = 110;
const RIGHT: i32 = 930;
const TOP: i32 = 60;
const BOTTOM: i32 = 520;
/// The last number of the lower axis, and the steps of its numbers.
const MOST: i32 = 1024;
const MARKS: usize = 128;

pub struct Line {
    pub name: &'static str,
    pub points: Vec<(u16, f64)>,
}

struct Chart {
    image: Image,
    /// The last number of the left axis.
    most: i32,
}

pub fn draw(path: &Path, title: &str, lines: &[Line]) -> io::Result<()> {
    let most = lines.iter().flat_map(|line| &line.points).fold(0.0, |most: f64, point| most.max(point.1));
    let most = (most / 500.0).ceil() as i32 * 500;
    let mut chart = Chart { image: Image::new(960, 600), most };
    chart.text(LEFT, 20, title, BLACK);
    chart.axes();
    for (at, line) in lines.iter().enumerate() {
        let (colour, y) = (FIRST + at as u8, TOP + 14 + 24 * at as i32);
        chart.line(&line.points, colour);
        chart.stroke((LEFT + 20, y + 6), (LEFT + 60, y + 6), colour);
        chart.text(LEFT + 72, y, line.name, BLACK);
    }
    chart.image.write(path, &PALETTE)
}

impl Chart {
    fn place(&self, messages: f64, ns: f64) -> (i32, i32) {
        let x = f64::from(LEFT) + messages / f64::from(MOST) * f64::from(RIGHT - LEFT);
        let y = f64::from(BOTTOM) - ns / f64::from(self.most) * f64::from(BOTTOM - TOP);
        (x.round() as i32, y.round() as i32)
    }

    fn axes(&mut self) {
        for messages in (0..=MOST).step_by(MARKS) {
            let (x, _) = self.place(messages.into(), 0.0);
            (TOP..BOTTOM).for_each(|y| self.image.set(x, y, GREY));
            self.text(x - 6 * messages.to_string().len() as i32, BOTTOM + 12, &messages.to_string(), BLACK);
        }
        for ns in (0..=self.most).step_by((self.most as usize / 5).next_multiple_of(500)) {
            let (_, y) = self.place(0.0, ns.into());
            (LEFT..RIGHT).for_each(|x| self.image.set(x, y, GREY));
            self.text(LEFT - 12 - 12 * ns.to_string().len() as i32, y - 6, &ns.to_string(), BLACK);
        }
        (LEFT..=RIGHT).for_each(|x| self.image.set(x, BOTTOM, BLACK));
        (TOP..=BOTTOM).for_each(|y| self.image.set(LEFT, y, BLACK));
        self.text(LEFT + 280, BOTTOM + 44, "messages on the board", BLACK);
        self.text(20, TOP - 30, "ns", BLACK);
    }

    fn line(&mut self, points: &[(u16, f64)], colour: u8) {
        let places: Vec<_> = points.iter().map(|&(messages, ns)| self.place(messages.into(), ns)).collect();
        places.windows(2).for_each(|ends| self.stroke(ends[0], ends[1], colour));
        for (x, y) in places {
            (0..49).for_each(|at| self.image.set(x - 3 + at % 7, y - 3 + at / 7, colour));
        }
    }

    /// A straight line, three pixels wide.
    fn stroke(&mut self, from: (i32, i32), to: (i32, i32), colour: u8) {
        let (across, down) = (to.0 - from.0, to.1 - from.1);
        let count = across.abs().max(down.abs()).max(1);
        for at in 0..=count {
            let (x, y) = (from.0 + across * at / count, from.1 + down * at / count);
            (0..9).for_each(|dot| self.image.set(x - 1 + dot % 3, y - 1 + dot / 3, colour));
        }
    }

    /// Letters of twice their size.
    fn text(&mut self, x: i32, y: i32, text: &str, colour: u8) {
        for (place, letter) in (0..).zip(text.chars()) {
            for (column, bits) in (0..).zip(font::columns(letter)) {
                for dot in (0..32).filter(|dot| bits >> (dot / 4) & 1 == 1) {
                    self.image.set(x + 12 * place + 2 * column + dot % 2, y + dot / 2, colour);
                }
            }
        }
    }
}
