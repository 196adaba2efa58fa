//! The arm that a truth picks, beside a copy of its plane.
use crate::inputs::{output, Input};
use crate::race::{Race, Side};
use crate::{side, ROUNDS};
use std::hint::black_box;
use vowherunga::arm::chosen_arm;
use vowherunga::reference::draw::Rng;
use vowherunga::{Truth, MAX_WIDTH};

const WIDTHS: [u32; 3] = [64, 4096, MAX_WIDTH];

pub struct Arms(Vec<(u32, Race)>);

impl Arms {
    pub fn new(rng: &mut Rng) -> Arms {
        let race = |width| {
            let [a, b] = [(), ()].map(|()| Input::random(rng, width, true));
            let (plane, _) = output(width);
            let copy: Side = Box::new(move |calls| {
                for _ in 0..calls {
                    plane.copy_from_slice(black_box(&a).value);
                    black_box(&plane);
                }
            });
            let chosen = side(move || chosen_arm(black_box(Truth::True), black_box(&a).value, black_box(&b).value));
            (width, Race::new(vec![copy, chosen]))
        };
        Arms(WIDTHS.into_iter().map(race).collect())
    }

    pub fn round(&mut self) {
        self.0.iter_mut().for_each(|(_, race)| race.round());
    }

    pub fn print(&self) {
        println!("\n| op | width | copy of a plane ns | arm ns | ratio | least and largest of {ROUNDS} rounds |");
        println!("|---|---|---|---|---|---|");
        for (width, race) in &self.0 {
            let r = race.result();
            println!(
                "| arm | {width} | {:.1} | {:.1} | {:.5} | {:.5} to {:.5} |",
                r.times[0], r.times[1], r.ratio, r.least, r.largest
            );
        }
    }
}
