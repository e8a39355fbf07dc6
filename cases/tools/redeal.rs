//! Deals the cards below noted depths anew. With the word `small` and a number: so many entries that the search of
//! `bench/peer` notes on random deals of three to five cards a hand. Each is an interval with depths of a position; its
//! cards below the depths are dealt anew, lengths kept, all ranks spread and the seats turned, and exhaustive play says
//! whether the value of what came of it is in the interval. With `full` and a number: request lines for so many random full
//! deals, each followed by the one with the cards below the depths of its value dealt anew, whose best score is the same.
//! An entry or a deal of which nothing came but itself is not counted. The seed is fixed.
#[allow(dead_code)]
#[path = "../../bench/peer/search.rs"]
mod search;
mod deals;

use deals::{Chance, Played, code, dealt_anew, random_deal, start, turned, written};
use search::shard::Shard;
use search::{Bounds, Interval, Position, Search};
use std::process::ExitCode;

// ------------------------------------------------------------------ small deals

// A table that keeps all that is noted besides.
struct Noted<'a> {
    table: &'a mut Shard,
    notes: Vec<(Position, [u8; 4], Interval)>,
}

impl Bounds for Noted<'_> {
    fn look(&mut self, position: &Position) -> Option<(Interval, [u8; 4])> {
        self.table.look(position)
    }

    fn note(&mut self, position: &Position, depths: [u8; 4], interval: Interval) {
        self.notes.push((start(position.hands, position.strain, position.first), depths, interval));
        self.table.note(position, depths, interval);
    }
}

// At most so many entries of one deal are tried, at random.
const OF_A_DEAL: usize = 40;

fn small(count: usize) -> ExitCode {
    let mut chance = Chance(20261122);
    let mut table = Shard::new(4096);
    let (mut tried, mut wrong) = (0, 0);
    while tried < count {
        let cards = 3 + chance.below(3);
        let deal = random_deal(&mut chance, cards);
        table.clear();
        let mut search = Search { bounds: Noted { table: &mut table, notes: Vec::new() }, ticks: 0, legal: false };
        search.scores(&deal);
        let mut notes = search.bounds.notes;
        chance.shuffle(&mut notes);
        for (position, depths, interval) in notes.iter().take(OF_A_DEAL.min(count - tried)) {
            let Some(hands) = dealt_anew(&mut chance, position, *depths) else {
                continue;
            };
            let other = turned(position, hands, chance.below(4));
            let leaders = Played::default().leaders(&other);
            tried += 1;
            if leaders < interval.lo || interval.hi < leaders {
                wrong += 1;
                eprintln!(
                    "{} trump {} first {} depths {depths:?} bounds {} to {}, but {leaders} of {} first {}",
                    written(&position.hands), code(position.strain), position.first as u8, interval.lo, interval.hi,
                    written(&other.hands), other.first as u8,
                );
            }
        }
    }
    println!("{tried} entries of deals of 3 to 5 cards dealt anew below their depths, {wrong} outside of their bounds");
    if wrong == 0 { ExitCode::SUCCESS } else { ExitCode::FAILURE }
}

// ------------------------------------------------------------------ full deals

fn full(count: usize) -> ExitCode {
    let mut chance = Chance(13);
    let mut table = Shard::new(65536);
    let mut tried = 0;
    while tried < count {
        let deal = random_deal(&mut chance, 13);
        table.clear();
        let mut search = Search { bounds: &mut table, ticks: 0, legal: false };
        let (_, depths) = search.value(&deal);
        let Some(hands) = dealt_anew(&mut chance, &deal, depths) else {
            continue;
        };
        tried += 1;
        for hands in [deal.hands, hands] {
            println!(
                r#"{{"do":"solve","deal":"{}","trump":{},"first":{},"solutions":1}}"#,
                written(&hands), code(deal.strain), deal.first as u8,
            );
        }
    }
    ExitCode::SUCCESS
}

fn main() -> ExitCode {
    let words: Vec<String> = std::env::args().skip(1).collect();
    match &words[..] {
        [kind, count] if kind == "small" => small(count.parse().expect("a number of entries")),
        [kind, count] if kind == "full" => full(count.parse().expect("a number of deals")),
        _ => {
            eprintln!("redeal small ENTRIES | redeal full DEALS");
            ExitCode::from(2)
        }
    }
}
