//! The table of a thread: at most so many shapes, last used first, each with up to eight pairs, newest first; with the word
//! `--cfg pages` for the compiler up to 64, nearly as many as a cache of pages keeps of a shape.
use super::{Suit, Bounds, Interval, Position};
use std::collections::HashMap;
use std::fmt;
use std::hash::{BuildHasherDefault, Hasher};

const PAIRS: usize = if cfg!(pages) { 64 } else { 8 };
const NONE: u32 = u32::MAX;

// Of a start of a trick, seats counted from the leader: the lengths, and in each suit the owners of the cards from the
// highest down, two bits each, the highest card's the lowest.
#[derive(Clone, Copy)]
struct Owners {
    shape: Shape,
    suits: [u32; 4],
}

#[derive(Clone, Copy, PartialEq, Eq)]
struct Shape {
    strain: u8,
    lengths: u64,
}

impl std::hash::Hash for Shape {
    fn hash<H: Hasher>(&self, state: &mut H) {
        state.write_u64(self.lengths ^ (self.strain as u64) << 60);
    }
}

#[derive(Clone, Copy)]
struct Pair {
    tops: [u32; 4],
    masks: [u32; 4],
    depths: [u8; 4],
    interval: Interval,
}

struct Entry {
    shape: Shape,
    before: u32,
    behind: u32,
    // oldest first
    pairs: [Pair; PAIRS],
    count: usize,
}

#[derive(Default)]
struct Mix(u64);

impl Hasher for Mix {
    fn finish(&self) -> u64 {
        self.0
    }

    fn write(&mut self, _bytes: &[u8]) {
        unreachable!("a shape is one number")
    }

    fn write_u64(&mut self, number: u64) {
        let mixed = (number ^ number >> 32).wrapping_mul(0x9e37_79b9_7f4a_7c15);
        self.0 = mixed ^ mixed >> 29;
    }
}

pub struct Shard {
    limit: usize,
    places: HashMap<Shape, u32, BuildHasherDefault<Mix>>,
    entries: Vec<Entry>,
    // the suits of leads, by shape, by outline, and by leader and number of tricks
    of_shapes: HashMap<Shape, Suit, BuildHasherDefault<Mix>>,
    of_outlines: HashMap<(u8, u64, [u32; 4]), Suit>,
    of_leaders: [Option<Suit>; 56],
    first: u32,
    last: u32,
    pub looks: u64,
    pub found: u64,
    pub told: u64,
    pub notes: u64,
    pub dropped: u64,
}

fn owners(position: &Position) -> Owners {
    let leader = position.first as usize;
    let hands = [0, 1, 2, 3].map(|k| position.hands[(leader + k) % 4]);
    let odd = hands[1] | hands[3];
    let back = hands[2] | hands[3];
    let all = hands[0] | hands[2] | odd;
    let (mut lengths, mut suits) = (0, [0; 4]);
    for suit in 0..4 {
        let shift = 48 - 16 * suit;
        let mut rest = (all >> shift) as u16;
        let (odd, back) = ((odd >> shift) as u32, (back >> shift) as u32);
        let mut number = 0;
        while rest != 0 {
            let rank = rest.trailing_zeros();
            rest &= rest - 1;
            number = number << 2 | (back >> rank & 1) << 1 | odd >> rank & 1;
        }
        suits[suit] = number;
        for (k, hand) in hands.iter().enumerate() {
            lengths |= (((hand >> shift) as u16).count_ones() as u64) << (shift + 4 * k);
        }
    }
    Owners { shape: Shape { strain: position.strain_code(), lengths }, suits }
}

impl Pair {
    fn new(owners: &Owners, depths: [u8; 4], interval: Interval) -> Pair {
        let masks = depths.map(|depth| ((1u64 << (2 * depth)) - 1) as u32);
        let tops = [0, 1, 2, 3].map(|suit| owners.suits[suit] & masks[suit]);
        Pair { tops, masks, depths, interval }
    }

    fn covers(&self, owners: &Owners) -> bool {
        let differs = |suit: usize| (owners.suits[suit] & self.masks[suit]) ^ self.tops[suit];
        differs(0) | differs(1) | differs(2) | differs(3) == 0
    }
}

impl Entry {
    fn look(&self, owners: &Owners) -> Option<(Interval, [u8; 4])> {
        let pair = self.pairs[..self.count].iter().rev().find(|pair| pair.covers(owners))?;
        Some((pair.interval, pair.depths))
    }

    fn note(&mut self, new: Pair) {
        let mut new = new;
        let same = self.pairs[..self.count].iter().position(|pair| pair.depths == new.depths && pair.tops == new.tops);
        if let Some(place) = same {
            let old = self.pairs[place].interval;
            new.interval.lo = new.interval.lo.max(old.lo);
            new.interval.hi = new.interval.hi.min(old.hi);
            self.pairs.copy_within(place + 1..self.count, place);
            self.count -= 1;
        } else if self.count == PAIRS {
            self.pairs.copy_within(1.., 0);
            self.count -= 1;
        }
        self.pairs[self.count] = new;
        self.count += 1;
    }
}

impl Shard {
    pub fn new(limit: usize) -> Shard {
        let places = HashMap::with_capacity_and_hasher(limit, Default::default());
        let entries = Vec::with_capacity(limit);
        Shard { limit, places, entries, of_shapes: HashMap::default(), of_outlines: HashMap::new(), of_leaders: [None; 56], first: NONE, last: NONE, looks: 0, found: 0, told: 0, notes: 0, dropped: 0 }
    }

    pub fn clear(&mut self) {
        if self.entries.len() > 0 {
            self.places.clear();
            self.entries.clear();
        }
        self.of_shapes.clear();
        self.of_outlines.clear();
        self.of_leaders = [None; 56];
        (self.first, self.last) = (NONE, NONE);
        (self.looks, self.found, self.told, self.notes, self.dropped) = (0, 0, 0, 0, 0);
    }

    fn take_out(&mut self, place: u32) {
        let Entry { before, behind, .. } = self.entries[place as usize];
        match before {
            NONE => self.first = behind,
            before => self.entries[before as usize].behind = behind,
        }
        match behind {
            NONE => self.last = before,
            behind => self.entries[behind as usize].before = before,
        }
    }

    fn put_first(&mut self, place: u32) {
        let old = self.first;
        let entry = &mut self.entries[place as usize];
        (entry.before, entry.behind) = (NONE, old);
        match old {
            NONE => self.last = place,
            old => self.entries[old as usize].before = place,
        }
        self.first = place;
    }

    fn to_front(&mut self, place: u32) {
        if self.first != place {
            self.take_out(place);
            self.put_first(place);
        }
    }

    // The place for a new shape, at the front: the last one's where all are taken.
    fn add(&mut self, shape: Shape, pair: Pair) {
        let entry = Entry { shape, before: NONE, behind: NONE, pairs: [pair; PAIRS], count: 1 };
        let place = if self.entries.len() == self.limit {
            let place = self.last;
            self.dropped += 1;
            self.take_out(place);
            self.places.remove(&self.entries[place as usize].shape);
            self.entries[place as usize] = entry;
            place
        } else {
            self.entries.push(entry);
            self.entries.len() as u32 - 1
        };
        self.places.insert(shape, place);
        self.put_first(place);
    }
}

impl Bounds for &mut Shard {
    fn look(&mut self, position: &Position) -> Option<(Interval, [u8; 4])> {
        self.looks += 1;
        let owners = owners(position);
        let place = *self.places.get(&owners.shape)?;
        self.found += 1;
        self.to_front(place);
        let told = self.entries[place as usize].look(&owners)?;
        self.told += 1;
        Some(told)
    }

    // The program's cache remembers leads, a shared table doesn't.
    fn settling_leads(&self, position: &Position) -> [Option<Suit>; 3] {
        if !cfg!(pages) {
            return [None; 3];
        }
        let owners = owners(position);
        [self.of_shapes.get(&owners.shape).copied(), self.of_outlines.get(&outline(&owners)).copied(), self.of_leaders[leader(position)]]
    }

    fn note_lead(&mut self, position: &Position, lead: Suit) {
        if cfg!(pages) {
            let owners = owners(position);
            self.of_shapes.insert(owners.shape, lead);
            self.of_outlines.insert(outline(&owners), lead);
            self.of_leaders[leader(position)] = Some(lead);
        }
    }

    fn note(&mut self, position: &Position, depths: [u8; 4], interval: Interval) {
        self.notes += 1;
        let owners = owners(position);
        let pair = Pair::new(&owners, depths, interval);
        match self.places.get(&owners.shape) {
            Some(&place) => {
                self.to_front(place);
                self.entries[place as usize].note(pair);
            }
            None => self.add(owners.shape, pair),
        }
    }
}

// The place of a leader with so many tricks left.
fn leader(position: &Position) -> usize {
    4 * position.tricks_left() as usize + position.first as usize
}

// The strain, the leader's lengths and the owners of the highest cards.
fn outline(owners: &Owners) -> (u8, u64, [u32; 4]) {
    (owners.shape.strain, owners.shape.lengths & 0x000f_000f_000f_000f, owners.suits.map(|suit| suit & 3))
}

impl fmt::Display for Shard {
    fn fmt(&self, out: &mut fmt::Formatter) -> fmt::Result {
        let shapes = self.entries.len();
        write!(out, "looks {} shape {} told {} notes {} dropped {} shapes {shapes}", self.looks, self.found, self.told, self.notes, self.dropped)
    }
}
