//! What the programs of this folder share: random deals and cards dealt anew, from a fixed seed, and exhaustive play, which
//! knows nothing of equal cards, depths and bounds.
use crate::search::{Card, Position, Seat, Strain, Suit};
use std::collections::HashMap;
use std::hash::{BuildHasherDefault, Hasher};

const SUITS: [Suit; 4] = [Suit::Spades, Suit::Hearts, Suit::Diamonds, Suit::Clubs];
const SEATS: [Seat; 4] = [Seat::North, Seat::East, Seat::South, Seat::West];
const STRAINS: [Strain; 5] = [
    Strain::Trump(Suit::Spades),
    Strain::Trump(Suit::Hearts),
    Strain::Trump(Suit::Diamonds),
    Strain::Trump(Suit::Clubs),
    Strain::Notrump,
];

// ------------------------------------------------------------------ chance

/// SplitMix64 from a seed.
pub struct Chance(pub u64);

impl Chance {
    fn next(&mut self) -> u64 {
        self.0 = self.0.wrapping_add(0x9e37_79b9_7f4a_7c15);
        let mixed = (self.0 ^ self.0 >> 30).wrapping_mul(0xbf58_476d_1ce4_e5b9);
        let mixed = (mixed ^ mixed >> 27).wrapping_mul(0x94d0_49bb_1331_11eb);
        mixed ^ mixed >> 31
    }

    /// A number from 0 to below the limit.
    pub fn below(&mut self, limit: usize) -> usize {
        ((self.next() >> 11) % limit as u64) as usize
    }

    pub fn shuffle<T>(&mut self, list: &mut [T]) {
        for place in (1..list.len()).rev() {
            list.swap(place, self.below(place + 1));
        }
    }
}

// ------------------------------------------------------------------ deals

/// A start of a trick.
pub fn start(hands: [u64; 4], strain: Strain, first: Seat) -> Position {
    Position { hands, strain, first, trick: [Card { suit: Suit::Spades, rank: 2 }; 3], played: 0 }
}

/// A deal of so many cards a hand, from the whole pack or a few suits of it, so that there are long suits too.
pub fn random_deal(chance: &mut Chance, cards: usize) -> Position {
    let fewest = (4 * cards).div_ceil(13);
    let suits = fewest + chance.below(5 - fewest);
    let mut used = SUITS;
    chance.shuffle(&mut used);
    let mut pack: Vec<u64> = Vec::new();
    for suit in &used[..suits] {
        pack.extend((2..15).map(|rank| 1 << Card { suit: *suit, rank }.place()));
    }
    chance.shuffle(&mut pack);
    let hands = [0, 1, 2, 3].map(|seat| pack[seat * cards..(seat + 1) * cards].iter().sum());
    start(hands, STRAINS[chance.below(5)], SEATS[chance.below(4)])
}

// The holders of the suit's cards that are left, from the highest down.
fn holders(hands: &[u64; 4], suit: Suit) -> Vec<usize> {
    let holder = |rank: u8| (0..4).find(|&seat| hands[seat] & 1 << Card { suit, rank }.place() != 0);
    (2..15).rev().filter_map(holder).collect()
}

/// The cards below these depths dealt anew with the lengths kept, or nothing where all holders stayed. Which ranks the suit
/// has left is chosen anew too.
pub fn dealt_anew(chance: &mut Chance, position: &Position, depths: [u8; 4]) -> Option<[u64; 4]> {
    let mut hands = [0; 4];
    let mut moved = false;
    for (suit, depth) in SUITS.into_iter().zip(depths) {
        let old = holders(&position.hands, suit);
        let mut new = old.clone();
        chance.shuffle(&mut new[depth as usize..]);
        moved |= new != old;
        let mut ranks: Vec<u8> = (2..15).collect();
        chance.shuffle(&mut ranks);
        ranks.truncate(new.len());
        ranks.sort_by(|one, other| other.cmp(one));
        for (seat, rank) in new.into_iter().zip(ranks) {
            hands[seat] |= 1 << Card { suit, rank }.place();
        }
    }
    moved.then_some(hands)
}

/// These hands and the position's leader, each so many places on.
pub fn turned(position: &Position, hands: [u64; 4], places: usize) -> Position {
    let hands = [0, 1, 2, 3].map(|seat| hands[(seat + 4 - places) % 4]);
    start(hands, position.strain, SEATS[(position.first as usize + places) % 4])
}

/// The hands as a deal in its written form.
pub fn written(hands: &[u64; 4]) -> String {
    let holding = |hand: &u64, suit: Suit| -> String {
        let has = |rank: &u8| hand & 1 << Card { suit, rank: *rank }.place() != 0;
        (2..15).rev().filter(has).map(|rank| b"23456789TJQKA"[rank as usize - 2] as char).collect()
    };
    let hand = |hand: &u64| SUITS.map(|suit| holding(hand, suit)).join(".");
    format!("N:{}", [0, 1, 2, 3].map(|seat| hand(&hands[seat])).join(" "))
}

/// The strain's code of DDS.
pub fn code(strain: Strain) -> usize {
    match strain {
        Strain::Trump(suit) => suit as usize,
        Strain::Notrump => 4,
    }
}

// ------------------------------------------------------------------ exhaustive play

/// The tricks of North and South at starts of tricks of one deal in one strain.
#[derive(Default)]
pub struct Played(HashMap<([u64; 4], usize), u8, BuildHasherDefault<Mix>>);

#[derive(Default)]
pub struct Mix(u64);

impl Hasher for Mix {
    fn finish(&self) -> u64 {
        self.0
    }

    fn write(&mut self, bytes: &[u8]) {
        for chunk in bytes.chunks(8) {
            let word = chunk.iter().rev().fold(0, |word, byte| word << 8 | *byte as u64);
            let mixed = (self.0 ^ word).wrapping_mul(0x9e37_79b9_7f4a_7c15);
            self.0 = mixed ^ mixed >> 29;
        }
    }
}

// The cards of a trick as places in a hand, and the seat that led to it.
#[derive(Clone, Copy)]
struct Trick {
    first: usize,
    cards: [u32; 4],
    count: usize,
}

impl Trick {
    fn winner(&self, strain: Strain) -> usize {
        let suit = |card: u32| SUITS[3 - card as usize / 16];
        let beats = |card: u32, other: u32| {
            if suit(card) == suit(other) { card > other } else { strain == Strain::Trump(suit(card)) }
        };
        let place = (1..4).fold(0, |winner, place| if beats(self.cards[place], self.cards[winner]) { place } else { winner });
        (self.first + place) % 4
    }
}

impl Played {
    /// The tricks that the leader's side takes of those that are left, the trick that is begun one of them.
    pub fn leaders(&mut self, position: &Position) -> u8 {
        let mut trick = Trick { first: position.first as usize, cards: [0; 4], count: position.played as usize };
        for place in 0..trick.count {
            trick.cards[place] = position.trick[place].place();
        }
        let tricks = match trick.count {
            0 => self.value(&position.hands, trick.first, position.strain),
            _ => self.best(&position.hands, trick, position.strain),
        };
        let left = position.hands[(trick.first + trick.count) % 4].count_ones() as u8;
        if position.first.is_north_south() { tricks } else { left - tricks }
    }

    fn value(&mut self, hands: &[u64; 4], first: usize, strain: Strain) -> u8 {
        if hands[first] == 0 {
            return 0;
        }
        if let Some(tricks) = self.0.get(&(*hands, first)) {
            return *tricks;
        }
        let tricks = self.best(hands, Trick { first, cards: [0; 4], count: 0 }, strain);
        self.0.insert((*hands, first), tricks);
        tricks
    }

    fn best(&mut self, hands: &[u64; 4], trick: Trick, strain: Strain) -> u8 {
        if trick.count == 4 {
            let winner = trick.winner(strain);
            return (winner % 2 == 0) as u8 + self.value(hands, winner, strain);
        }
        let mover = (trick.first + trick.count) % 4;
        let followed = if trick.count == 0 { 0 } else { hands[mover] & 0xffff << (trick.cards[0] / 16 * 16) };
        let mut rest = if followed == 0 { hands[mover] } else { followed };
        let (most, least) = (hands[mover].count_ones() as u8, 0);
        let mut best = None;
        while rest != 0 && best != Some(if mover % 2 == 0 { most } else { least }) {
            let card = rest.trailing_zeros();
            rest &= rest - 1;
            let (mut left, mut next) = (*hands, trick);
            left[mover] &= !(1 << card);
            next.cards[trick.count] = card;
            next.count += 1;
            let tricks = self.best(&left, next, strain);
            best = Some(best.map_or(tricks, |best: u8| if mover % 2 == 0 { best.max(tricks) } else { best.min(tricks) }));
        }
        best.expect("a card to play")
    }
}
