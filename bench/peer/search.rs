//! The search of `dd_search` in plain Rust, with the same layout of data, bounds and order of moves, so that it visits the
//! same positions. It takes good input for granted. Lines `trump first deal` of the standard input (codes of DDS, the deal
//! in its written form) are answered by the positions visited and the score of the highest card of each class, in the order
//! of the classes. Words: a number, for a table of so many shapes, empty at each line, and `keep`, which keeps it from line
//! to line; `singly` scores each card for itself, not all from the value down; `legal` tries cards in the order in which
//! they are listed, without weights; `times` adds the nanoseconds of the line and what the table counted.
mod order;
pub mod quick;
pub mod shard;

use order::{Plan, guess};
use quick::{ALL, against_leader, bounds, for_leader, for_second_hand, others};
use shard::Shard;
use std::io::{self, BufRead, Write};
use std::time::Instant;

#[derive(Clone, Copy, PartialEq, Eq)]
pub enum Suit {
    Spades,
    Hearts,
    Diamonds,
    Clubs,
}

#[derive(Clone, Copy, PartialEq, Eq)]
pub enum Strain {
    Trump(Suit),
    Notrump,
}

#[derive(Clone, Copy)]
pub enum Seat {
    North,
    East,
    South,
    West,
}

#[derive(Clone, Copy)]
pub struct Card {
    pub suit: Suit,
    pub rank: u8,
}

pub struct Position {
    pub hands: [u64; 4],
    pub strain: Strain,
    pub first: Seat,
    pub trick: [Card; 3],
    pub played: u8,
}

#[derive(Clone, Copy)]
pub struct Interval {
    pub lo: u8,
    pub hi: u8,
}

const SUITS: [Suit; 4] = [Suit::Spades, Suit::Hearts, Suit::Diamonds, Suit::Clubs];
const SEATS: [Seat; 4] = [Seat::North, Seat::East, Seat::South, Seat::West];
const RANKS: &[u8; 13] = b"23456789TJQKA";

impl Suit {
    fn shift(self) -> u32 {
        48 - 16 * self as u32
    }
}

impl Seat {
    fn next(self) -> Seat {
        match self {
            Seat::North => Seat::East,
            Seat::East => Seat::South,
            Seat::South => Seat::West,
            Seat::West => Seat::North,
        }
    }

    pub fn is_north_south(self) -> bool {
        matches!(self, Seat::North | Seat::South)
    }
}

impl Card {
    pub fn place(self) -> u32 {
        self.suit.shift() + self.rank as u32
    }

    pub fn at(place: u32) -> Card {
        Card {
            suit: SUITS[(3 - place / 16) as usize],
            rank: (place % 16) as u8,
        }
    }
}

fn seat_after(first: Seat, places: u8) -> Seat {
    match places {
        0 => first,
        1 => first.next(),
        2 => first.next().next(),
        _ => first.next().next().next(),
    }
}

// The highest rank of a holding, or 0.
fn highest(holding: u16) -> u8 {
    if holding == 0 { 0 } else { 15 - holding.leading_zeros() as u8 }
}

fn strength(strain: Strain, led: Suit, card: Card) -> u8 {
    match strain {
        Strain::Trump(suit) if suit == card.suit => 20 + card.rank,
        _ if led == card.suit => card.rank,
        _ => 0,
    }
}

fn winner(trick: &[Card; 4], first: Seat, strain: Strain) -> Seat {
    let led = trick[0].suit;
    let [a, b, c, d] = trick.map(|card| strength(strain, led, card));
    let (left, left_place) = if a < b { (b, 1) } else { (a, 0) };
    let (right, right_place) = if c < d { (d, 3) } else { (c, 2) };
    seat_after(first, if left < right { right_place } else { left_place })
}

impl Position {
    fn mover(&self) -> Seat {
        seat_after(self.first, self.played)
    }

    fn holding(&self, seat: Seat, suit: Suit) -> u16 {
        (self.hands[seat as usize] >> suit.shift()) as u16
    }

    fn strain_code(&self) -> u8 {
        match self.strain {
            Strain::Trump(suit) => suit as u8,
            Strain::Notrump => 4,
        }
    }

    fn tricks_left(&self) -> u8 {
        self.hands[self.mover() as usize].count_ones() as u8
    }

    fn choices(&self) -> u64 {
        let hand = self.hands[self.mover() as usize];
        if self.played == 0 {
            return hand;
        }
        let same = hand & (0xffff << self.trick[0].suit.shift());
        if same == 0 { hand } else { same }
    }

    fn play(&self, card: Card) -> (Position, Option<Seat>) {
        let mut hands = self.hands;
        hands[self.mover() as usize] &= !(1 << card.place());
        if self.played == 3 {
            let trick = [self.trick[0], self.trick[1], self.trick[2], card];
            let seat = winner(&trick, self.first, self.strain);
            let next = Position { hands, first: seat, played: 0, ..*self };
            (next, Some(seat))
        } else {
            let mut trick = self.trick;
            trick[self.played as usize] = card;
            let next = Position { hands, trick, played: self.played + 1, ..*self };
            (next, None)
        }
    }

    // The highest card of each class of equal cards that may be played, as a mask.
    fn tops_mask(&self) -> u64 {
        let own = self.hands[self.mover() as usize];
        let mut all = self.hands[0] | self.hands[1] | self.hands[2] | self.hands[3];
        for card in &self.trick[..self.played as usize] {
            all |= 1 << card.place();
        }
        let gaps = 0x7ffc_7ffc_7ffc_7ffcu64 & !all;
        let mut reach = own >> 1;
        let mut p = gaps >> 1;
        reach |= p & (reach >> 1);
        p &= p >> 1;
        reach |= p & (reach >> 2);
        p &= p >> 2;
        reach |= p & (reach >> 4);
        p &= p >> 4;
        reach |= p & (reach >> 8);
        self.choices() & !reach
    }

    // The highest card of each class of equal cards that may be played.
    fn tops(&self, tops: &mut [Card; 13]) -> usize {
        let mover = self.mover() as usize;
        let mut others = 0;
        for seat in 0..4 {
            if seat != mover {
                others |= self.hands[seat];
            }
        }
        for card in &self.trick[..self.played as usize] {
            others |= 1 << card.place();
        }
        let mut count = 0;
        let mut rest = self.choices();
        let mut last: Option<Card> = None;
        while rest != 0 {
            let place = 63 - rest.leading_zeros();
            rest &= !(1 << place);
            let card = Card::at(place);
            let joined = last.is_some_and(|last| {
                last.suit == card.suit && others & ((1 << last.place()) - (1 << place)) == 0
            });
            if !joined {
                tops[count] = card;
                count += 1;
            }
            last = Some(card);
        }
        count
    }
}

// ------------------------------------------------------------------ sets of cards

fn lane(set: u64, suit: Suit) -> u16 {
    (set >> suit.shift()) as u16
}

// The lowest rank of a holding, or 0.
fn lowest(holding: u16) -> u8 {
    if holding == 0 { 0 } else { holding.trailing_zeros() as u8 }
}

fn below(holding: u16, rank: u8) -> u16 {
    holding & ((1 << rank) - 1)
}

fn above(holding: u16, rank: u8) -> u16 {
    (holding as u32 >> (rank + 1) << (rank + 1)) as u16
}

fn with(set: u64, suit: Suit, rank: u8) -> u64 {
    set | 1 << Card { suit, rank }.place()
}

// ------------------------------------------------------------------ what answers rest on

/// The cards left in the four hands.
pub fn cards_left(position: &Position) -> u64 {
    position.hands[0] | position.hands[1] | position.hands[2] | position.hands[3]
}

/// How many of the highest cards of each suit are one of these cards or higher than one.
pub fn depths_of(position: &Position, cards: u64) -> [u8; 4] {
    let all = cards_left(position);
    SUITS.map(|suit| match lane(cards, suit) {
        0 => 0,
        cards => (lane(all, suit) >> lowest(cards)).count_ones() as u8,
    })
}

// The lowest card of each depth.
fn cards_of(position: &Position, depths: [u8; 4]) -> u64 {
    let all = cards_left(position);
    let mut cards = 0;
    for (suit, depth) in SUITS.into_iter().zip(depths) {
        let mut rest = lane(all, suit);
        for _ in 1..depth {
            rest &= !(1 << highest(rest));
        }
        if depth > 0 {
            cards = with(cards, suit, highest(rest));
        }
    }
    cards
}

// The winner's card of the trick that this card completes, if another card of its suit lies there, and the cards.
fn settled_by(position: &Position, card: Card, winner: Option<Seat>, cards: u64) -> u64 {
    let Some(seat) = winner else {
        return cards;
    };
    let [a, b, c] = position.trick;
    let trick = [a, b, c, card];
    let won = trick[(seat as usize + 4 - position.first as usize) % 4];
    if trick.iter().filter(|card| card.suit == won.suit).count() > 1 { cards | 1 << won.place() } else { cards }
}

// The cards of the suit that the failure of a card tells of too: those below all that it rests on, where the card is one.
fn told_too(card: Card, cards: u64) -> u64 {
    let shift = card.suit.shift();
    let lane = 0xffffu64 << shift;
    let of = cards & lane;
    let below = if of == 0 { lane } else { lane & (of & of.wrapping_neg()).wrapping_sub(1) };
    if below >> card.place() & 1 == 1 { below } else { 0 }
}

// The lowest card of each class of the mover that the cards reach in part.
fn whole(position: &Position, reached: u64) -> u64 {
    let choices = position.choices();
    let mover = position.mover();
    let mut others = 0;
    for seat in SEATS {
        if seat as u8 != mover as u8 {
            others |= position.hands[seat as usize];
        }
    }
    for card in &position.trick[..position.played as usize] {
        others |= 1 << card.place();
    }
    SUITS.iter().fold(reached, |reached, &suit| whole_suit(reached, suit, lane(choices, suit), lane(others, suit)))
}

fn whole_suit(reached: u64, suit: Suit, own: u16, others: u16) -> u64 {
    let cards = lane(reached, suit);
    if cards == 0 {
        return reached;
    }
    let floor = lowest(cards);
    let under = below(own, floor);
    let least = own & !below(!0, floor);
    if under == 0 || least == 0 {
        return reached;
    }
    let between = below(others, lowest(least));
    let cut = if between == 0 { under } else { above(under, highest(between)) };
    if cut == 0 { reached } else { with(reached, suit, lowest(cut)) }
}

// ------------------------------------------------------------------ the search

/// What a search is told of positions at the start of a trick, and tells of them. A value is the leader's side's.
pub trait Bounds {
    fn look(&mut self, position: &Position) -> Option<(Interval, [u8; 4])>;

    fn note(&mut self, position: &Position, depths: [u8; 4], interval: Interval);

    fn settle(&mut self, position: &Position, need: u8) -> Option<(Interval, [u8; 4])> {
        self.look(position).filter(|told| need <= told.0.lo || told.0.hi < need)
    }

    // The suits of leads that settled a start of the same shape, one of the same outline, and one of the same leader with as many
    // tricks left.
    fn settling_leads(&self, _position: &Position) -> [Option<Suit>; 3] {
        [None; 3]
    }

    fn note_lead(&mut self, _position: &Position, _lead: Suit) {}
}

pub struct NoTable;

impl Bounds for NoTable {
    fn look(&mut self, _position: &Position) -> Option<(Interval, [u8; 4])> {
        None
    }

    fn note(&mut self, _position: &Position, _depths: [u8; 4], _interval: Interval) {}
}

#[derive(Clone, Copy)]
struct Answer {
    yes: bool,
    cards: u64,
}

pub struct Search<B> {
    pub bounds: B,
    pub ticks: u64,
    pub legal: bool,
}

// The leader's bounds as North-South's, and the other way round.
fn turned(position: &Position, interval: Interval) -> Interval {
    let left = position.tricks_left();
    if position.first.is_north_south() {
        Interval { lo: interval.lo, hi: interval.hi.min(left) }
    } else {
        Interval { lo: left.saturating_sub(interval.hi), hi: left - interval.lo }
    }
}

fn trick_of(winner: Option<Seat>) -> u8 {
    winner.is_some_and(Seat::is_north_south) as u8
}

fn counted(position: &Position, need: u8) -> Option<bool> {
    if need == 0 {
        Some(true)
    } else if need > position.tricks_left() {
        Some(false)
    } else {
        None
    }
}

// How many the leader's side must take, or where it isn't North and South may not.
fn leaders_need(position: &Position, need: u8) -> u8 {
    if position.first.is_north_south() { need } else { position.tricks_left() + 1 - need }
}

fn quick(position: &Position, leaders: u8) -> Option<Answer> {
    let leads = position.first.is_north_south();
    if let Some(cards) = for_leader::<ALL>(position, leaders) {
        return Some(Answer { yes: leads, cards });
    }
    let cards = against_leader::<ALL>(position, position.tricks_left() + 1 - leaders)?;
    Some(Answer { yes: !leads, cards })
}

// The answer of each lead of the suit by second hand's winners.
fn seconds_answer(position: &Position, suit: Suit, need: u8) -> Option<Answer> {
    let leads = position.first.is_north_south();
    let others = if leads { position.tricks_left() + 1 - need } else { need };
    let cards = for_second_hand::<ALL>(position, suit, others)?;
    Some(Answer { yes: !leads, cards })
}

impl<B: Bounds> Search<B> {
    fn known(&mut self, position: &Position, need: u8) -> Option<Answer> {
        let leads = position.first.is_north_south();
        let leaders = leaders_need(position, need);
        match self.bounds.settle(position, leaders) {
            Some((interval, depths)) => Some(Answer { yes: (leaders <= interval.lo) == leads, cards: cards_of(position, depths) }),
            None => quick(position, leaders),
        }
    }

    fn teach(&mut self, position: &Position, need: u8, answer: Answer) {
        let window = if answer.yes {
            Interval { lo: need, hi: position.tricks_left() }
        } else {
            Interval { lo: 0, hi: need - 1 }
        };
        self.bounds.note(position, depths_of(position, answer.cards), turned(position, window));
    }

    fn takes(&mut self, position: &Position, need: u8) -> Answer {
        self.ticks += 1;
        if position.played == 0 {
            if let Some(answer) = self.known(position, need) {
                return answer;
            }
        }
        let ours = position.mover().is_north_south();
        let (mut found, mut cards) = (None, 0);
        let choices = position.tops_mask();
        let mut untried = choices;
        let settling = if position.played == 0 { self.bounds.settling_leads(position) } else { [None; 3] };
        let mut plan = if self.legal { Plan::Listed } else { Plan::of(position, untried, settling) };
        while untried != 0 {
            let card = plan.next(untried);
            let later = self.after(position, card, need);
            let by = later.cards;
            if later.yes == ours {
                if position.played == 0 && choices & choices - 1 != 0 {
                    self.bounds.note_lead(position, card.suit);
                }
                found = Some(by);
                break;
            }
            cards |= by;
            untried &= !(1 << card.place()) & !told_too(card, by);
            plan.go_on(position, card.suit, untried, settling);
        }
        let answer = match found {
            Some(cards) => Answer { yes: ours, cards },
            None => Answer { yes: !ours, cards: whole(position, cards) },
        };
        if position.played == 0 {
            self.teach(position, need, answer);
        }
        answer
    }

    // The answer when this card is played, and the cards on which that rests before it is.
    fn after(&mut self, position: &Position, card: Card, need: u8) -> Answer {
        if position.played == 0 {
            if let Some(answer) = seconds_answer(position, card.suit, need) {
                return answer;
            }
        }
        let (next, winner) = position.play(card);
        let rest = need - trick_of(winner);
        let later = match counted(&next, rest) {
            Some(yes) => Answer { yes, cards: 0 },
            None => self.takes(&next, rest),
        };
        Answer { yes: later.yes, cards: settled_by(position, card, winner, later.cards) }
    }

    fn window(&mut self, position: &Position) -> Interval {
        let left = position.tricks_left();
        if position.played > 0 || left == 0 {
            return Interval { lo: 0, hi: left };
        }
        let quick = bounds::<ALL>(position);
        let both = match self.bounds.look(position) {
            Some((told, _)) => Interval { lo: told.lo.max(quick.lo), hi: told.hi.min(quick.hi) },
            None => quick,
        };
        turned(position, both)
    }

    // North-South's tricks, and the cards that the last yes and the last no rest on, where there was such an answer.
    fn north_souths_tricks(&mut self, position: &Position) -> (u8, [Option<u64>; 2]) {
        self.ticks += 1;
        let Interval { mut lo, mut hi } = self.window(position);
        let mut rests = [None; 2];
        let mut need = guess(position);
        while lo < hi {
            need = need.max(lo + 1).min(hi);
            let answer = self.takes(position, need);
            rests[answer.yes as usize] = Some(answer.cards);
            if answer.yes {
                lo = need;
            } else {
                hi = need - 1;
            }
        }
        (lo, rests)
    }

    fn movers(position: &Position, tricks: u8) -> u8 {
        if position.mover().is_north_south() { tricks } else { position.tricks_left() - tricks }
    }

    /// The tricks that the mover's side takes from this start of a trick on, and depths at which each covered position has
    /// the same value.
    pub fn value(&mut self, position: &Position) -> (u8, [u8; 4]) {
        let (tricks, rests) = self.north_souths_tricks(position);
        let at_most = self.rest(position, rests[0], tricks + 1);
        let at_least = self.rest(position, rests[1], tricks);
        (Self::movers(position, tricks), depths_of(position, at_most | at_least))
    }

    // What the answer to this question rests on: that which was found, or the quick tricks, or else all cards.
    fn rest(&self, position: &Position, found: Option<u64>, need: u8) -> u64 {
        if counted(position, need).is_some() {
            return 0;
        }
        let quickly = || quick(position, leaders_need(position, need)).map(|answer| answer.cards);
        found.or_else(quickly).unwrap_or(cards_left(position))
    }

    pub fn score(&mut self, position: &Position, card: Card) -> u8 {
        let (next, winner) = position.play(card);
        let (tricks, _) = self.north_souths_tricks(&next);
        Self::movers(position, tricks + trick_of(winner))
    }

    fn reaches(&mut self, position: &Position, card: Card, tricks: u8) -> bool {
        let ours = position.mover().is_north_south();
        let need = if ours { tricks } else { position.tricks_left() + 1 - tricks };
        let (next, winner) = position.play(card);
        let rest = need.saturating_sub(trick_of(winner));
        let yes = counted(&next, rest).unwrap_or_else(|| self.takes(&next, rest).yes);
        yes == ours
    }

    /// The scores of the highest cards of the classes: the value first, and then of each class from there down.
    pub fn scores(&mut self, position: &Position) -> Vec<(Card, u8)> {
        let mut tops = [Card { suit: Suit::Spades, rank: 2 }; 13];
        let count = position.tops(&mut tops);
        let exactly = |tricks| Interval { lo: tricks, hi: tricks };
        let (best, depths) = self.value(position);
        if position.played == 0 {
            self.bounds.note(position, depths, exactly(best));
        }
        let mut scores = Vec::new();
        for &card in &tops[..count] {
            let mut tricks = best;
            while tricks > 0 && !self.reaches(position, card, tricks) {
                tricks -= 1;
            }
            scores.push((card, tricks));
        }
        scores
    }
}

// ------------------------------------------------------------------ lines

pub fn read(line: &str) -> Position {
    let mut words = line.splitn(3, ' ');
    let trump: usize = words.next().expect("trump").parse().expect("trump");
    let first: usize = words.next().expect("first").parse().expect("first");
    let mut hands = [0u64; 4];
    for (seat, hand) in words.next().expect("deal")[2..].split(' ').enumerate() {
        for (suit, ranks) in SUITS.iter().zip(hand.split('.')) {
            for letter in ranks.bytes() {
                let rank = RANKS.iter().position(|&r| r == letter).expect("rank") as u8 + 2;
                hands[seat] |= 1 << Card { suit: *suit, rank }.place();
            }
        }
    }
    Position {
        hands,
        strain: SUITS.get(trump).map_or(Strain::Notrump, |&suit| Strain::Trump(suit)),
        first: SEATS[first],
        trick: [Card { suit: Suit::Spades, rank: 2 }; 3],
        played: 0,
    }
}

fn solve<B: Bounds>(search: &mut Search<B>, position: &Position, singly: bool) -> Vec<u8> {
    if singly {
        let mut tops = [Card { suit: Suit::Spades, rank: 2 }; 13];
        let count = position.tops(&mut tops);
        return tops[..count].iter().map(|&card| search.score(position, card)).collect();
    }
    search.scores(position).into_iter().map(|scored| scored.1).collect()
}

fn main() {
    let words: Vec<String> = std::env::args().skip(1).collect();
    let has = |word: &str| words.iter().any(|w| w == word);
    let entries = words.iter().find_map(|word| word.parse::<usize>().ok());
    let mut table = entries.map(Shard::new);
    let mut out = io::stdout().lock();
    for line in io::stdin().lock().lines() {
        let position = read(&line.expect("line"));
        let start = Instant::now();
        let (ticks, scores) = match &mut table {
            Some(shard) => {
                if !has("keep") {
                    shard.clear();
                }
                let mut search = Search { bounds: &mut *shard, ticks: 0, legal: has("legal") };
                let scores = solve(&mut search, &position, has("singly"));
                (search.ticks, scores)
            }
            None => {
                let mut search = Search { bounds: NoTable, ticks: 0, legal: has("legal") };
                let scores = solve(&mut search, &position, has("singly"));
                (search.ticks, scores)
            }
        };
        let time = start.elapsed().as_nanos();
        let scores: Vec<String> = scores.iter().map(u8::to_string).collect();
        write!(out, "{} {}", ticks, scores.join(" ")).expect("write");
        match &table {
            Some(shard) if has("times") => writeln!(out, " | {time} {shard}").expect("write"),
            None if has("times") => writeln!(out, " | {time}").expect("write"),
            _ => writeln!(out).expect("write"),
        }
    }
}
