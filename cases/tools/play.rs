// Exhaustive play in plain Rust: reads request lines whose deals have one blank between hands, with any first hand, cards
// played and solutions, and prints the same reply lines as `ddserve solve`. It takes good input for granted.
use std::io::{self, BufRead, Write};

#[derive(Clone, Copy, PartialEq, Eq)]
enum Suit {
    Spades,
    Hearts,
    Diamonds,
    Clubs,
}

#[derive(Clone, Copy)]
enum Strain {
    Trump(Suit),
    Notrump,
}

#[derive(Clone, Copy)]
enum Seat {
    North,
    East,
    South,
    West,
}

#[derive(Clone, Copy)]
struct Card {
    suit: Suit,
    rank: u8,
}

struct Position {
    hands: [u64; 4],
    strain: Strain,
    first: Seat,
    trick: [Card; 3],
    played: u8,
}

const SUITS: [Suit; 4] = [Suit::Spades, Suit::Hearts, Suit::Diamonds, Suit::Clubs];
const SEATS: [Seat; 4] = [Seat::North, Seat::East, Seat::South, Seat::West];
const RANKS: &[u8; 13] = b"23456789TJQKA";

impl Suit {
    fn shift(self) -> u32 {
        48 - 16 * self as u32
    }
}

impl Seat {
    fn next(self) -> Seat {
        match self {
            Seat::North => Seat::East,
            Seat::East => Seat::South,
            Seat::South => Seat::West,
            Seat::West => Seat::North,
        }
    }

    fn is_north_south(self) -> bool {
        matches!(self, Seat::North | Seat::South)
    }
}

impl Card {
    fn place(self) -> u32 {
        self.suit.shift() + self.rank as u32
    }

    fn at(place: u32) -> Card {
        Card {
            suit: SUITS[(3 - place / 16) as usize],
            rank: (place % 16) as u8,
        }
    }
}

fn pop_first(hand: &mut u64) -> Option<Card> {
    if *hand == 0 {
        return None;
    }
    let place = 63 - hand.leading_zeros();
    *hand &= !(1 << place);
    Some(Card::at(place))
}

fn seat_after(first: Seat, places: u8) -> Seat {
    match places {
        0 => first,
        1 => first.next(),
        2 => first.next().next(),
        _ => first.next().next().next(),
    }
}

fn strength(strain: Strain, led: Suit, card: Card) -> u8 {
    match strain {
        Strain::Trump(suit) if suit == card.suit => 20 + card.rank,
        _ => {
            if led == card.suit {
                card.rank
            } else {
                0
            }
        }
    }
}

fn winner(trick: &[Card; 4], first: Seat, strain: Strain) -> Seat {
    let led = trick[0].suit;
    let [a, b, c, d] = trick.map(|card| strength(strain, led, card));
    let (left, left_place) = if a < b { (b, 1) } else { (a, 0) };
    let (right, right_place) = if c < d { (d, 3) } else { (c, 2) };
    seat_after(first, if left < right { right_place } else { left_place })
}

impl Position {
    fn mover(&self) -> Seat {
        seat_after(self.first, self.played)
    }

    fn choices(&self) -> u64 {
        let hand = self.hands[self.mover() as usize];
        if self.played == 0 {
            return hand;
        }
        let same = hand & (0xffff << self.trick[0].suit.shift());
        if same == 0 {
            hand
        } else {
            same
        }
    }

    fn play(&self, card: Card) -> (Position, Option<Seat>) {
        let mut hands = self.hands;
        hands[self.mover() as usize] &= !(1 << card.place());
        if self.played == 3 {
            let trick = [self.trick[0], self.trick[1], self.trick[2], card];
            let seat = winner(&trick, self.first, self.strain);
            let next = Position {
                hands,
                strain: self.strain,
                first: seat,
                trick: self.trick,
                played: 0,
            };
            (next, Some(seat))
        } else {
            let mut trick = self.trick;
            trick[self.played as usize] = card;
            let next = Position {
                hands,
                strain: self.strain,
                first: self.first,
                trick,
                played: self.played + 1,
            };
            (next, None)
        }
    }
}

fn value(position: &Position) -> u8 {
    let maximizes = position.mover().is_north_south();
    let mut rest = position.choices();
    let Some(card) = pop_first(&mut rest) else {
        return 0;
    };
    let mut best = reply(position, card);
    while let Some(card) = pop_first(&mut rest) {
        let other = reply(position, card);
        best = if maximizes { best.max(other) } else { best.min(other) };
    }
    best
}

fn reply(position: &Position, card: Card) -> u8 {
    let (next, winner) = position.play(card);
    value(&next) + winner.is_some_and(Seat::is_north_south) as u8
}

fn classes(position: &Position) -> Vec<(Card, u16)> {
    let mover = position.mover();
    let mut others = position.hands.iter().enumerate().filter(|(i, _)| *i != mover as usize).fold(0, |a, (_, h)| a | h);
    for card in &position.trick[..position.played as usize] {
        others |= 1 << card.place();
    }
    let mut list: Vec<(Card, u16)> = Vec::new();
    let mut rest = position.choices();
    let mut last: Option<Card> = None;
    while let Some(card) = pop_first(&mut rest) {
        match last {
            Some(l) if l.suit == card.suit && others & ((1 << l.place()) - (1 << card.place())) == 0 => {
                list.last_mut().unwrap().1 |= 1 << card.rank;
            }
            _ => list.push((card, 0)),
        }
        last = Some(card);
    }
    list
}

fn field<'a>(line: &'a str, name: &str) -> &'a str {
    let key = format!("\"{name}\":");
    let rest = &line[line.find(&key).expect("field") + key.len()..];
    match rest.strip_prefix('"') {
        Some(text) => &text[..text.find('"').expect("quote")],
        None => &rest[..rest.find([',', '}']).expect("end")],
    }
}

fn read(line: &str) -> Position {
    let mut hands = [0u64; 4];
    let deal = field(line, "deal");
    let letter = "NESW".find(&deal[..1]).expect("letter");
    for (place, hand) in deal[2..].split(' ').enumerate() {
        for (suit, ranks) in SUITS.iter().zip(hand.split('.')) {
            for letter_of_rank in ranks.bytes() {
                let rank = RANKS.iter().position(|&r| r == letter_of_rank).expect("rank") as u8 + 2;
                hands[(letter + place) % 4] |= 1 << Card { suit: *suit, rank }.place();
            }
        }
    }
    let mut trick = [Card { suit: Suit::Spades, rank: 2 }; 3];
    let mut played = 0;
    for pair in line.split("\"played\":[").nth(1).map_or("", |rest| &rest[..rest.find("]]").unwrap_or(0)]).split("],") {
        if let Some((suit, rank)) = pair.trim_start_matches('[').split_once(',') {
            trick[played] = Card { suit: SUITS[suit.parse::<usize>().expect("suit")], rank: rank.parse().expect("rank") };
            played += 1;
        }
    }
    let trump: usize = field(line, "trump").parse().expect("trump");
    Position {
        hands,
        strain: SUITS.get(trump).map_or(Strain::Notrump, |&suit| Strain::Trump(suit)),
        first: SEATS[field(line, "first").parse::<usize>().expect("first")],
        trick,
        played: played as u8,
    }
}

fn main() {
    let stdout = io::stdout();
    let mut out = stdout.lock();
    for line in io::stdin().lock().lines() {
        let line = line.expect("read");
        let position = read(&line);
        let mover = position.mover();
        let left = position.hands[mover as usize].count_ones() as u8;
        let mut cards: Vec<(u8, Card, u16)> = classes(&position)
            .into_iter()
            .map(|(card, equals)| {
                let ns = reply(&position, card);
                (if mover.is_north_south() { ns } else { left - ns }, card, equals)
            })
            .collect();
        cards.sort_by_key(|(score, _, _)| std::cmp::Reverse(*score));
        let best = cards[0].0;
        match field(&line, "solutions") {
            "1" => cards.truncate(1),
            "2" => cards.retain(|(score, _, _)| *score == best),
            _ => {}
        }
        let texts: Vec<String> = cards
            .iter()
            .map(|(score, card, equals)| {
                format!("{{\"equals\":{equals},\"rank\":{},\"score\":{score},\"suit\":{}}}", card.rank, card.suit as u8)
            })
            .collect();
        writeln!(out, "{{\"cards\":[{}]}}", texts.join(",")).expect("write");
    }
}
