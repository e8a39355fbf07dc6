//! Each of the quick tricks of `bench/peer` alone, with the others left out, so that no fault of one hides behind another. On
//! random deals of two to five cards a hand each question is asked that the rule may answer: at a start of a trick, or after
//! each lead. Exhaustive play says whether the answer is right; then the cards below those on which it rests are dealt anew, a
//! few times, and it has to be right of these deals too. A number says how many answers of each rule are tried. With the word
//! `broken`: each form that is known to be wrong, and each rule with the lowest card of a suit on which it rests left out,
//! until an answer is wrong. The seed is fixed.
#[allow(dead_code)]
#[path = "../../bench/peer/search.rs"]
mod search;
mod deals;

use deals::{Chance, Played, code, dealt_anew, random_deal, start, turned, written};
use search::quick::{ALL, CROSSING, JOINT_TRUMPS, LATER_TRICK, LONG_SUITS, LOWER_TRUMPS, PARTNERS_LONG_SUITS, RUNS};
use search::quick::{against_leader, for_leader, for_second_hand, others as other_seats};
use search::quick::{CROSSES_WITHOUT_A_CARD, LONG_BEFORE_THE_LEADER, LONG_BEFORE_THE_OPPONENTS};
use search::quick::{A_LONE_HONOUR_IS_GUARDED, GUARDED_BEFORE_A_HIGHER, GUARDS_WITHOUT_ROOM};
use search::quick::{A_ROUND_FOR_EACH_TRICK, ROUNDS_OF_THE_SHORTER};
use search::quick::{CROSSING_WITHOUT_TRUMPS, NOBODY_HAS_FOLLOWED, NOBODY_RUFFS_THE_PARTNER};
use search::quick::{KEEPS_EACH_WINNER, KEEPS_OVER_THE_SHORTER, KEPT_WINNERS};
use search::quick::{A_LONE_TRUMP_IS_GUARDED, GUARDED_BEFORE_THE_HIGHEST, GUARDED_TRUMP, THE_THIRD_IS_GUARDED};
use search::quick::{HIGHER_TRUMPS_TAKE_NOTHING, ONE_OPPONENTS_TRUMPS, TRUMPS_OF_BOTH_HANDS};
use search::quick::{NOBODY_RUFFS, NO_WINNER_FALLS, THE_LEAD_IS_NOT_RUFFED, TRUMPS_ARE_DRAWN};
use search::{Card, Position, Strain, Suit, depths_of};
use std::process::ExitCode;

// Cards a hand, as often as they are dealt: exhaustive play of five takes long.
const CARDS: [usize; 8] = [2, 3, 3, 4, 4, 4, 4, 5];
// Answers of a wrong form and deals of a rule at most, and how often the cards below an answer's are dealt anew.
const UNTIL_WRONG: usize = 20_000;
const DEALS: usize = 400_000;
const TIMES: usize = 3;

// ------------------------------------------------------------------ rules

#[derive(Clone, Copy, PartialEq, Eq)]
enum Side {
    Leaders,
    Others,
}

// A rule is asked where so many cards are on the trick. It gives the cards on which it rests that the side takes at least so
// many of the tricks left, or nothing where it doesn't know.
#[derive(Clone, Copy)]
struct Rule {
    name: &'static str,
    side: Side,
    played: usize,
    claim: fn(&Position, u8) -> Option<u64>,
}

const fn leaders(name: &'static str, claim: fn(&Position, u8) -> Option<u64>) -> Rule {
    Rule { name, side: Side::Leaders, played: 0, claim }
}

const fn others(name: &'static str, played: usize, claim: fn(&Position, u8) -> Option<u64>) -> Rule {
    Rule { name, side: Side::Others, played, claim }
}

// A rule that is added to the quick tricks gets a line here, and where it has parts a line for each.
const RIGHT: [Rule; 35] = [
    leaders("side suits without long ones", for_leader::<RUNS>),
    leaders("long suits", for_leader::<LONG_SUITS>),
    leaders("side suits with long ones", for_leader::<{ RUNS | LONG_SUITS }>),
    leaders("joint trumps of the leader's side", for_leader::<JOINT_TRUMPS>),
    others("joint trumps of the other side", 0, against_leader::<JOINT_TRUMPS>),
    leaders("lower trumps of the leader's side", lower_leaders::<{ JOINT_TRUMPS | LOWER_TRUMPS }>),
    leaders("lower trumps beside side suits", lower_leaders::<{ RUNS | LONG_SUITS | JOINT_TRUMPS | LOWER_TRUMPS }>),
    others("lower trumps of the other side", 0, lower_others::<{ JOINT_TRUMPS | LOWER_TRUMPS }>),
    others("the other side's later trick", 0, against_leader::<LATER_TRICK>),
    others("the other side's kept winners", 0, against_leader::<KEPT_WINNERS>),
    others("the other side's guarded trump", 0, against_leader::<GUARDED_TRUMP>),
    others("all of the other side", 0, against_leader::<ALL>),
    leaders("crossing to the partner", for_leader::<CROSSING>),
    leaders("crossing after side suits without long ones", crossed::<{ RUNS | CROSSING }>),
    leaders("crossing to the partner's long suits", long_crossed::<{ RUNS | CROSSING | PARTNERS_LONG_SUITS }>),
    leaders("crossing after side suits", crossed::<ALL>),
    leaders("crossing beside trumps, no other rule", beside::<CROSSING>),
    leaders("crossing beside trumps after side suits without long ones", beside::<{ RUNS | CROSSING }>),
    leaders("crossing beside trumps, to the partner's long suits too", beside::<{ RUNS | CROSSING | PARTNERS_LONG_SUITS }>),
    leaders("crossing beside trumps after side suits and joint trumps", beside::<ALL>),
    leaders("crossing beside trumps that the opponents lack", drawn::<ALL>),
    leaders("all of the leader's side", for_leader::<ALL>),
    others("second hand: side suits without long ones", 1, side_suit_led::<RUNS>),
    others("second hand: long suits", 1, side_suit_led::<LONG_SUITS>),
    others("second hand: side suits and joint trumps", 1, side_suit_led::<{ RUNS | JOINT_TRUMPS }>),
    others("second hand: side suits and lower trumps", 1, second_lower::<{ RUNS | JOINT_TRUMPS | LOWER_TRUMPS }>),
    others("second hand: crossing after side suits without long ones", 1, second_crossed::<{ RUNS | CROSSING }>),
    others("second hand: crossing to its partner's long suits", 1, second_long::<ALL>),
    others("second hand: crossing after side suits", 1, second_crossed::<ALL>),
    others("second hand: crossing beside trumps after side suits without long ones", 1, second_beside::<{ RUNS | CROSSING }>),
    others("second hand: crossing beside trumps", 1, second_beside::<ALL>),
    others("second hand: all after the lead of a side suit", 1, side_suit_led::<ALL>),
    others("second hand: the trump led", 1, trump_led::<0>),
    others("second hand: the trump led and side suits", 1, trump_led::<RUNS>),
    others("second hand: all after the lead of a trump", 1, trump_led::<ALL>),
];

const WRONG: [Rule; 33] = [
    leaders("joint trumps added after a draw", for_leader::<{ ALL | TRUMPS_ARE_DRAWN }>),
    leaders("long suits that opponents with trumps can't follow", for_leader::<{ LONG_SUITS | NOBODY_RUFFS }>),
    leaders("lower trumps where higher ones take nothing", lower_leaders::<{ ALL | HIGHER_TRUMPS_TAKE_NOTHING }>),
    others("the other side's lower trumps where higher ones take nothing", 0, lower_others::<{ ALL | HIGHER_TRUMPS_TAKE_NOTHING }>),
    others("joint trumps where one opponent's take nothing", 0, lower_others::<{ ALL | ONE_OPPONENTS_TRUMPS }>),
    others("joint trumps of both hands", 0, against_leader::<{ ALL | TRUMPS_OF_BOTH_HANDS }>),
    leaders("crossing to winners that fall", crossed::<{ ALL | NO_WINNER_FALLS }>),
    leaders("crossing without a card to lead", crossed::<{ ALL | CROSSES_WITHOUT_A_CARD }>),
    leaders("crossing to a suit that the leader is long in", long_crossed::<{ ALL | LONG_BEFORE_THE_LEADER }>),
    leaders("crossing to a suit that opponents are long in", long_crossed::<{ ALL | LONG_BEFORE_THE_OPPONENTS }>),
    others("second hand: crossing to a suit that opponents are long in", 1, second_long::<{ ALL | LONG_BEFORE_THE_OPPONENTS }>),
    others("a later trick where there is a round for each trick", 0, against_leader::<{ LATER_TRICK | A_ROUND_FOR_EACH_TRICK }>),
    others("a later trick by the shorter holdings", 0, against_leader::<{ LATER_TRICK | ROUNDS_OF_THE_SHORTER }>),
    others("a later trick by a card that is guarded by none", 0, against_leader::<{ LATER_TRICK | A_LONE_HONOUR_IS_GUARDED }>),
    others("a later trick by a card guarded before a higher one", 0, against_leader::<{ LATER_TRICK | GUARDED_BEFORE_A_HIGHER }>),
    others("a later trick by guards without room for them", 0, against_leader::<{ LATER_TRICK | GUARDS_WITHOUT_ROOM }>),
    others("kept winners without a trick for each", 0, against_leader::<{ KEPT_WINNERS | KEEPS_EACH_WINNER }>),
    others("kept winners by the shorter holdings", 0, against_leader::<{ KEPT_WINNERS | KEEPS_OVER_THE_SHORTER }>),
    others("a lone trump is guarded", 0, against_leader::<{ GUARDED_TRUMP | A_LONE_TRUMP_IS_GUARDED }>),
    others("a trump is guarded before the highest", 0, against_leader::<{ GUARDED_TRUMP | GUARDED_BEFORE_THE_HIGHEST }>),
    others("the third trump is guarded", 0, against_leader::<{ GUARDED_TRUMP | THE_THIRD_IS_GUARDED }>),
    others("second hand: a lead that third hand ruffs", 1, side_suit_led::<{ ALL | THE_LEAD_IS_NOT_RUFFED }>),
    others("second hand: crossing to winners that fall", 1, second_crossed::<{ ALL | NO_WINNER_FALLS }>),
    others("second hand: crossing without a card to lead", 1, second_crossed::<{ ALL | CROSSES_WITHOUT_A_CARD }>),
    leaders("crossing beside trumps to winners that opponents ruff", beside::<{ ALL | NOBODY_RUFFS_THE_PARTNER }>),
    others("second hand: crossing beside trumps to winners that opponents ruff", 1, second_beside::<{ ALL | NOBODY_RUFFS_THE_PARTNER }>),
    leaders("crossing beside trumps past the leads to which opponents have followed", beside::<{ ALL | NOBODY_HAS_FOLLOWED }>),
    others("second hand: crossing beside trumps past the leads to which opponents have followed", 1, second_beside::<{ ALL | NOBODY_HAS_FOLLOWED }>),
    leaders("crossing beside trumps resting on no trumps", beside::<{ ALL | CROSSING_WITHOUT_TRUMPS }>),
    others("second hand: crossing beside trumps resting on no trumps", 1, second_beside::<{ ALL | CROSSING_WITHOUT_TRUMPS }>),
    leaders("crossing beside trumps to winners that fall", beside::<{ ALL | NO_WINNER_FALLS }>),
    others("second hand: crossing beside trumps to winners that fall", 1, second_beside::<{ ALL | NO_WINNER_FALLS }>),
    others("second hand's winners at third hand", 2, third_hand),
];

// Only what the highest trumps don't answer.
fn lower_leaders<const RULES: u32>(position: &Position, need: u8) -> Option<u64> {
    match for_leader::<{ RUNS | LONG_SUITS | JOINT_TRUMPS }>(position, need) {
        Some(_) => None,
        None => for_leader::<RULES>(position, need),
    }
}

fn lower_others<const RULES: u32>(position: &Position, need: u8) -> Option<u64> {
    match against_leader::<JOINT_TRUMPS>(position, need) {
        Some(_) => None,
        None => against_leader::<RULES>(position, need),
    }
}

fn second_lower<const RULES: u32>(position: &Position, need: u8) -> Option<u64> {
    match side_suit_led::<{ RUNS | JOINT_TRUMPS }>(position, need) {
        Some(_) => None,
        None => side_suit_led::<RULES>(position, need),
    }
}

// Only what the leader's own tricks don't answer.
fn crossed<const RULES: u32>(position: &Position, need: u8) -> Option<u64> {
    match for_leader::<{ RUNS | LONG_SUITS | JOINT_TRUMPS }>(position, need) {
        Some(_) => None,
        None => for_leader::<RULES>(position, need),
    }
}

// Only where a hand has a trump, and what the leader's own tricks don't answer.
fn beside<const RULES: u32>(position: &Position, need: u8) -> Option<u64> {
    if trumps_left(position).iter().any(|&trumps| trumps > 0) { crossed::<RULES>(position, need) } else { None }
}

// Only where one of the leader's side has a trump, and no opponent.
fn drawn<const RULES: u32>(position: &Position, need: u8) -> Option<u64> {
    let trumps = trumps_left(position);
    if trumps[1] == 0 && trumps[3] == 0 { beside::<RULES>(position, need) } else { None }
}

fn second_beside<const RULES: u32>(position: &Position, need: u8) -> Option<u64> {
    if trumps_left(position).iter().any(|&trumps| trumps > 0) { second_crossed::<RULES>(position, need) } else { None }
}

// The trumps of each hand, the leader's first.
fn trumps_left(position: &Position) -> [u32; 4] {
    let Strain::Trump(trump) = position.strain else { return [0; 4] };
    let [left, partner, right] = other_seats(position.first);
    [position.first, left, partner, right].map(|seat| (position.hands[seat as usize] & suit_of(Card { suit: trump, rank: 2 })).count_ones())
}

// Only what the partner's long suits add.
fn long_crossed<const RULES: u32>(position: &Position, need: u8) -> Option<u64> {
    match for_leader::<{ RUNS | LONG_SUITS | JOINT_TRUMPS | CROSSING }>(position, need) {
        Some(_) => None,
        None => for_leader::<RULES>(position, need),
    }
}

fn second_long<const RULES: u32>(position: &Position, need: u8) -> Option<u64> {
    match side_suit_led::<{ RUNS | LONG_SUITS | JOINT_TRUMPS | CROSSING }>(position, need) {
        Some(_) => None,
        None => side_suit_led::<RULES>(position, need),
    }
}

fn is_trump(position: &Position, card: Card) -> bool {
    position.strain == Strain::Trump(card.suit)
}

// What second hand takes after the lead on the trick: counted in the position before it, with all cards of the trick put back.
fn after_lead<const RULES: u32>(position: &Position, need: u8) -> Option<u64> {
    let mut hands = position.hands;
    for (place, card) in position.trick[..position.played as usize].iter().enumerate() {
        hands[(position.first as usize + place) % 4] |= 1 << card.place();
    }
    for_second_hand::<RULES>(&start(hands, position.strain, position.first), position.trick[0].suit, need)
}

fn side_suit_led<const RULES: u32>(position: &Position, need: u8) -> Option<u64> {
    if is_trump(position, position.trick[0]) { None } else { after_lead::<RULES>(position, need) }
}

// Only what second hand's own tricks don't answer.
fn second_crossed<const RULES: u32>(position: &Position, need: u8) -> Option<u64> {
    match side_suit_led::<{ RUNS | LONG_SUITS | JOINT_TRUMPS }>(position, need) {
        Some(_) => None,
        None => side_suit_led::<RULES>(position, need),
    }
}

fn trump_led<const RULES: u32>(position: &Position, need: u8) -> Option<u64> {
    if is_trump(position, position.trick[0]) { after_lead::<RULES>(position, need) } else { None }
}

// Where second hand has not followed suit: so it is fourth hand that has the highest card of it.
fn third_hand(position: &Position, need: u8) -> Option<u64> {
    let [led, second, _] = position.trick;
    if led.suit == second.suit { None } else { after_lead::<ALL>(position, need) }
}

// ------------------------------------------------------------------ positions

// The cards of a hand of this card's suit.
fn suit_of(card: Card) -> u64 {
    0xffff << (card.place() / 16 * 16)
}

fn cards_of(hand: u64) -> impl Iterator<Item = Card> {
    const SUITS: [Suit; 4] = [Suit::Clubs, Suit::Diamonds, Suit::Hearts, Suit::Spades];
    let places = (0..64).filter(move |place| hand & 1 << place != 0);
    places.map(|place: u32| Card { suit: SUITS[place as usize / 16], rank: (place % 16) as u8 })
}

// The position after these cards of a trick.
fn after(deal: &Position, cards: &[Card]) -> Position {
    let mut position = start(deal.hands, deal.strain, deal.first);
    for (place, card) in cards.iter().enumerate() {
        position.hands[(deal.first as usize + place) % 4] &= !(1 << card.place());
        position.trick[place] = *card;
    }
    position.played = cards.len() as u8;
    position
}

// All ways to play so many cards from this start of a trick.
fn tricks(deal: &Position, played: usize) -> Vec<Vec<Card>> {
    let mut tricks = vec![Vec::new()];
    for place in 0..played {
        let hand = deal.hands[(deal.first as usize + place) % 4];
        let more = |trick: Vec<Card>| {
            let followed = trick.first().map_or(0, |led| hand & suit_of(*led));
            let choices = cards_of(if followed == 0 { hand } else { followed });
            choices.map(|card| [&trick[..], &[card]].concat()).collect::<Vec<_>>()
        };
        tricks = tricks.into_iter().flat_map(more).collect();
    }
    tricks
}

fn cards_left(deal: &Position, suit: u64) -> Vec<Card> {
    let all = deal.hands.iter().fold(0, |all, hand| all | hand & suit);
    let mut cards: Vec<Card> = cards_of(all).collect();
    cards.reverse();
    cards
}

// The card of the deal that was dealt anew which stands where this one stood, or where this one is below the depth any card
// of the seat that is below it.
fn instead(chance: &mut Chance, deal: &Position, card: Card, depths: [u8; 4], anew: &Position, seat: usize) -> Card {
    let depth = depths[card.suit as usize] as usize;
    let place = cards_left(deal, suit_of(card)).iter().position(|other| other.rank == card.rank).expect("a card left");
    let cards = cards_left(anew, suit_of(card));
    if place < depth {
        return cards[place];
    }
    let own: Vec<Card> = cards[depth..].iter().copied().filter(|card| anew.hands[seat] & 1 << card.place() != 0).collect();
    own[chance.below(own.len())]
}

// The deal with the cards below the depths dealt anew, after a trick that was begun in the same way; or nothing where all
// cards stayed.
fn begun_anew(chance: &mut Chance, deal: &Position, trick: &[Card], depths: [u8; 4]) -> Option<(Position, Position)> {
    let hands = dealt_anew(chance, deal, depths)?;
    let anew = turned(deal, hands, chance.below(4));
    let mut cards = Vec::new();
    for (place, card) in trick.iter().enumerate() {
        let seat = (anew.first as usize + place) % 4;
        cards.push(instead(chance, deal, *card, depths, &anew, seat));
    }
    let position = after(&anew, &cards);
    Some((anew, position))
}

// ------------------------------------------------------------------ answers

#[derive(Default)]
struct Count {
    answers: usize,
    anew: usize,
    wrong: usize,
}

struct Trial {
    rule: Rule,
    short: bool,
    chance: Chance,
    count: Count,
}

impl Trial {
    fn new(rule: Rule, short: bool) -> Trial {
        Trial { rule, short, chance: Chance(20261123), count: Count::default() }
    }

    // Deals until there are so many answers, or one that is wrong if this stops it.
    fn run(&mut self, answers: usize, stops: bool) {
        for _ in 0..DEALS {
            if self.count.answers >= answers || stops && self.count.wrong > 0 {
                return;
            }
            let cards = CARDS[self.chance.below(CARDS.len())];
            let deal = random_deal(&mut self.chance, cards);
            self.try_deal(&deal, cards as u8, stops);
        }
    }

    fn try_deal(&mut self, deal: &Position, left: u8, stops: bool) {
        let mut played = Played::default();
        for trick in tricks(deal, self.rule.played) {
            let position = after(deal, &trick);
            let mut taken = None;
            for need in 1..=left {
                let Some(cards) = (self.rule.claim)(&position, need) else { continue };
                if stops && self.count.wrong > 0 {
                    return;
                }
                let taken = *taken.get_or_insert_with(|| self.taken(&mut played, &position, left));
                self.count.answers += 1;
                let depths = depths_of(deal, cards);
                if !self.short {
                    self.judge(need, taken, deal, &position, depths);
                }
                self.try_anew(deal, &trick, left, need, depths);
            }
        }
    }

    fn try_anew(&mut self, deal: &Position, trick: &[Card], left: u8, need: u8, depths: [u8; 4]) {
        for _ in 0..TIMES {
            let depths = if self.short { self.one_short(depths) } else { depths };
            let Some((anew, position)) = begun_anew(&mut self.chance, deal, trick, depths) else { continue };
            self.count.anew += 1;
            let taken = self.taken(&mut Played::default(), &position, left);
            self.judge(need, taken, &anew, &position, depths);
        }
    }

    // The depths without the lowest card of a suit, where there is one.
    fn one_short(&mut self, depths: [u8; 4]) -> [u8; 4] {
        let suits: Vec<usize> = (0..4).filter(|&suit| depths[suit] > 0).collect();
        let mut depths = depths;
        if !suits.is_empty() {
            depths[suits[self.chance.below(suits.len())]] -= 1;
        }
        depths
    }

    fn taken(&self, played: &mut Played, position: &Position, left: u8) -> u8 {
        let leaders = played.leaders(position);
        if self.rule.side == Side::Leaders { leaders } else { left - leaders }
    }

    fn judge(&mut self, need: u8, taken: u8, deal: &Position, position: &Position, depths: [u8; 4]) {
        if need <= taken {
            return;
        }
        self.count.wrong += 1;
        if self.count.wrong == 1 {
            let trick: Vec<u32> = position.trick[..position.played as usize].iter().map(|card| card.place()).collect();
            eprintln!(
                "{}: {} trump {} first {} trick {trick:?} depths {depths:?} at least {need}, but {taken}",
                self.rule.name, written(&deal.hands), code(deal.strain), deal.first as u8,
            );
        }
    }
}

fn alone(most: usize) -> bool {
    let mut good = true;
    for rule in RIGHT {
        let mut trial = Trial::new(rule, false);
        trial.run(most, false);
        let Count { answers, anew, wrong } = trial.count;
        println!("{}: {answers} answers, {anew} dealt anew, {wrong} wrong", rule.name);
        good &= answers > 0 && anew > 0 && wrong == 0;
    }
    good
}

fn broken() -> bool {
    let mut good = true;
    let short = RIGHT.map(|rule| (rule, true));
    for (rule, short) in WRONG.map(|rule| (rule, false)).into_iter().chain(short) {
        let mut trial = Trial::new(rule, short);
        trial.run(UNTIL_WRONG, true);
        let Count { answers, anew, wrong } = trial.count;
        let said = if wrong > 0 { "found wrong" } else { "NOT found wrong" };
        let less = if short { " on a card fewer" } else { "" };
        println!("{}{less}: {said}, {answers} answers, {anew} dealt anew", rule.name);
        good &= wrong > 0;
    }
    good
}

fn main() -> ExitCode {
    let words: Vec<String> = std::env::args().skip(1).collect();
    let good = match &words[..] {
        [word] if word == "broken" => broken(),
        [answers] => alone(answers.parse().expect("a number of answers")),
        _ => {
            eprintln!("rules ANSWERS | rules broken");
            return ExitCode::from(2);
        }
    };
    if good { ExitCode::SUCCESS } else { ExitCode::FAILURE }
}
