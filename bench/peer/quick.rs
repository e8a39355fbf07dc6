//! The quick tricks of `dd_quick` in plain Rust. `RULES` says which are counted, so that `cases/tools/rules.rs` can try each alone: a
//! search counts `ALL`. What is left out or added is known when it is compiled, and costs nothing.
use super::{Interval, Position, SEATS, SUITS, Seat, Strain, Suit, above, below, highest, with};

/// A side suit's highest cards, while the leader holds them without a gap.
pub const RUNS: u32 = 1;
/// All cards of a long suit.
pub const LONG_SUITS: u32 = 2;
/// The highest trumps that two partners hold between them.
pub const JOINT_TRUMPS: u32 = 4;
/// The partner's winners next below the leader's that nobody ruffs, once the leader has crossed.
pub const CROSSING: u32 = 8;
/// All cards of a long suit of the partner's, once the leader has crossed.
pub const PARTNERS_LONG_SUITS: u32 = 1024;
/// Without trumps, one trick where the leader's side has to lead to a card that an opponent guards.
pub const LATER_TRICK: u32 = 8192;
/// Joint trumps below some of the opponents', but for as many tricks.
pub const LOWER_TRUMPS: u32 = 65536;
/// Without trumps, the winners that an opponent keeps until the leader's side has to lead to them.
pub const KEPT_WINNERS: u32 = 1 << 20;
/// The second highest trump behind the hand that has the highest, with another trump.
pub const GUARDED_TRUMP: u32 = 1 << 24;
pub const ALL: u32 = RUNS
    | LONG_SUITS
    | JOINT_TRUMPS
    | CROSSING
    | PARTNERS_LONG_SUITS
    | LATER_TRICK
    | LOWER_TRUMPS
    | KEPT_WINNERS
    | GUARDED_TRUMP;

// Wrong forms, which `cases/tools/rules.rs` has to find wrong.
/// An opponent with trumps follows suit as long as it is led.
pub const NOBODY_RUFFS: u32 = 16;
/// An opponent with no more trumps than the leader's run does not ruff, and all joint trumps are left to be counted.
pub const TRUMPS_ARE_DRAWN: u32 = 32;
/// The suit that is led gives a trick though third hand ruffs it.
pub const THE_LEAD_IS_NOT_RUFFED: u32 = 64;
/// No winner of the partner's falls under the leader's.
pub const NO_WINNER_FALLS: u32 = 256;
/// The leader crosses without a card to lead to its partner.
pub const CROSSES_WITHOUT_A_CARD: u32 = 512;

/// A suit of the partner's is long whatever the leader has of it.
pub const LONG_BEFORE_THE_LEADER: u32 = 2048;
/// A suit of the partner's is long whatever the opponents have of it.
pub const LONG_BEFORE_THE_OPPONENTS: u32 = 4096;

/// An opponent with trumps follows suit as long as the partner leads it.
pub const NOBODY_RUFFS_THE_PARTNER: u32 = 1 << 28;
/// An opponent with trumps still has all its cards of a suit when the partner leads it.
pub const NOBODY_HAS_FOLLOWED: u32 = 1 << 29;
/// Crossing rests on no trumps.
pub const CROSSING_WITHOUT_TRUMPS: u32 = 1 << 30;

/// The leader's side may have a round of its own suits for each trick left.
pub const A_ROUND_FOR_EACH_TRICK: u32 = 16384;
/// Of a suit that nobody guards the leader's side has as many rounds as its shorter holding.
pub const ROUNDS_OF_THE_SHORTER: u32 = 32768;
/// A card below some of the leader's side is guarded by none.
pub const A_LONE_HONOUR_IS_GUARDED: u32 = 128;
/// It is guarded before a hand that has one of those and others.
pub const GUARDED_BEFORE_A_HIGHER: u32 = 1 << 23;
/// An opponent keeps what it guards, however few tricks are left.
pub const GUARDS_WITHOUT_ROOM: u32 = 1 << 31;

/// The opponents' higher trumps take no trick.
pub const HIGHER_TRUMPS_TAKE_NOTHING: u32 = 1 << 17;
/// Joint trumps take a trick each though neither hand has a trump for each.
pub const TRUMPS_OF_BOTH_HANDS: u32 = 1 << 18;
/// An opponent's higher trump takes no trick where the other opponent holds it.
pub const ONE_OPPONENTS_TRUMPS: u32 = 1 << 19;

/// An opponent keeps as many winners as it likes.
pub const KEEPS_EACH_WINNER: u32 = 1 << 21;
/// It keeps them over the rounds of the shorter holdings.
pub const KEEPS_OVER_THE_SHORTER: u32 = 1 << 22;

/// A trump is guarded by none.
pub const A_LONE_TRUMP_IS_GUARDED: u32 = 1 << 25;
/// It is guarded before the hand that has the highest.
pub const GUARDED_BEFORE_THE_HIGHEST: u32 = 1 << 26;
/// It is the third highest.
pub const THE_THIRD_IS_GUARDED: u32 = 1 << 27;

// The cards of a holding above all of these others.
fn above_all(own: u16, others: u16) -> u16 {
    if others == 0 { own } else { above(own, highest(others)) }
}

// The seat's winners of a suit: the highest cards without a gap.
fn winners(position: &Position, seat: Seat, suit: Suit) -> u16 {
    let [left, partner, right] = others(seat).map(|other| position.holding(other, suit));
    above_all(position.holding(seat, suit), left | partner | right)
}

// The cards of the suit that the seat holds below its winners.
fn low_cards(position: &Position, seat: Seat, suit: Suit) -> u16 {
    position.holding(seat, suit) & !winners(position, seat, suit)
}

// The cards of the suit that the seat holds and no opponent can beat.
fn unbeaten(position: &Position, seat: Seat, suit: Suit) -> u16 {
    let [left, _, right] = others(seat).map(|other| position.holding(other, suit));
    above_all(position.holding(seat, suit), left | right)
}

pub fn others(seat: Seat) -> [Seat; 3] {
    [seat.next(), seat.next().next(), seat.next().next().next()]
}

fn length(position: &Position, seat: Seat, suit: Suit) -> u8 {
    position.holding(seat, suit).count_ones() as u8
}

fn trumps(position: &Position, seat: Seat) -> u8 {
    match position.strain {
        Strain::Trump(trump) => length(position, seat, trump),
        Strain::Notrump => 0,
    }
}

// These cards and the highest ones of the suit, so many of these ranks.
fn with_highest(cards: u64, suit: Suit, ranks: u16, count: u8) -> u64 {
    let (mut cards, mut ranks) = (cards, ranks);
    for _ in 0..count {
        if ranks != 0 {
            let rank = highest(ranks);
            ranks = below(ranks, rank);
            cards = with(cards, suit, rank);
        }
    }
    cards
}

// The tricks that the leader cashes in a suit, and the number of the suit's highest cards on which they rest.
#[derive(Clone, Copy)]
struct Cash {
    tricks: u8,
    depth: u8,
}

impl Cash {
    fn is_long(self) -> bool {
        self.depth < self.tricks
    }
}

fn cash<const RULES: u32>(position: &Position, suit: Suit) -> Cash {
    let [left, partner, right] = others(position.first);
    let lengths = [left, partner, right].map(|seat| length(position, seat, suit));
    let longest = lengths[0].max(lengths[1]).max(lengths[2]);
    let run = winners(position, position.first, suit).count_ones() as u8;
    let (tricks, depth) = if RULES & LONG_SUITS != 0 && longest <= run {
        (length(position, position.first, suit), longest)
    } else if RULES & RUNS != 0 {
        (run, run)
    } else {
        (0, 0)
    };
    let follows = |seat| trumps(position, seat) == 0 || RULES & NOBODY_RUFFS != 0 || is_drawn::<RULES>(position, seat);
    let unruffed = |seat, leads: u8| if follows(seat) { leads } else { leads.min(length(position, seat, suit)) };
    match position.strain {
        Strain::Notrump => Cash { tricks, depth },
        Strain::Trump(trump) if trump == suit => Cash { tricks: 0, depth: 0 },
        Strain::Trump(_) => Cash { tricks: unruffed(left, unruffed(right, tricks)), depth },
    }
}

fn is_drawn<const RULES: u32>(position: &Position, seat: Seat) -> bool {
    match position.strain {
        Strain::Trump(trump) if RULES & TRUMPS_ARE_DRAWN != 0 => {
            trumps(position, seat) <= winners(position, position.first, trump).count_ones() as u8
        }
        _ => false,
    }
}

// The tricks that a suit has, and whether it is asked first.
#[derive(Clone, Copy)]
struct Offer {
    tricks: u8,
    first: bool,
}

// So many tricks, of the suits that are asked first before the others.
fn shares(offers: [Offer; 4], need: u8) -> [u8; 4] {
    let mut left = need;
    let mut shares = [0; 4];
    for first in [true, false] {
        for (share, offer) in shares.iter_mut().zip(offers) {
            if offer.first == first {
                *share = offer.tricks.min(left);
                left -= *share;
            }
        }
    }
    shares
}

// The trumps of a side and of its opponents, and how many the longer of its two hands has.
struct Trumps {
    ours: u16,
    theirs: u16,
    longer: u8,
}

impl Trumps {
    fn new<const RULES: u32>(position: &Position, seat: Seat, trump: Suit) -> Trumps {
        let [left, partner, right] = others(seat).map(|other| position.holding(other, trump));
        let own = position.holding(seat, trump);
        let (long, short) = (own.count_ones().max(partner.count_ones()), own.count_ones().min(partner.count_ones()));
        Trumps {
            ours: own | partner,
            theirs: if RULES & ONE_OPPONENTS_TRUMPS != 0 { left } else { left | right },
            longer: (if RULES & TRUMPS_OF_BOTH_HANDS != 0 { long + short } else { long }) as u8,
        }
    }

    // What those of this rank or higher take.
    fn taken<const RULES: u32>(&self, rank: u8) -> u8 {
        let from = |ranks: u16| (ranks.count_ones() - below(ranks, rank).count_ones()) as u8;
        let over = from(self.theirs);
        match over {
            0 => from(self.ours).min(self.longer),
            _ if RULES & LOWER_TRUMPS == 0 => 0,
            _ if RULES & HIGHER_TRUMPS_TAKE_NOTHING != 0 => from(self.ours).min(self.longer),
            _ => from(self.ours).min(self.longer).saturating_sub(over),
        }
    }

    fn most<const RULES: u32>(&self) -> u8 {
        let (mut rest, mut most) = (self.ours, 0);
        while rest != 0 {
            let rank = highest(rest);
            rest = below(rest, rank);
            most = most.max(self.taken::<RULES>(rank));
        }
        most
    }

    // The highest of its ranks from which on trumps take so many tricks.
    fn lowest<const RULES: u32>(&self, tricks: u8) -> Option<u8> {
        let mut rest = self.ours;
        while rest != 0 {
            let rank = highest(rest);
            rest = below(rest, rank);
            if tricks <= self.taken::<RULES>(rank) {
                return Some(rank);
            }
        }
        None
    }
}

// The tricks of the joint trumps of the seat and its partner.
fn joint_trumps<const RULES: u32>(position: &Position, seat: Seat) -> u8 {
    match position.strain {
        Strain::Trump(trump) if RULES & JOINT_TRUMPS != 0 => Trumps::new::<RULES>(position, seat, trump).most::<RULES>(),
        _ => 0,
    }
}

fn with_trumps<const RULES: u32>(position: &Position, seat: Seat, cards: u64, tricks: u8) -> u64 {
    let Strain::Trump(trump) = position.strain else { return cards };
    let [left, _, right] = others(seat);
    if tricks == 0 || length(position, left, trump) == 0 && length(position, right, trump) == 0 {
        return cards;
    }
    match Trumps::new::<RULES>(position, seat, trump).lowest::<RULES>(tricks) {
        Some(rank) => with(cards, trump, rank),
        None => cards,
    }
}

// The cards of the suit that the leader's partner holds next below the leader's run.
fn next_run(position: &Position, suit: Suit) -> u16 {
    above_all(unbeaten(position, position.first.next().next(), suit), low_cards(position, position.first, suit))
}

// What the partner takes in a suit once the leader has crossed, and whether the leader can cross there.
fn next<const RULES: u32>(position: &Position, suit: Suit) -> Offer {
    let run = winners(position, position.first, suit).count_ones() as u8;
    let tricks = partners_cashed::<RULES>(position, suit, run);
    let card = RULES & CROSSES_WITHOUT_A_CARD != 0 || run < length(position, position.first, suit);
    Offer { tricks, first: tricks > 0 && card }
}

// What the partner takes in a suit after so many leads of the leader's, where nobody ruffs: in trumps none.
fn partners_cashed<const RULES: u32>(position: &Position, suit: Suit, leads: u8) -> u8 {
    match position.strain {
        Strain::Notrump => partners_tricks::<RULES>(position, suit, leads),
        Strain::Trump(trump) if trump == suit => 0,
        Strain::Trump(_) => {
            let [left, _, right] = others(position.first);
            let follows = |seat| trumps(position, seat) == 0 || RULES & NOBODY_RUFFS_THE_PARTNER != 0;
            let unruffed = |seat, leads: u8| if follows(seat) { leads } else { leads.min(length(position, seat, suit)) };
            let before = if RULES & NOBODY_HAS_FOLLOWED != 0 { 0 } else { leads };
            let all = before + partners_tricks::<RULES>(position, suit, leads);
            unruffed(left, unruffed(right, all)).saturating_sub(before)
        }
    }
}

// What the partner takes in a suit after so many leads of the leader's.
fn partners_tricks<const RULES: u32>(position: &Position, suit: Suit, leads: u8) -> u8 {
    let [left, partner, right] = others(position.first);
    let spare = length(position, partner, suit).saturating_sub(leads);
    if spare == 0 && RULES & NO_WINNER_FALLS == 0 {
        return 0;
    }
    let next = next_run(position, suit).count_ones() as u8;
    let own = length(position, position.first, suit);
    let theirs = length(position, left, suit).max(length(position, right, suit));
    let long = (own <= leads + next || RULES & LONG_BEFORE_THE_LEADER != 0)
        && (theirs <= leads + next || RULES & LONG_BEFORE_THE_OPPONENTS != 0);
    match () {
        () if RULES & PARTNERS_LONG_SUITS != 0 && long => spare,
        () if RULES & NO_WINNER_FALLS == 0 => next.min(spare),
        () => next,
    }
}

// The tricks left beside these that the leader cashes, where it and its partner keep their trumps.
fn beside_trumps(position: &Position, side: u8) -> u8 {
    let (own, his) = (trumps(position, position.first), trumps(position, position.first.next().next()));
    position.tricks_left().saturating_sub(side + own.max(his))
}

// What the partner takes in each suit once the leader has crossed, and how many tricks that adds, of so many.
fn crossing<const RULES: u32>(position: &Position, most: u8) -> ([Offer; 4], u8) {
    if RULES & CROSSING == 0 || most == 0 {
        return ([Offer { tricks: 0, first: false }; 4], 0);
    }
    let next = SUITS.map(|suit| next::<RULES>(position, suit));
    let all: u8 = next.iter().map(|offer| offer.tricks).sum();
    let can = next.iter().any(|offer| offer.first);
    (next, if can { all.min(most) } else { 0 })
}

// What the leader's side is sure of: in each side suit, in all, and its joint trumps.
fn leaders<const RULES: u32>(position: &Position) -> ([Cash; 4], u8, u8) {
    let cash = SUITS.map(|suit| cash::<RULES>(position, suit));
    let all: u8 = cash.iter().map(|cash| cash.tricks).sum();
    let side = all.min(position.tricks_left() - trumps(position, position.first.next().next()));
    (cash, side, joint_trumps::<RULES>(position, position.first))
}

/// An interval that holds the tricks of the leader's side from this start of a trick on.
pub fn bounds<const RULES: u32>(position: &Position) -> Interval {
    let (_, side, trumps) = leaders::<RULES>(position);
    let (_, crossed) = crossing::<RULES>(position, beside_trumps(position, side));
    let [left, _, right] = others(position.first);
    let kept = kept::<RULES>(position, left).max(kept::<RULES>(position, right));
    let theirs = joint_trumps::<RULES>(position, left).max(later_trick::<RULES>(position) as u8).max(kept);
    Interval { lo: side + trumps + crossed, hi: position.tricks_left() - theirs }
}

/// At a start of a trick: the cards on which it rests that the leader's side takes at least `need` tricks.
pub fn for_leader<const RULES: u32>(position: &Position, need: u8) -> Option<u64> {
    let (cash, side, trumps) = leaders::<RULES>(position);
    if need > side + trumps {
        return crossing_cards::<RULES>(position, cash, side, trumps, need);
    }
    let side = need.min(side);
    let cards = with_shares(position, 0, &cash, shares(long_first(&cash), side));
    Some(with_trumps::<RULES>(position, position.first, cards, need - side))
}

// These cards and the winners on which so many tricks of each suit rest.
fn with_shares(position: &Position, cards: u64, cash: &[Cash; 4], shares: [u8; 4]) -> u64 {
    let mut cards = cards;
    for ((suit, cash), share) in SUITS.into_iter().zip(cash).zip(shares) {
        cards = with_highest(cards, suit, winners(position, position.first, suit), share.min(cash.depth));
    }
    cards
}

// The tricks of each suit, those of long suits first.
fn long_first(cash: &[Cash; 4]) -> [Offer; 4] {
    cash.map(|cash| Offer { tricks: cash.tricks, first: cash.is_long() })
}

// The cards on which so many tricks rest where the leader crosses to its partner.
fn crossing_cards<const RULES: u32>(position: &Position, cash: [Cash; 4], side: u8, trumps: u8, need: u8) -> Option<u64> {
    let most = beside_trumps(position, side);
    if need > side + trumps + most {
        return None;
    }
    let (next, crossed) = crossing::<RULES>(position, most);
    if need > side + trumps + crossed {
        return None;
    }
    let mut cards = with_shares(position, 0, &cash, cash.map(|cash| cash.tricks));
    for (suit, share) in SUITS.into_iter().zip(shares(next, need - side - trumps)) {
        cards = with_highest(cards, suit, next_run(position, suit), share);
    }
    let joint = if RULES & CROSSING_WITHOUT_TRUMPS != 0 { 0 } else { trumps };
    Some(with_trumps::<RULES>(position, position.first, cards, joint))
}

/// At a start of a trick: the cards on which it rests that the other side takes at least `need` tricks.
pub fn against_leader<const RULES: u32>(position: &Position, need: u8) -> Option<u64> {
    let left = position.first.next();
    if need <= joint_trumps::<RULES>(position, left) {
        return Some(with_trumps::<RULES>(position, left, 0, need));
    }
    if need == 1 && later_trick::<RULES>(position) {
        return Some(later_cards(position));
    }
    let [left, _, right] = others(position.first);
    if let Some(seat) = [left, right].into_iter().find(|&seat| keeps::<RULES>(position, seat, need)) {
        return Some(kept_cards(position, seat, need));
    }
    if need == 1 {
        guarded_trump::<RULES>(position, left).or_else(|| guarded_trump::<RULES>(position, right))
    } else {
        None
    }
}

// The second highest trump, where the hand before the seat's has the highest, and the seat has another trump.
fn guarded_trump<const RULES: u32>(position: &Position, seat: Seat) -> Option<u64> {
    let Strain::Trump(trump) = position.strain else { return None };
    let [left, partner, right] = others(seat).map(|other| position.holding(other, trump));
    let own = position.holding(seat, trump);
    let (before, beside) = if RULES & GUARDED_BEFORE_THE_HIGHEST != 0 { (left, right | partner) } else { (right, left | partner) };
    if RULES & GUARDED_TRUMP == 0 || own.count_ones() < if RULES & A_LONE_TRUMP_IS_GUARDED != 0 { 1 } else { 2 } {
        return None;
    }
    let best = highest(own);
    let over = above(before, best).count_ones();
    if over == if RULES & THE_THIRD_IS_GUARDED != 0 { 2 } else { 1 } && above(beside, best) == 0 {
        Some(with(0, trump, best))
    } else {
        None
    }
}

// Of a suit, how many winners an opponent has, and how often the leader's side can lead it.
fn kept_of<const RULES: u32>(position: &Position, seat: Seat, suit: Suit) -> (u8, u8) {
    let run = winners(position, seat, suit).count_ones() as u8;
    let (own, his) = (length(position, position.first, suit), length(position, position.first.next().next(), suit));
    (run, if RULES & KEEPS_OVER_THE_SHORTER != 0 { own.min(his) } else { own.max(his) })
}

// Does the opponent keep so many winners? Most often it has too few of them, which is asked first.
fn keeps<const RULES: u32>(position: &Position, seat: Seat, need: u8) -> bool {
    if SEATS.into_iter().any(|seat| trumps(position, seat) > 0) {
        return false;
    }
    let all: u32 = SUITS.map(|suit| winners(position, seat, suit).count_ones()).iter().sum();
    need as u32 <= all && need <= kept::<RULES>(position, seat)
}

// How many winners the opponent keeps until it comes in.
fn kept<const RULES: u32>(position: &Position, seat: Seat) -> u8 {
    if RULES & KEPT_WINNERS == 0 || SEATS.into_iter().any(|seat| trumps(position, seat) > 0) {
        return 0;
    }
    let suits = SUITS.map(|suit| kept_of::<RULES>(position, seat, suit));
    let winners: u8 = suits.iter().map(|suit| suit.0).sum();
    let rounds: u8 = suits.iter().map(|suit| if suit.0 > 0 { 0 } else { suit.1 }).sum();
    let headed = suits.iter().filter(|suit| suit.0 > 0 && suit.1 > 0).count() as u8;
    let tricks = position.tricks_left();
    match () {
        () if headed + rounds > tricks => 0,
        () if RULES & KEEPS_EACH_WINNER != 0 => winners.min(tricks),
        () => winners.min(tricks.saturating_sub(rounds)),
    }
}

// One of each suit that the leader's side can lead, and more winners up to so many.
fn kept_cards(position: &Position, seat: Seat, need: u8) -> u64 {
    let suits = SUITS.map(|suit| kept_of::<0>(position, seat, suit));
    let first = suits.map(|suit| suit.0.min(suit.1).min(1));
    let mut left = need.saturating_sub(first.iter().sum());
    let mut cards = 0;
    for ((suit, of), one) in SUITS.into_iter().zip(suits).zip(first) {
        let more = (of.0 - one).min(left);
        left -= more;
        cards = with_highest(cards, suit, winners(position, seat, suit), one + more);
    }
    cards
}

// Of a suit: how often the leader's side can lead it before the opponents win, and whether the left or the right one guards it:
// it has the highest card of the two, and one for each card of the leader's side above it, and the hand behind it has none of
// those, or no others.
fn led<const RULES: u32>(position: &Position, suit: Suit) -> (u8, bool, bool) {
    let [left, partner, right] = others(position.first).map(|seat| position.holding(seat, suit));
    let own = position.holding(position.first, suit);
    let tops = above_all(own | partner, left | right);
    let above = tops.count_ones();
    let longer = own.count_ones().max(partner.count_ones());
    let guards = |hand: u16, other: u16, behind: u16| {
        let long = hand.count_ones() > above || RULES & A_LONE_HONOUR_IS_GUARDED != 0;
        let over = behind & tops == 0 || behind & !tops == 0 || RULES & GUARDED_BEFORE_A_HIGHER != 0;
        longer > above && above_all(hand, other) != 0 && long && over
    };
    let (by_left, by_right) = (guards(left, right, partner), guards(right, left, own));
    let rounds = match () {
        () if by_left || by_right => above,
        () if RULES & ROUNDS_OF_THE_SHORTER != 0 => own.count_ones().min(partner.count_ones()),
        () => longer,
    };
    (rounds as u8, by_left, by_right)
}

// Has the leader's side to lead to a card that an opponent guards?
fn later_trick<const RULES: u32>(position: &Position) -> bool {
    let [left, partner, right] = others(position.first);
    let seats = [position.first, left, partner, right];
    if RULES & LATER_TRICK == 0 || seats.into_iter().any(|seat| trumps(position, seat) > 0) {
        return false;
    }
    let led = SUITS.map(|suit| led::<RULES>(position, suit));
    let rounds: u8 = led.iter().map(|led| led.0).sum();
    let left = led.iter().filter(|led| led.1).count() as u8;
    let right = led.iter().filter(|led| led.2).count() as u8;
    let tricks = position.tricks_left();
    let rounds_left = if RULES & A_ROUND_FOR_EACH_TRICK != 0 { tricks } else { tricks - 1 };
    rounds <= rounds_left && (RULES & GUARDS_WITHOUT_ROOM != 0 || rounds + left <= tricks && rounds + right <= tricks)
}

// The cards that opponents guard.
fn later_cards(position: &Position) -> u64 {
    let [left, _, right] = others(position.first);
    let mut cards = 0;
    for suit in SUITS {
        let (_, by_left, by_right) = led::<0>(position, suit);
        let guarded = position.holding(left, suit) | position.holding(right, suit);
        cards = with_highest(cards, suit, guarded, (by_left || by_right) as u8);
    }
    cards
}

// The opponent of the leader with the highest card left of the suit, where an opponent has it.
fn heading(position: &Position, suit: Suit) -> Option<Seat> {
    let [left, partner, right] = others(position.first);
    let best = |seat| match position.holding(seat, suit) {
        0 => 0,
        holding => highest(holding),
    };
    let (second, fourth) = (best(left), best(right));
    let others = best(position.first).max(best(partner));
    if second > others.max(fourth) {
        Some(left)
    } else if fourth > others.max(second) {
        Some(right)
    } else {
        None
    }
}

/// At a start of a trick: the cards on which it rests that after each lead of the suit the opponents of the leader take at least
/// `need` tricks: the winners of one of them, that of the suit the first of them.
pub fn for_second_hand<const RULES: u32>(position: &Position, suit: Suit, need: u8) -> Option<u64> {
    if position.played != 0 {
        return None;
    }
    let before = Position { hands: position.hands, strain: position.strain, first: heading(position, suit)?, trick: position.trick, played: 0 };
    match position.strain {
        Strain::Trump(trump) if trump == suit => after_a_trump::<RULES>(&before, suit, need),
        _ => after_a_side_suit::<RULES>(&before, suit, need),
    }
}

fn after_a_side_suit<const RULES: u32>(before: &Position, suit: Suit, need: u8) -> Option<u64> {
    let (mut cash, side, trumps) = leaders::<RULES>(before);
    if RULES & THE_LEAD_IS_NOT_RUFFED != 0 {
        cash[suit as usize].tricks = cash[suit as usize].tricks.max(1);
    }
    if need == 0 || cash[suit as usize].tricks == 0 || side == 0 {
        return None;
    }
    if need > side + trumps {
        return crossing_cards::<RULES>(before, cash, side, trumps, need);
    }
    let side = need.min(side);
    let mut fewer = cash;
    fewer[suit as usize].tricks -= 1;
    let mut shares = shares(long_first(&fewer), side - 1);
    shares[suit as usize] += 1;
    Some(with_trumps::<RULES>(before, before.first, with_shares(before, 0, &cash, shares), need - side))
}

fn after_a_trump<const RULES: u32>(before: &Position, trump: Suit, need: u8) -> Option<u64> {
    let (cash, sure, _) = leaders::<RULES>(before);
    let run = winners(before, before.first, trump);
    let tops = need.min(run.count_ones() as u8);
    let side = need - tops;
    let spare = before.tricks_left() - trumps(before, before.first.next().next());
    if tops == 0 || side > sure || side >= spare {
        return None;
    }
    Some(with_shares(before, with_highest(0, trump, run, tops), &cash, shares(long_first(&cash), side)))
}

