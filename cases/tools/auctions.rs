// Par by playing auctions out: the calls of the Laws (a pass, each higher bid, a double, a redouble), each seat in turn, each
// side playing for its own score, over all 35 bids. It knows nothing of how the program finds par. Reads request lines for
// par by a table and writes the scores, a line each. With the words `draw COUNT SEED` it writes such request lines in place
// of that.
//
// What is kept of an auction is the last bid, its side, whether it is doubled, the passes since, whose turn it is, and of each
// side which partner named a strain first. That last part counts only in strains in which the partners take different
// numbers of tricks, so of the others it isn't kept. Drawn tables have at most four such strains of a side; any other table
// is played out too, in a second or so.
use std::io::{self, BufRead, Write};

const BIDS: usize = 35;
// Clubs, diamonds, hearts, spades, notrump: the codes of the strains from the lowest.
const STRAINS: [usize; 5] = [3, 2, 1, 0, 4];

struct Board {
    table: [[i32; 4]; 5],
    vulnerable: i32,
    // The place of a side and strain among those in which the partners differ.
    kept: [[Option<u32>; 5]; 2],
    count: u32,
}

fn side(seat: usize) -> usize {
    seat % 2
}

// Three states of each kept place: nobody has named the strain, the first of the two seats has, or the second.
fn namer(namers: usize, place: u32) -> usize {
    namers / 3usize.pow(place) % 3
}

impl Board {
    fn new(table: [[i32; 4]; 5], vulnerable: i32) -> Board {
        let mut board = Board { table, vulnerable, kept: [[None; 5]; 2], count: 0 };
        for of in 0..2 {
            for strain in 0..5 {
                if table[strain][of] != table[strain][of + 2] {
                    board.kept[of][strain] = Some(board.count);
                    board.count += 1;
                }
            }
        }
        board
    }

    // After this seat has bid in this strain.
    fn named(&self, namers: usize, seat: usize, strain: usize) -> usize {
        match self.kept[side(seat)][strain] {
            Some(place) if namer(namers, place) == 0 => namers + (1 + seat / 2) * 3usize.pow(place),
            _ => namers,
        }
    }

    // North and South's score of a contract: Law 77, as a sum of its headings.
    fn score(&self, bid: usize, of: usize, doubling: u32, namers: usize) -> i32 {
        let (level, strain) = (bid as i32 / 5 + 1, STRAINS[bid % 5]);
        let declarer = match self.kept[of][strain] {
            Some(place) if namer(namers, place) == 2 => of + 2,
            _ => of,
        };
        let vulnerable = self.vulnerable == 1 || self.vulnerable == of as i32 + 2;
        let over = self.table[strain][declarer] - level - 6;
        let times = 1 << doubling;
        let won = if over >= 0 {
            let each = [30, 30, 20, 20, 30][strain];
            let bid_for = times * (each * level + if strain == 4 { 10 } else { 0 });
            let extra = match (doubling, vulnerable) {
                (0, _) => each,
                (_, false) => 50 * times,
                (_, true) => 100 * times,
            };
            let game = match (bid_for >= 100, vulnerable) {
                (false, _) => 50,
                (true, false) => 300,
                (true, true) => 500,
            };
            let slam = match (level, vulnerable) {
                (6, false) => 500,
                (6, true) => 750,
                (7, false) => 1000,
                (7, true) => 1500,
                _ => 0,
            };
            bid_for + over * extra + game + slam + [0, 50, 100][doubling as usize]
        } else {
            let mut cost = 0;
            for trick in 1..=-over {
                cost += match (doubling, vulnerable, trick) {
                    (0, false, _) => 50,
                    (0, true, _) => 100,
                    (_, false, 1) => 50 * times,
                    (_, true, 1) => 100 * times,
                    (_, false, 2 | 3) => 100 * times,
                    _ => 150 * times,
                };
            }
            -cost
        };
        if of == 0 { won } else { -won }
    }
}

fn better(seat: usize, one: i32, other: i32) -> i32 {
    if side(seat) == 0 { one.max(other) } else { one.min(other) }
}

// A contract that stands, and whose turn it is.
#[derive(Clone, Copy)]
struct Standing {
    bid: usize,
    of: usize,
    namers: usize,
    doubling: u32,
    passes: u32,
    caller: usize,
}

// The value from here on. `higher` has, by seat, what the best higher bid of that seat is worth.
fn standing(board: &Board, s: Standing, higher: &[Option<i32>; 4]) -> i32 {
    if s.passes == 3 {
        return board.score(s.bid, s.of, s.doubling, s.namers);
    }
    let next = (s.caller + 1) % 4;
    let mut value = standing(board, Standing { passes: s.passes + 1, caller: next, ..s }, higher);
    let may_raise = match s.doubling {
        0 => side(s.caller) != s.of,
        1 => side(s.caller) == s.of,
        _ => false,
    };
    if may_raise {
        let raised = Standing { doubling: s.doubling + 1, passes: 0, caller: next, ..s };
        value = better(s.caller, value, standing(board, raised, higher));
    }
    match higher[s.caller] {
        Some(bid) => better(s.caller, value, bid),
        None => value,
    }
}

// The value of the auction before any call, by dealer.
fn values(board: &Board) -> [i32; 4] {
    let ways = 3usize.pow(board.count);
    // By namers and seat: what the best bid above the one at hand is worth.
    let mut best = vec![[None; 4]; ways];
    for bid in (0..BIDS).rev() {
        // What this bid is worth by each seat, before any of them is put among the higher ones.
        let mut worth = vec![[0; 4]; ways];
        for namers in 0..ways {
            for seat in 0..4 {
                let after = board.named(namers, seat, STRAINS[bid % 5]);
                let bid_made = Standing { bid, of: side(seat), namers: after, doubling: 0, passes: 0, caller: (seat + 1) % 4 };
                worth[namers][seat] = standing(board, bid_made, &best[after]);
            }
        }
        for namers in 0..ways {
            for seat in 0..4 {
                let own = worth[namers][seat];
                best[namers][seat] = Some(best[namers][seat].map_or(own, |above| better(seat, own, above)));
            }
        }
    }
    let mut values = [0; 4];
    for dealer in 0..4 {
        // Who calls last comes first here: when all pass the score is 0.
        for turn in (0..4).rev() {
            let seat = (dealer + turn) % 4;
            values[dealer] = better(seat, values[dealer], best[0][seat].unwrap());
        }
    }
    values
}

// ---- lines

fn number(line: &str, name: &str) -> Option<i32> {
    let from = line.find(&format!("\"{name}\":"))? + name.len() + 3;
    line[from..].split(|c| c == ',' || c == '}').next()?.parse().ok()
}

fn table(line: &str) -> [[i32; 4]; 5] {
    let from = line.find("[[").expect("a table");
    let to = line.find("]]").expect("a table");
    let numbers: Vec<i32> = line[from + 2..to].split(|c: char| !c.is_ascii_digit()).filter_map(|word| word.parse().ok()).collect();
    let mut table = [[0; 4]; 5];
    for (place, tricks) in numbers.into_iter().enumerate() {
        table[place / 4][place % 4] = tricks;
    }
    table
}

fn par(line: &str) -> i32 {
    let board = Board::new(table(line), number(line, "vulnerable").expect("who is vulnerable"));
    let values = values(&board);
    match (number(line, "dealer"), number(line, "side")) {
        (Some(dealer), _) => values[dealer as usize],
        (None, Some(0)) => values[0].max(values[2]),
        (None, Some(_)) => values[1].min(values[3]),
        _ => panic!("neither dealer nor side"),
    }
}

struct Draw(u64);

impl Draw {
    fn below(&mut self, most: u64) -> u64 {
        self.0 ^= self.0 << 13;
        self.0 ^= self.0 >> 7;
        self.0 ^= self.0 << 17;
        self.0 % most
    }
}

fn draw(count: u64, seed: u64, out: &mut impl Write) -> io::Result<()> {
    let mut drawn = Draw(seed);
    for turn in 0..count {
        let mut table = [[0; 4]; 5];
        for row in table.iter_mut() {
            // Half of the tables are like those of deals: what one side takes the other doesn't, or nearly.
            let (one, other) = if turn % 2 == 0 {
                let one = drawn.below(14);
                (one, (13 - one + drawn.below(3)).saturating_sub(1).min(13))
            } else {
                (drawn.below(14), drawn.below(14))
            };
            *row = [one, other, one, other];
        }
        for _ in 0..drawn.below(5) {
            let (strain, seat) = (drawn.below(5) as usize, drawn.below(4) as usize);
            table[strain][seat] = if turn % 2 == 0 { (table[strain][seat] + 1).min(13) } else { drawn.below(14) };
        }
        let first = match drawn.below(6) {
            dealer @ 0..=3 => format!("\"dealer\":{dealer}"),
            side => format!("\"side\":{}", side - 4),
        };
        let rows: Vec<String> = table.iter().map(|row| format!("{row:?}").replace(' ', "")).collect();
        writeln!(out, "{{\"do\":\"par\",\"table\":[{}],{first},\"vulnerable\":{}}}", rows.join(","), drawn.below(4))?;
    }
    Ok(())
}

fn main() -> io::Result<()> {
    let words: Vec<String> = std::env::args().skip(1).collect();
    let mut out = io::BufWriter::new(io::stdout().lock());
    if let [word, count, seed] = words.as_slice() {
        assert_eq!(word, "draw");
        return draw(count.parse().expect("a count"), seed.parse().expect("a seed"), &mut out);
    }
    for line in io::stdin().lock().lines() {
        writeln!(out, "{}", par(&line?))?;
    }
    Ok(())
}
