// A job book behind one lock, as plain Rust has it: a map of jobs, the numbers that wait, open jobs by owner, and the journal
// as a list; each caller keeps a list of its receipts. An event is kept once, and both lists share it. For the words
// `threads rounds` it writes the nanoseconds that the calls took, how many events there were, and 0. For `0 rounds jobs` it is the
// book alone, without lock and journal: filled with so many jobs, and then it writes the nanoseconds of so many rounds, how many calls
// they were, and how many jobs were done.
#![allow(dead_code)]

use std::collections::{BTreeSet, HashMap};
use std::sync::{Arc, Mutex};
use std::time::Instant;

#[derive(Clone, PartialEq, Debug)]
struct Request {
    hands: [u64; 4],
    trick: [u8; 6],
    strain: u8,
    first: u8,
    solutions: u8,
}

#[derive(Clone, Debug)]
struct Solved {
    request: Request,
    answer: [[u16; 3]; 13],
}

#[derive(Clone)]
enum Call {
    Submit { caller: u64, request: Request },
    Claim { worker: u64 },
    Finish { worker: u64, job: u64, claim: u64, solved: Solved },
    Fetch { caller: u64, job: u64 },
}

#[derive(Clone, Debug)]
enum State {
    Waiting,
    Running { worker: u64, claim: u64 },
    Done(Solved),
}

#[derive(Clone, Debug)]
enum Reply {
    Submitted(u64),
    Claimed { job: u64, claim: u64, request: Request },
    NothingWaits,
    Recorded,
    Stale,
    State(u64, State),
    Fault(u8),
}

struct Event {
    caller: u64,
    call: Call,
    reply: Reply,
}

struct Receipt {
    place: u64,
    event: Arc<Event>,
}

struct Job {
    owner: u64,
    request: Request,
    state: State,
}

#[derive(Default)]
struct Book {
    jobs: HashMap<u64, Job>,
    waiting: BTreeSet<u64>,
    open: HashMap<u64, u64>,
    claims: u64,
    journal: Vec<Arc<Event>>,
}

impl Book {
    fn apply(&mut self, call: Call) -> Reply {
        match call {
            Call::Submit { caller, request } => {
                let open = self.open.entry(caller).or_insert(0);
                if *open >= 64 {
                    return Reply::Fault(13);
                }
                if self.jobs.len() >= 1_048_576 {
                    return Reply::Fault(14);
                }
                *open += 1;
                let number = self.jobs.len() as u64 + 1;
                self.jobs.insert(number, Job { owner: caller, request, state: State::Waiting });
                self.waiting.insert(number);
                Reply::Submitted(number)
            }
            Call::Claim { worker } => {
                let Some(number) = self.waiting.pop_first() else {
                    return Reply::NothingWaits;
                };
                self.claims += 1;
                let job = self.jobs.get_mut(&number).unwrap();
                job.state = State::Running { worker, claim: self.claims };
                Reply::Claimed { job: number, claim: self.claims, request: job.request.clone() }
            }
            Call::Finish { worker, job: number, claim, solved } => {
                let Some(job) = self.jobs.get_mut(&number) else {
                    return Reply::Stale;
                };
                match job.state {
                    State::Running { worker: w, claim: c } if w == worker && c == claim && job.request == solved.request => {}
                    _ => return Reply::Stale,
                }
                job.state = State::Done(solved);
                *self.open.get_mut(&job.owner).unwrap() -= 1;
                Reply::Recorded
            }
            Call::Fetch { caller, job: number } => match self.jobs.get(&number) {
                Some(job) if job.owner == caller => Reply::State(number, job.state.clone()),
                _ => Reply::Fault(16),
            },
        }
    }
}

fn record(book: &Mutex<Book>, caller: u64, receipts: &mut Vec<Receipt>, call: Call) -> Reply {
    let mut book = book.lock().unwrap();
    let reply = book.apply(call.clone());
    let place = book.journal.len() as u64;
    let event = Arc::new(Event { caller, call, reply: reply.clone() });
    book.journal.push(event.clone());
    receipts.push(Receipt { place, event });
    reply
}

fn rounds(book: &Mutex<Book>, solved: &Solved, caller: u64, count: u64) -> usize {
    let mut receipts = Vec::new();
    for _ in 0..count {
        let request = solved.request.clone();
        let mine = match record(book, caller, &mut receipts, Call::Submit { caller, request }) {
            Reply::Submitted(job) => job,
            _ => 0,
        };
        if let Reply::Claimed { job, claim, .. } = record(book, caller, &mut receipts, Call::Claim { worker: caller }) {
            let solved = solved.clone();
            record(book, caller, &mut receipts, Call::Finish { worker: caller, job, claim, solved });
        }
        record(book, caller, &mut receipts, Call::Fetch { caller, job: mine });
    }
    let count = receipts.len();
    // As the passes are, at their desk's end.
    std::mem::forget(receipts);
    count
}

// Rounds of the book alone: how many of their jobs were done.
fn rounds_of_book(book: &mut Book, solved: &Solved, count: u64) -> u64 {
    let caller = 1;
    let mut done = 0;
    for _ in 0..count {
        let request = solved.request.clone();
        let Reply::Submitted(mine) = book.apply(Call::Submit { caller, request }) else { break };
        let Reply::Claimed { job, claim, .. } = book.apply(Call::Claim { worker: caller }) else { break };
        let solved = solved.clone();
        book.apply(Call::Finish { worker: caller, job, claim, solved });
        if let Reply::State(_, State::Done(_)) = book.apply(Call::Fetch { caller, job: mine }) {
            done += 1;
        }
    }
    done
}

fn main() {
    let words: Vec<u64> = std::env::args().skip(1).map(|word| word.parse().unwrap()).collect();
    let (threads, count) = (words[0], words[1]);
    let hands = [1 << 62, 1 << 61, 1 << 60, 1 << 59];
    let request = Request { hands, trick: [0; 6], strain: 4, first: 0, solutions: 3 };
    let solved = Solved { request, answer: [[14, 0, 1]; 13] };
    if threads == 0 {
        let mut book = Book::default();
        rounds_of_book(&mut book, &solved, words[2]);
        let start = Instant::now();
        let done = rounds_of_book(&mut book, &solved, count);
        println!("{} {} {done}", start.elapsed().as_nanos(), 4 * count);
        return;
    }
    let book = Mutex::new(Book::default());
    let start = Instant::now();
    std::thread::scope(|scope| {
        for caller in 1..=threads {
            let (book, solved) = (&book, &solved);
            scope.spawn(move || rounds(book, solved, caller, count));
        }
    });
    let nanoseconds = start.elapsed().as_nanos();
    println!("{nanoseconds} {} 0", book.into_inner().unwrap().journal.len());
}
