//! The clients of `long.py`, each on a thread of its own: PORT CLIENTS WORKERS EVENTS. Rows come on the standard input: a kind, the
//! number of parts, a request and its reply, with tabs between. They work until so many events are made. On the standard output
//! there comes a line for each connection, in any order: its place among all connections, its events, how many more there may
//! be, and its jobs; and at last how many answers there were, how many jobs were asked for again, and how often a client stayed
//! until its run was ended. Where a reply is wrong it says so and ends with status 1.
use std::io::{BufRead, BufReader, ErrorKind, Read, Write};
use std::net::TcpStream;
use std::sync::atomic::{AtomicBool, AtomicI64, Ordering};
use std::sync::Mutex;
use std::time::Duration;

/// The submits that a client sends at once.
const BURST: usize = 6;
const FULL: &str = "{\"fault\":15}";
const ENDED: &str = "{\"fault\":17}";
/// The longest wait, in milliseconds.
const WAIT: u64 = 60_000;

#[derive(Clone, Copy, PartialEq)]
enum Kind {
    /// One line, one answer.
    Waits,
    /// The same, and at 15 it stays until the run is ended.
    Stays,
    /// The same each other time, so that it stays in another run.
    StaysLater,
    /// In each run it begins a search and goes.
    Leaves,
    /// It cancels some searches.
    Cancels,
    /// It fetches again and again.
    Polls,
    /// Full deals, and tables where they are among the rows.
    WantsMuch,
    /// Some submits at once, then their fetches.
    SendsAhead,
}

fn kind_of(place: usize) -> Kind {
    match place {
        0 => Kind::Stays,
        1 => Kind::StaysLater,
        2 => Kind::Leaves,
        3 => Kind::Cancels,
        4 | 5 => Kind::Polls,
        6 => Kind::WantsMuch,
        7..=14 => Kind::SendsAhead,
        _ => Kind::Waits,
    }
}

struct Row {
    parts: i64,
    request: String,
    expected: String,
}

struct Shared {
    port: u16,
    workers: i64,
    target: i64,
    small: Vec<Row>,
    hard: Vec<Row>,
    par: Vec<Row>,
    /// Searches to begin, whose answers nobody waits for.
    begun: Vec<Row>,
    /// How many connections were made. The lock is held while one is.
    made: Mutex<u64>,
    events: AtomicI64,
    over: AtomicBool,
}

impl Shared {
    fn is_over(&self) -> bool {
        self.over.load(Ordering::Relaxed)
    }
}

/// What a client accounts for of one connection.
#[derive(Default)]
struct Visit {
    order: u64,
    jobs: Vec<u64>,
    events: i64,
    /// How many more there may be.
    loose: i64,
}

struct Client<'a> {
    shared: &'a Shared,
    kind: Kind,
    drawn: u64,
    reader: BufReader<TcpStream>,
    visits: Vec<Visit>,
    answers: u64,
    cut: u64,
    stayed: u64,
}

fn fail(what: &str, got: &str, wanted: &str) -> ! {
    eprintln!("cases/server: {what}: {got} in place of {wanted}");
    std::process::exit(1)
}

fn waiting(request: &str, wait: u64) -> String {
    format!("{},\"wait\":{wait}}}", &request[..request.len() - 1])
}

fn fetch(job: u64) -> String {
    format!("{{\"do\":\"fetch\",\"job\":{job}}}")
}

fn state(job: u64, name: &str) -> String {
    format!("{{\"job\":{job},\"state\":\"{name}\"}}")
}

fn submitted(job: u64) -> String {
    format!("{{\"job\":{job}}}")
}

fn is_open(reply: &str, job: u64) -> bool {
    reply == state(job, "waiting") || reply == state(job, "running")
}

/// The reply to a fetch of a job that is done, where the line tool replies so to its request.
fn done(expected: &str, job: u64) -> String {
    match expected.strip_prefix("{\"table\"") {
        Some(rest) => format!("{{\"job\":{job},\"state\":\"done\",\"table\"{rest}"),
        None => format!("{},\"job\":{job},\"state\":\"done\"}}", &expected[..expected.len() - 1]),
    }
}

/// Does the reply tell of a call of the book that left an event? Not faults 1 to 12, 15 and 19 on, nor par.
fn is_event(reply: &str) -> bool {
    let fault = reply.strip_prefix("{\"fault\":").and_then(|rest| rest.trim_end_matches('}').parse::<u8>().ok());
    !reply.starts_with("{\"contracts\"") && fault.map_or(true, |number| matches!(number, 13 | 14 | 16..=18))
}

/// The job that the reply names.
fn job_of(reply: &str) -> u64 {
    let rest = reply.split("\"job\":").nth(1).unwrap_or_else(|| fail("a request", reply, "a job"));
    let digits = rest.find(|char: char| !char.is_ascii_digit()).unwrap_or(rest.len());
    rest[..digits].parse().unwrap_or_else(|_| fail("a request", reply, "a job"))
}

/// The next connection, and its place among all.
fn connect(shared: &Shared) -> (BufReader<TcpStream>, Visit) {
    let mut made = shared.made.lock().unwrap();
    let stream = TcpStream::connect(("127.0.0.1", shared.port)).expect("no connection");
    *made += 1;
    stream.set_nodelay(true).unwrap();
    (BufReader::new(stream), Visit { order: *made, ..Visit::default() })
}

impl<'a> Client<'a> {
    fn new(shared: &'a Shared, place: usize) -> Client<'a> {
        let (reader, visit) = connect(shared);
        Client { shared, kind: kind_of(place), drawn: place as u64 + 1, reader, visits: vec![visit], answers: 0, cut: 0, stayed: 0 }
    }

    fn visit(&mut self) -> &mut Visit {
        self.visits.last_mut().unwrap()
    }

    fn anew(&mut self) {
        let (reader, visit) = connect(self.shared);
        self.reader = reader;
        self.visits.push(visit);
    }

    /// One of so many (the generator is Marsaglia's xorshift).
    fn draw(&mut self, count: usize) -> usize {
        self.drawn ^= self.drawn << 13;
        self.drawn ^= self.drawn >> 7;
        self.drawn ^= self.drawn << 17;
        (self.drawn % count as u64) as usize
    }

    fn one_of(&mut self, rows: &'a [Row]) -> &'a Row {
        &rows[self.draw(rows.len())]
    }

    fn count(&mut self, events: i64) {
        self.visit().events += events;
        if self.shared.events.fetch_add(events, Ordering::Relaxed) + events >= self.shared.target {
            self.shared.over.store(true, Ordering::Relaxed);
        }
    }

    fn line(&mut self) -> Option<String> {
        let mut line = String::new();
        match self.reader.read_line(&mut line) {
            Ok(_) if line.ends_with('\n') => {
                line.pop();
                Some(line)
            }
            _ => None,
        }
    }

    /// The replies, none for each that the end of the run cut off. Their events are counted.
    fn tell(&mut self, lines: &[String]) -> Vec<Option<String>> {
        let text: String = lines.iter().flat_map(|line| [line.as_str(), "\n"]).collect();
        let _ = self.reader.get_mut().write_all(text.as_bytes());
        let replies: Vec<Option<String>> = lines.iter().map(|_| self.line()).collect();
        self.count(replies.iter().flatten().filter(|reply| is_event(reply)).count() as i64);
        self.visit().loose += replies.iter().filter(|reply| reply.is_none()).count() as i64;
        replies
    }

    fn ask(&mut self, line: String) -> Option<String> {
        self.tell(&[line]).pop().unwrap()
    }

    /// A job of so many parts: each is claimed and finished.
    fn began(&mut self, job: u64, parts: i64) {
        self.visit().jobs.push(job);
        self.count(2 * parts);
    }

    /// The run ended before the job: perhaps it was cancelled, and who knows how many of its parts were done. Each worker may have
    /// claimed one of them in place of its last claim, and handed it in unsearched.
    fn lost(&mut self, parts: i64) {
        self.count(-2 * parts);
        let workers = self.shared.workers;
        self.visit().loose += 2 * parts + 1 + workers;
        self.cut += 1;
    }

    /// Fetches the job until it has ended. None where the run ended first, or has no room for the fetch.
    fn until_ended(&mut self, mut reply: Option<String>, job: u64, parts: i64, wait: u64) -> Option<String> {
        while reply.as_ref().is_some_and(|reply| is_open(reply, job)) {
            reply = self.ask(waiting(&fetch(job), wait));
            if wait == 0 {
                std::thread::sleep(Duration::from_millis(1));
            }
        }
        match reply {
            Some(reply) if reply != FULL && reply != submitted(job) => Some(reply),
            _ => {
                self.lost(parts);
                None
            }
        }
    }

    fn answered(&mut self, reply: &str, row: &Row, job: u64) {
        let wanted = done(&row.expected, job);
        if reply != wanted {
            fail(&row.request, reply, &wanted);
        }
        self.answers += 1;
    }

    /// A request and its answer, each one line. At 15 it is asked again on a new connection.
    fn waits(&mut self, row: &Row) {
        loop {
            match self.ask(waiting(&row.request, WAIT)) {
                Some(reply) if reply == FULL => self.at_fifteen(),
                Some(reply) => {
                    let job = job_of(&reply);
                    self.began(job, row.parts);
                    // The submit and its fetch, unless that was refused.
                    self.count((reply != submitted(job)) as i64);
                    match self.until_ended(Some(reply), job, row.parts, WAIT) {
                        Some(reply) => return self.answered(&reply, row, job),
                        None => self.anew(),
                    }
                }
                None => self.anew(),
            }
        }
    }

    /// Nothing of this client's is open. Some stay nevertheless.
    fn at_fifteen(&mut self) {
        if self.kind == Kind::Stays || self.kind == Kind::StaysLater && self.visits.len() % 2 == 0 {
            self.stay_until_end();
        }
        self.anew();
        if self.kind == Kind::Leaves {
            self.leave_one();
        }
    }

    /// Until the run is ended, since others want to begin.
    fn stay_until_end(&mut self) {
        self.reader.get_ref().set_read_timeout(Some(Duration::from_millis(100))).unwrap();
        while !self.shared.is_over() {
            match self.reader.get_ref().peek(&mut [0]) {
                Err(fault) if matches!(fault.kind(), ErrorKind::WouldBlock | ErrorKind::TimedOut) => {}
                Ok(1) => fail("the end of a run", &self.line().unwrap_or_default(), "nothing"),
                _ => {
                    self.stayed += 1;
                    return;
                }
            }
        }
    }

    fn ask_par(&mut self) {
        let row = self.one_of(&self.shared.par);
        loop {
            match self.ask(row.request.clone()) {
                Some(reply) if reply == row.expected => return,
                Some(reply) => fail(&row.request, &reply, &row.expected),
                None => self.anew(),
            }
        }
    }

    /// Some submits at once, then their fetches in order.
    fn send_ahead(&mut self) {
        let mut rows: Vec<&Row> = (0..BURST).map(|_| self.one_of(&self.shared.small)).collect();
        while !rows.is_empty() {
            let lines: Vec<String> = rows.iter().map(|row| row.request.clone()).collect();
            let jobs: Vec<Option<u64>> = self.tell(&lines).into_iter().map(|reply| reply.filter(|reply| reply != FULL).map(|reply| job_of(&reply))).collect();
            for (job, row) in jobs.iter().zip(&rows) {
                if let Some(job) = job {
                    self.began(*job, row.parts);
                }
            }
            let mut left = Vec::new();
            for (job, row) in jobs.into_iter().zip(rows) {
                let reply = job.and_then(|job| self.until_ended(Some(state(job, "waiting")), job, row.parts, WAIT));
                match reply {
                    Some(reply) => self.answered(&reply, row, job.unwrap()),
                    None => left.push(row),
                }
            }
            rows = left;
            if !rows.is_empty() {
                self.anew();
            }
        }
    }

    /// A request that is fetched again and again.
    fn poll(&mut self) {
        let row = self.one_of(&self.shared.small);
        loop {
            if let Some(reply) = self.ask(row.request.clone()).filter(|reply| reply != FULL) {
                let job = job_of(&reply);
                self.began(job, row.parts);
                if let Some(reply) = self.until_ended(Some(state(job, "waiting")), job, row.parts, 0) {
                    return self.answered(&reply, row, job);
                }
            }
            self.anew();
        }
    }

    /// A job that runs, where it doesn't end before it is seen to, or the run has.
    fn begin(&mut self) -> Option<u64> {
        let request = self.one_of(&self.shared.begun).request.clone();
        let reply = self.ask(request).filter(|reply| reply != FULL);
        let Some(reply) = reply else {
            self.anew();
            return None;
        };
        let job = job_of(&reply);
        self.began(job, 1);
        let mut reply = Some(state(job, "waiting"));
        while reply == Some(state(job, "waiting")) {
            std::thread::sleep(Duration::from_millis(1));
            reply = self.ask(fetch(job));
        }
        match reply {
            Some(reply) if reply == state(job, "running") => Some(job),
            Some(reply) if reply != FULL => None,
            _ => {
                self.lost(1);
                self.anew();
                None
            }
        }
    }

    /// Begins a search and goes. Most often the job is cancelled then; it may just have ended.
    fn leave_one(&mut self) {
        if self.begin().is_some() {
            self.visit().loose += 1;
            self.anew();
        }
    }

    fn cancel_one(&mut self) {
        if let Some(job) = self.begin() {
            match self.ask(format!("{{\"do\":\"cancel\",\"job\":{job}}}")) {
                Some(reply) if reply == state(job, "cancelled") || reply == ENDED => {}
                Some(reply) if reply != FULL => fail("a cancel", &reply, "cancelled"),
                _ => {
                    self.lost(1);
                    self.anew();
                }
            }
        }
    }

    fn run(&mut self) {
        let mut turn = 0;
        while !self.shared.is_over() {
            turn += 1;
            match self.kind {
                Kind::Polls => self.poll(),
                Kind::SendsAhead => self.send_ahead(),
                Kind::Cancels if turn % 10 == 0 => self.cancel_one(),
                _ if turn % 20 == 0 => self.ask_par(),
                _ => {
                    let rows = if self.kind == Kind::WantsMuch { &self.shared.hard } else { &self.shared.small };
                    let row = self.one_of(rows);
                    self.waits(row);
                }
            }
        }
    }
}

/// The rows of one kind.
fn rows_of(text: &str, kind: &str) -> Vec<Row> {
    let rows = text.lines().map(|line| line.split('\t').collect::<Vec<_>>()).filter(|words| words[0] == kind);
    rows.map(|words| Row { parts: words[1].parse().unwrap(), request: words[2].to_string(), expected: words[3].to_string() }).collect()
}

fn main() {
    let numbers: Vec<i64> = std::env::args().skip(1).map(|word| word.parse().expect("a number")).collect();
    let [port, clients, workers, target] = numbers[..] else { panic!("PORT CLIENTS WORKERS EVENTS") };
    let mut text = String::new();
    std::io::stdin().read_to_string(&mut text).unwrap();
    let [small, hard, par, begun] = ["small", "hard", "par", "begun"].map(|kind| rows_of(&text, kind));
    let shared = Shared { port: port as u16, workers, target, small, hard, par, begun, made: Mutex::new(0), events: AtomicI64::new(0), over: AtomicBool::new(false) };
    let mut all: Vec<Client> = (0..clients as usize).map(|place| Client::new(&shared, place)).collect();
    std::thread::scope(|scope| {
        for client in &mut all {
            scope.spawn(|| client.run());
        }
    });
    let mut told = String::new();
    for visit in all.iter().flat_map(|client| &client.visits) {
        let jobs: String = visit.jobs.iter().map(|job| format!(" {job}")).collect();
        told += &format!("{} {} {}{jobs}\n", visit.order, visit.events, visit.loose);
    }
    let sum = |of: fn(&Client) -> u64| all.iter().map(of).sum::<u64>();
    told += &format!("{} {} {}\n", sum(|client| client.answers), sum(|client| client.cut), sum(|client| client.stayed));
    std::io::stdout().write_all(told.as_bytes()).unwrap();
}
