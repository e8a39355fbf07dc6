//! Clients of `ddserve serve`, each on a thread of its own: PORT KIND CLIENTS REQUESTS, and request lines on the standard input.
//!
//! KIND `done`: each client sends one request, fetches its job until it is done, and goes on with the next. `wait`: the same in one
//! line, whose reply waits for the job's end. `submit`: it sends submits alone, each after the reply to the last. `deals`: the
//! clients take the lines in turn, submit theirs at once, up to 64, and fetch each by a line that waits; the answers go to the
//! standard output, as the line tool writes them, in the lines' order.
//! REQUESTS is the number of all clients together. On the standard error: nanoseconds, requests, fetches, refused submits, and the
//! median and the greatest nanoseconds of one request.
use std::io::{BufRead, BufReader, Read, Write};
use std::net::TcpStream;
use std::time::{Duration, Instant};

/// What a client waits after the first fetch of a job that is not done, and each time twice as long, up to the greatest.
const PAUSE: Duration = Duration::from_micros(100);
const GREATEST_PAUSE: Duration = Duration::from_micros(6_400);

struct Client {
    stream: TcpStream,
    reader: BufReader<TcpStream>,
    reply: String,
    fetches: u64,
    refused: u64,
}

impl Client {
    fn new(port: u16) -> Client {
        let stream = TcpStream::connect(("127.0.0.1", port)).expect("no connection");
        stream.set_nodelay(true).unwrap();
        let reader = BufReader::new(stream.try_clone().unwrap());
        Client { stream, reader, reply: String::new(), fetches: 0, refused: 0 }
    }

    fn read(&mut self) -> &str {
        self.reply.clear();
        self.reader.read_line(&mut self.reply).expect("no reply");
        assert!(self.reply.ends_with('\n'), "the connection ended");
        self.reply.trim_end()
    }

    fn ask(&mut self, line: &str) -> &str {
        self.stream.write_all(line.as_bytes()).expect("nothing is taken");
        self.read()
    }

    /// One request, whose reply is its answer.
    fn wait(&mut self, line: &str) {
        let line = format!("{},\"wait\":60000}}\n", line.trim_end().strip_suffix('}').unwrap());
        let reply = self.ask(&line);
        assert!(reply.contains("\"state\":\"done\""), "{reply}");
    }

    fn job(reply: &str) -> Option<u64> {
        reply.strip_prefix("{\"job\":")?.strip_suffix('}')?.parse().ok()
    }

    /// The answer of a job, by fetches that wait so many milliseconds, with pauses between them.
    fn until_done(&mut self, job: u64, wait: u64, mut pause: Duration) -> String {
        let line = format!("{{\"do\":\"fetch\",\"job\":{job},\"wait\":{wait}}}\n");
        let open = [format!("{{\"job\":{job},\"state\":\"waiting\"}}"), format!("{{\"job\":{job},\"state\":\"running\"}}")];
        loop {
            self.fetches += 1;
            let reply = self.ask(&line).to_string();
            if reply != open[0] && reply != open[1] {
                assert!(reply.ends_with(&format!(",\"job\":{job},\"state\":\"done\"}}")), "{reply}");
                return reply.replace(&format!(",\"job\":{job},\"state\":\"done\""), "");
            }
            std::thread::sleep(pause);
            pause = GREATEST_PAUSE.min(2 * pause);
        }
    }
}

fn main() {
    let words: Vec<String> = std::env::args().collect();
    let [_, port, kind, clients, requests] = &words[..] else { panic!("PORT KIND CLIENTS REQUESTS") };
    let (port, clients, requests): (u16, usize, usize) = (port.parse().unwrap(), clients.parse().unwrap(), requests.parse().unwrap());
    let mut text = String::new();
    std::io::stdin().read_to_string(&mut text).unwrap();
    let lines: Vec<String> = text.lines().map(|line| format!("{line}\n")).collect();
    let connected: Vec<Client> = (0..clients).map(|_| Client::new(port)).collect();
    let start = Instant::now();
    let told: Vec<(Vec<(usize, String)>, Vec<u64>, u64, u64)> = std::thread::scope(|scope| {
        let handles: Vec<_> = connected
            .into_iter()
            .enumerate()
            .map(|(place, mut client)| {
                let lines = &lines;
                scope.spawn(move || {
                    let own: Vec<usize> = (place..requests).step_by(clients).collect();
                    let (mut answers, mut taken) = (Vec::new(), Vec::new());
                    if kind == "deals" {
                        for piece in own.chunks(64) {
                            let jobs: Vec<u64> = piece.iter().map(|&number| Client::job(client.ask(&lines[number])).expect("no job")).collect();
                            for (&number, job) in piece.iter().zip(jobs) {
                                answers.push((number, client.until_done(job, 60_000, Duration::ZERO)));
                            }
                        }
                    } else {
                        for number in own {
                            let since = Instant::now();
                            if kind == "wait" {
                                client.wait(&lines[number % lines.len()]);
                                taken.push(since.elapsed().as_nanos() as u64);
                                continue;
                            }
                            match Client::job(client.ask(&lines[number % lines.len()])) {
                                Some(job) if kind == "done" => drop(client.until_done(job, 0, PAUSE)),
                                Some(_) => {}
                                None => client.refused += 1,
                            }
                            taken.push(since.elapsed().as_nanos() as u64);
                        }
                    }
                    (answers, taken, client.fetches, client.refused)
                })
            })
            .collect();
        handles.into_iter().map(|handle| handle.join().unwrap()).collect()
    });
    let nanoseconds = start.elapsed().as_nanos();
    let mut taken: Vec<u64> = told.iter().flat_map(|one| one.1.iter().copied()).collect();
    taken.sort_unstable();
    let (fetches, refused) = told.iter().fold((0, 0), |sums, one| (sums.0 + one.2, sums.1 + one.3));
    let mut answers: Vec<(usize, String)> = told.into_iter().flat_map(|one| one.0).collect();
    answers.sort();
    let text: String = answers.into_iter().map(|(_, answer)| answer + "\n").collect();
    std::io::stdout().write_all(text.as_bytes()).unwrap();
    let (median, greatest) = (taken.get(taken.len() / 2).unwrap_or(&0), taken.last().unwrap_or(&0));
    eprintln!("{nanoseconds} {requests} {fetches} {refused} {median} {greatest}");
}
