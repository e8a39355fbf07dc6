//! What waking costs, without the server: SLEEPERS threads wait, each for the end of its own job, and one thread ends the jobs in
//! turn, some microseconds apart. Once with one bell for all, once with a bell for each. For each form: the microseconds from the
//! end of a job until its sleeper has seen it, by the median and the most; the milliseconds until all have; and how often a thread
//! waited, for each job.
use std::sync::{Barrier, Condvar, Mutex};
use std::time::{Duration, Instant};

/// What a job of one card takes.
const JOB: Duration = Duration::from_micros(25);

struct Book {
    ended: Vec<Option<Instant>>,
    asleep: usize,
    late: Vec<Duration>,
}

/// How often the threads have waited.
fn switches() -> u64 {
    let threads = std::fs::read_dir("/proc/self/task").unwrap();
    let texts = threads.map(|thread| std::fs::read_to_string(thread.unwrap().path().join("status")).unwrap_or_default());
    let counts = texts.map(|text| {
        let line = text.lines().find_map(|line| line.strip_prefix("voluntary_ctxt_switches:"));
        line.map_or(0, |count| count.trim().parse::<u64>().unwrap())
    });
    counts.sum()
}

fn spin(time: Duration) {
    let since = Instant::now();
    while since.elapsed() < time {
        std::hint::spin_loop();
    }
}

fn sleep_until_ended(place: usize, book: &Mutex<Book>, bell: &Condvar) {
    let mut book = book.lock().unwrap();
    book.asleep += 1;
    while book.ended[place].is_none() {
        book = bell.wait(book).unwrap();
    }
    let late = book.ended[place].unwrap().elapsed();
    book.late.push(late);
}

fn run(sleepers: usize, bells: usize) {
    let book = Mutex::new(Book { ended: vec![None; sleepers], asleep: 0, late: Vec::new() });
    let bells: Vec<Condvar> = (0..bells).map(|_| Condvar::new()).collect();
    // Nobody leaves before the waits are counted.
    let all = Barrier::new(sleepers + 1);
    std::thread::scope(|scope| {
        for place in 0..sleepers {
            let (book, bells, all) = (&book, &bells, &all);
            scope.spawn(move || {
                sleep_until_ended(place, book, &bells[place % bells.len()]);
                all.wait();
            });
        }
        while book.lock().unwrap().asleep < sleepers {
            std::thread::sleep(Duration::from_millis(10));
        }
        std::thread::sleep(Duration::from_millis(100));
        let (before, since) = (switches(), Instant::now());
        for place in 0..sleepers {
            spin(JOB);
            book.lock().unwrap().ended[place] = Some(Instant::now());
            bells[place % bells.len()].notify_all();
        }
        while book.lock().unwrap().late.len() < sleepers {
            std::thread::sleep(Duration::from_millis(1));
        }
        let (taken, count) = (since.elapsed(), switches() - before);
        all.wait();
        let mut late = book.lock().unwrap().late.clone();
        late.sort();
        let name = if bells.len() == 1 { "one for all" } else { "one each" };
        println!("{name:>11}  {:10.0}  {:8.0}  {:9.1}  {:14.1}", 1e6 * late[sleepers / 2].as_secs_f64(), 1e6 * late[sleepers - 1].as_secs_f64(), 1e3 * taken.as_secs_f64(), count as f64 / sleepers as f64);
    });
}

fn main() {
    let sleepers: usize = std::env::args().nth(1).map_or(1_000, |word| word.parse().unwrap());
    println!("      bells  median, us  most, us  in all, ms  switches a job");
    for bells in [1, sleepers, 1, sleepers] {
        run(sleepers, bells);
    }
}
