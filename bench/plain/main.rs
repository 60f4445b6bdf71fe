//! A yardstick for the kernel, in plain Rust and UNPROVED: what the same atomic steps cost where nothing is proved, what the calls cost
//! where they are written straight through, and what a lock costs in their place. bench/calls and bench/locks build it and run it.
//!
//!     plain trace ROW ROUNDS       the steps of the row's calls, made so often, as a trace writes them
//!     plain given ROW ROUNDS       makes them in the machine for given orders
//!     plain machine ROW ROUNDS     makes them as atomic steps; so straight and, where it was linked, library
//!     plain time                   how many nanoseconds a call takes on one core, row by row, so and under a mutex
//!     plain locks                  many threads at one kernel, without a lock and under three

mod calls;
mod contest;
mod given;
#[cfg(library)]
mod library;
mod locked;
mod locks;
mod machine;
mod makers;
mod rows;
mod shared;
mod stage;
mod straight;
mod words;

use std::hint::black_box;
use std::sync::Mutex;
use std::time::Instant;

use contest::{How, Work, run};
use given::{Given, line};
use locked::Kernel;
use locks::{Mcs, Ticket};
use makers::Maker;
use rows::{ROWS, Row, ready, row};

fn main() {
    let words: Vec<String> = std::env::args().skip(1).collect();
    let words: Vec<&str> = words.iter().map(String::as_str).collect();
    match words[..] {
        ["time"] => time(),
        ["locks"] => locks(),
        [how, name, rounds] => match (row(name), rounds.parse()) {
            (Some(row), Ok(rounds)) => make(how, row, rounds),
            _ => unknown(),
        },
        _ => unknown(),
    }
}

fn unknown() {
    eprintln!("plain: words not understood; the head of bench/plain/main.rs has them");
    std::process::exit(2);
}

// Makes the row's calls so often.
fn make(how: &str, row: &Row, rounds: usize) {
    match how {
        "trace" | "given" => given(how, row, rounds),
        "machine" => repeat(&mut makers::machine(row.name, row.cores)[0], row, rounds),
        "straight" => repeat(&mut makers::straight(row.name, row.cores)[0], row, rounds),
        #[cfg(library)]
        "library" => repeat(&mut library::ports(row.name, row.cores)[0], row, rounds),
        _ => unknown(),
    }
}

fn given(how: &str, row: &Row, rounds: usize) {
    let (layout, words, cores) = ready(row);
    let mut lists = vec![row.calls.repeat(rounds)];
    lists.resize(cores.len(), Vec::new());
    let mut machine = Given::new(words, cores, lists);
    if how == "trace" {
        while machine.go_on(0, |op, found| println!("{}", line(layout, 0, op, found))) {}
    } else {
        while machine.go_on(0, |_, _| {}) {}
    }
    if let Some(refused) = machine.refused() {
        panic!("{}.{} was refused: {:?}", refused.core, refused.index, refused.reply);
    }
}

// The call is not known where the maker is compiled.
#[inline(never)]
fn repeat<M: Maker>(maker: &mut M, row: &Row, rounds: usize) {
    for _ in 0..rounds {
        for call in row.calls {
            assert!(maker.make(*black_box(call)), "a call was refused");
        }
    }
}

// The nanoseconds of a call: the median of many short runs, so that what else the machine does tells little.
fn nanoseconds<M: Maker>(mut makers: Vec<M>, row: &Row) -> f64 {
    let rounds = 200 / row.calls.len();
    let mut runs: Vec<u128> = (0..401)
        .map(|_| {
            let start = Instant::now();
            repeat(&mut makers[0], row, rounds);
            start.elapsed().as_nanos()
        })
        .collect();
    runs.sort_unstable();
    runs[200] as f64 / (rounds * row.calls.len()) as f64
}

// A line for each row: its name, and the nanoseconds of the machine, straight through, under a mutex, and through the library.
fn time() {
    for row in &ROWS {
        let machine = nanoseconds(makers::machine(row.name, row.cores), row);
        let is_written = matches!(row.name, "look" | "range" | "object" | "map" | "tick" | "flush");
        let of_written = |time: &dyn Fn() -> f64| if is_written { format!("{:.1}", time()) } else { "-".into() };
        let straight = of_written(&|| nanoseconds(makers::straight(row.name, row.cores), row));
        let mutex = of_written(&|| nanoseconds(makers::locked::<Mutex<Kernel>>(row.cores), row));
        println!("{} {machine:.1} {straight} {mutex} {}", row.name, library_time(row));
    }
}

#[cfg(library)]
fn library_time(row: &Row) -> String {
    format!("{:.1}", nanoseconds(library::ports(row.name, row.cores), row))
}

#[cfg(not(library))]
fn library_time(_: &Row) -> String {
    "-".into()
}

fn locks() {
    println!("{:43}{:^29}   {:^20}   {:^30}", "", "thousand calls a second", "4 threads, timed", "one of 4 stopped: the others'");
    let (most, longest) = ("99.99 %", "longest");
    println!("{:43}{:>9}{:>10}{:>10}   {most:>10}{longest:>10}   {:>10}{most:>10}{longest:>10}", "", "1 thread", "2", "4", "calls");
    for work in Work::ALL {
        println!("{}", work.name());
        #[cfg(library)]
        contest("  this kernel, through the library for C", work, &|cores| library::ports("look", cores));
        contest("  the machine in plain Rust", work, &|cores| makers::machine("look", cores));
        contest("  straight through, without asking for life", work, &|cores| makers::straight("look", cores));
        contest("  one ticket lock", work, &makers::locked::<Ticket<Kernel>>);
        contest("  one MCS lock", work, &makers::locked::<Mcs<Kernel>>);
        contest("  the system's mutex", work, &makers::locked::<Mutex<Kernel>>);
    }
}

// A line for one kind of maker; the times of calls are in microseconds.
fn contest<M: Maker>(name: &str, work: Work, boot: &dyn Fn(u8) -> Vec<M>) {
    let made = |cores, how| {
        let found = run(boot(cores), work, how);
        let micro = |nano: u32| f64::from(nano) / 1_000.0;
        (found.rate / 1_000, micro(found.most), micro(found.longest))
    };
    let [one, two, four] = [1, 2, 4].map(|cores| made(cores, How::Counted).0);
    let (_, most, longest) = made(4, How::Timed);
    let (others, worst, stopped) = made(4, How::Stopped);
    println!("{name:43}{one:>9}{two:>10}{four:>10}   {most:>10.1}{longest:>10.1}   {others:>10}{worst:>10.1}{stopped:>10.1}");
}
