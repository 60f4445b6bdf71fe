//! Many threads at one kernel: how many calls a second they make, and how long a call takes at the worst, also where one of the threads
//! is stopped again and again, wherever it stands, as a scheduler preempts it. Unproved.

use std::sync::atomic::{AtomicBool, AtomicUsize, Ordering::SeqCst};
use std::thread;
use std::time::{Duration, Instant};

use crate::calls::Call;
use crate::makers::Maker;

/// What each core does, again and again: cores_bench does the same.
#[derive(Clone, Copy)]
pub enum Work {
    Look,
    Range,
    Object,
    Tick,
}

impl Work {
    pub const ALL: [Work; 4] = [Work::Look, Work::Range, Work::Object, Work::Tick];

    pub fn name(self) -> &'static str {
        match self {
            Work::Look => "look",
            Work::Range => "copy and remove of a range",
            Work::Object => "copy and remove of one object",
            Work::Tick => "tick",
        }
    }

    // The call that a core makes after so many: it fills and empties eight places of its own.
    fn call(self, core: u16, made: usize) -> Call {
        let place = 24 + 8 * core + (made / 2 % 8) as u16;
        match self {
            Work::Look => Call::Look { a: 0 },
            Work::Tick => Call::Tick { n: 1 },
            Work::Range | Work::Object if made % 2 == 1 => Call::Remove { t: 1, b: place },
            Work::Range => Call::Copy { a: 0, t: 1, b: place, rights: 3 },
            Work::Object => Call::Copy { a: 1, t: 1, b: place, rights: 3 },
        }
    }
}

/// How long a run lasts; for how long a thread is stopped, and how often.
const RUN: Duration = Duration::from_millis(150);
const STOPPED: u32 = 1_000;
const EVERY: Duration = Duration::from_millis(4);

/// No thread notes the times of more calls.
const MOST: usize = 1 << 21;

/// How a run is made.
#[derive(Clone, Copy, PartialEq, Eq)]
pub enum How {
    Counted,
    Timed,
    /// Timed, while the first thread, whose times do not count, is stopped again and again.
    Stopped,
}

/// Calls a second, where a thread is stopped those of the others; and of the times of calls, in nanoseconds, the one that 9,999 of 10,000
/// do not pass, and the longest.
pub struct Found {
    pub rate: u64,
    pub most: u32,
    pub longest: u32,
}

/// Lets each maker do its work in a thread of its own.
pub fn run<M: Maker>(makers: Vec<M>, work: Work, how: How) -> Found {
    let ends = AtomicBool::new(false);
    let first = AtomicUsize::new(0);
    let start = Instant::now();
    let lanes: Vec<(usize, Vec<u32>)> = thread::scope(|scope| {
        let (ends, first) = (&ends, &first);
        let threads: Vec<_> = (0..)
            .zip(makers)
            .map(|(core, maker)| {
                scope.spawn(move || {
                    if core == 0 {
                        first.store(unsafe { system::pthread_self() }, SeqCst);
                    }
                    lane(maker, core, work, how != How::Counted, ends)
                })
            })
            .collect();
        wait(start, how == How::Stopped, first);
        ends.store(true, SeqCst);
        threads.into_iter().map(|thread| thread.join().expect("a lane")).collect()
    });
    let took = start.elapsed();
    let skipped = usize::from(how == How::Stopped);
    let made: usize = lanes.iter().skip(skipped).map(|lane| lane.0).sum();
    let mut times: Vec<u32> = lanes.into_iter().skip(skipped).flat_map(|lane| lane.1).collect();
    times.sort_unstable();
    let at = |part: usize| times.get(part.min(times.len().wrapping_sub(1))).copied().unwrap_or(0);
    let rate = (made as f64 / took.as_secs_f64()) as u64;
    Found { rate, most: at(times.len() / 10_000 * 9_999), longest: at(usize::MAX) }
}

// One thread's calls, until the run ends: how many, and, where they are timed, how long each took.
fn lane<M: Maker>(mut maker: M, core: u16, work: Work, timed: bool, ends: &AtomicBool) -> (usize, Vec<u32>) {
    let mut times = Vec::with_capacity(if timed { MOST } else { 0 });
    let mut made = 0;
    let mut last = Instant::now();
    while made < MOST || !timed {
        maker.make(work.call(core, made));
        made += 1;
        if timed {
            let now = Instant::now();
            times.push((now - last).as_nanos() as u32);
            last = now;
        }
        if made % 16 == 0 && ends.load(SeqCst) {
            break;
        }
    }
    (made, times)
}

// Waits until the run is over, and stops the first thread meanwhile, if it is to be stopped.
fn wait(start: Instant, stops: bool, first: &AtomicUsize) {
    if stops {
        unsafe { system::signal(system::SIGUSR1, system::stand_still) };
    }
    while start.elapsed() < RUN {
        thread::sleep(if stops { EVERY } else { RUN });
        let thread = first.load(SeqCst);
        if stops && thread != 0 && start.elapsed() < RUN {
            unsafe { system::pthread_kill(thread, system::SIGUSR1) };
        }
    }
}

mod system {
    pub const SIGUSR1: i32 = 10;

    unsafe extern "C" {
        pub fn pthread_self() -> usize;
        pub fn pthread_kill(thread: usize, signal: i32) -> i32;
        pub fn signal(signal: i32, handler: extern "C" fn(i32)) -> usize;
        fn usleep(microseconds: u32) -> i32;
    }

    /// Keeps the thread from going on for a while, wherever it stands.
    pub extern "C" fn stand_still(_: i32) {
        unsafe { usleep(super::STOPPED) };
    }
}
