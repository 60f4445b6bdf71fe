//! What is measured: rows of calls, and the words of a machine that is ready for them. Unproved.

use crate::calls::Call;
use crate::machine::Core;
use crate::words::*;

pub const FRAMES: u16 = 32;
pub const BUDGET: u32 = 500_000_000;

/// A row of the table: calls that core 0 makes in turn, on a machine of so many cores.
pub struct Row {
    pub name: &'static str,
    pub cores: u8,
    pub calls: &'static [Call],
}

pub const ROWS: [Row; 12] = [
    Row { name: "look", cores: 1, calls: &[Call::Look { a: 0 }] },
    Row { name: "range", cores: 1, calls: &[Call::Copy { a: 0, t: 1, b: 20, rights: 3 }, Call::Remove { t: 1, b: 20 }] },
    Row { name: "object", cores: 1, calls: &[Call::Copy { a: 1, t: 1, b: 20, rights: 3 }, Call::Remove { t: 1, b: 20 }] },
    Row { name: "map", cores: 1, calls: &[Call::Map { p: 2, v: 5, r: 0, f: 9, w: 3 }, Call::Unmap { p: 2, v: 5 }, Call::Flush] },
    Row { name: "touch", cores: 1, calls: &[Call::Touch { v: 5 }] },
    Row { name: "tick", cores: 1, calls: &[Call::Tick { n: 1 }] },
    Row { name: "flush", cores: 1, calls: &[Call::Flush] },
    Row { name: "call", cores: 1, calls: &[Call::Call { g: 23 }, Call::Ret] },
    Row { name: "switch", cores: 1, calls: &[Call::Switch { h: 20, q: 12 }, Call::Switch { h: 4, q: 12 }] },
    Row { name: "transfer", cores: 2, calls: &[Call::Transfer { a: 12, b: 13, m: 1 }, Call::Transfer { a: 13, b: 12, m: 1 }] },
    Row { name: "delegate", cores: 2, calls: &[Call::Delegate { a: 12, b: 13, m: 1 }, Call::Delegate { a: 13, b: 12, m: 1 }] },
    Row { name: "test", cores: 2, calls: &[Call::Test { a: 12, b: 13 }] },
];

/// The row of this name.
pub fn row(name: &str) -> Option<&'static Row> {
    ROWS.iter().find(|row| row.name == name)
}

/// The words of a machine of so many cores, each of which has made a call.
pub fn boot(cores: u8) -> (Layout, Vec<u64>) {
    let layout = Layout { cores, frames: FRAMES };
    let mut words = vec![0; layout.size()];
    for frame in 0..FRAMES {
        for core in 0..cores {
            refer(&mut words, layout, frame, core, 0);
        }
    }
    let mut put = |place: u32, word: u64| words[place as usize] = word;
    put(layout.entry(0, 0), Entry::Held(cap(Kind::Link, 1, 0)).pack());
    let free = 4 + 2 * u16::from(cores);
    let held = [cap(Kind::Range, free, u32::from(FRAMES - free)), cap(Kind::Table, 0, 0), cap(Kind::Pages, 2, 0), cap(Kind::Comp, 3, 0)];
    for (at, held) in (0..).zip(held) {
        put(layout.entry(1, at), Entry::Held(held).pack());
    }
    put(layout.entry(3, 1), 2);
    put(layout.entry(3, 2), comp_word(0, 1));
    for (frame, object) in (0..).zip([Kind::Table, Kind::Leaf, Kind::Pages, Kind::Comp]) {
        put(layout.frame(frame), kernel_frame(object));
    }
    put(layout.live(0), live_word(1, 3));
    put(layout.clock(), 1);
    for (frame, references) in (0..).zip([2, 1, 2, 2 + i64::from(cores)]) {
        refer(&mut words, layout, frame, 0, references);
    }
    for core in 0..cores {
        boot_core(&mut words, layout, core);
    }
    (layout, words)
}

// The thread and the temporal capability of a core.
fn boot_core(words: &mut [u64], layout: Layout, core: u8) {
    let at = u16::from(core);
    let (thread, tcap) = (4 + at, 4 + u16::from(layout.cores) + at);
    let mut put = |place: u32, word: u64| words[place as usize] = word;
    put(layout.entry(1, 4 + at), Entry::Held(cap(Kind::Thread, thread, 0)).pack());
    put(layout.entry(1, 12 + at), Entry::Held(cap(Kind::Tcap, tcap, 0)).pack());
    put(layout.entry(thread, 0), thread_word(Doing::Running(core), 1));
    put(layout.entry(thread, 1), stack_word(3));
    put(layout.entry(tcap, 0), Head { budget: BUDGET, mark: None, version: 0 }.pack());
    put(layout.entry(tcap, 1), 1);
    put(layout.frame(thread), kernel_frame(Kind::Thread));
    put(layout.frame(tcap), kernel_frame(Kind::Tcap));
    put(layout.core(core), core_word(false, 1));
    refer(words, layout, thread, 0, 2);
    refer(words, layout, tcap, 0, 2);
}

// Core `core` counts so many references to the frame.
fn refer(words: &mut [u64], layout: Layout, frame: u16, core: u8, references: i64) {
    words[layout.count(frame, core) as usize] = Count { stamp: 0, references, mark: None, closed: false }.pack();
}

/// What the calls before the row's own leave: an object in a frame, and its capabilities.
pub fn prepare(name: &str, layout: Layout, words: &mut [u64]) {
    let mut put = |place: u32, word: u64| words[place as usize] = word;
    let mut held = |node: u16, at: u16, held: Cap| put(layout.entry(node, at), Entry::Held(held).pack());
    match name {
        "map" | "touch" => {
            held(1, 21, cap(Kind::Pleaf, 8, 0));
            held(2, 0, cap(Kind::Link, 8, 0));
            put(layout.frame(8), kernel_frame(Kind::Pleaf));
            put(layout.frame(9), USER_FRAME);
            refer(words, layout, 8, 0, 2);
            if name == "touch" {
                words[layout.entry(8, 5) as usize] = Entry::Held(cap(Kind::Page, 9, 3)).pack();
                refer(words, layout, 9, 0, 1);
            }
        }
        "call" => {
            held(1, 22, cap(Kind::Comp, 10, 0));
            held(1, 23, cap(Kind::Gate, 10, 1));
            put(layout.entry(10, 1), 2);
            put(layout.entry(10, 2), comp_word(5, 1));
            put(layout.frame(10), kernel_frame(Kind::Comp));
            put(layout.live(5), live_word(1, 10));
            for frame in [0, 2, 10] {
                refer(words, layout, frame, 0, 3);
            }
        }
        "switch" => {
            held(1, 20, cap(Kind::Thread, 8, 0));
            put(layout.entry(8, 0), thread_word(Doing::Idle, 1));
            put(layout.entry(8, 1), stack_word(3));
            put(layout.frame(8), kernel_frame(Kind::Thread));
            refer(words, layout, 8, 0, 1);
            refer(words, layout, 3, 0, 4);
        }
        _ => {}
    }
}

/// The words and the cores of a machine that is ready for the row's calls.
pub fn ready(row: &Row) -> (Layout, Vec<u64>, Vec<Core>) {
    let (layout, mut words) = boot(row.cores);
    prepare(row.name, layout, &mut words);
    let cores = (0..row.cores).map(|core| Core::new(core, layout, 1)).collect();
    (layout, words, cores)
}
