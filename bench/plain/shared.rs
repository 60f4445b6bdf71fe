//! The kernel for threads in plain Rust: the machine's steps as atomic steps on shared words. Unproved.

use std::sync::Arc;
use std::sync::atomic::{AtomicU64, Ordering::SeqCst};

use crate::calls::{Call, Op, Reply, Told};
use crate::machine::Core;
use crate::words::Layout;

/// The words, each where the kernel for threads keeps it.
pub struct Table {
    pub layout: Layout,
    words: Vec<AtomicU64>,
}

/// Compares and stores, and answers the word found.
pub fn compare(at: &AtomicU64, expected: u64, word: u64) -> u64 {
    match at.compare_exchange(expected, word, SeqCst, SeqCst) {
        Ok(found) | Err(found) => found,
    }
}

impl Table {
    pub fn new(layout: Layout, words: &[u64]) -> Table {
        let mut memory: Vec<AtomicU64> = Vec::new();
        memory.resize_with(layout.position(words.len() as u32), AtomicU64::default);
        for (place, word) in (0..).zip(words) {
            memory[layout.position(place)] = AtomicU64::new(*word);
        }
        Table { layout, words: memory }
    }

    pub fn word(&self, place: u32) -> &AtomicU64 {
        self.at(self.layout.position(place))
    }

    pub fn at(&self, position: usize) -> &AtomicU64 {
        &self.words[position]
    }

    // Makes the step, and answers the word that the core is told.
    fn perform(&self, op: Op) -> u64 {
        match op {
            Op::Load(at) => self.word(at).load(SeqCst),
            Op::Compare(at, expected, word) => compare(self.word(at), expected, word),
            Op::Store(at, word) => {
                self.word(at).store(word, SeqCst);
                word
            }
            Op::Add(at, by) => self.word(at).fetch_add(by, SeqCst),
        }
    }
}

/// What makes the calls of a core.
pub struct Port {
    table: Arc<Table>,
    core: Core,
}

impl Port {
    pub fn new(table: Arc<Table>, core: Core) -> Port {
        Port { table, core }
    }

    pub fn call(&mut self, call: Call) -> Reply {
        self.core.begin(call);
        loop {
            let told = self.table.perform(self.core.next());
            if let Told::Returned(reply) = self.core.absorb(told) {
                return reply;
            }
        }
    }
}
