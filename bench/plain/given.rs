//! The machine for given orders in plain Rust: it makes the cores' steps one after another over plain words. Unproved.

use crate::calls::{Call, Op, Reply, Told};
use crate::machine::Core;
use crate::words::Layout;

/// A call that was decided, by its core and its number among the core's calls.
pub struct Decision {
    pub core: u8,
    pub index: usize,
    pub reply: Reply,
}

/// A machine and the list of calls of each core.
pub struct Given {
    words: Vec<u64>,
    cores: Vec<Core>,
    lists: Vec<Vec<Call>>,
    begun: Vec<usize>,
    decisions: Vec<Decision>,
}

/// Makes the step on the words. It answers the word found, and that which the core is told: after a store the word stored.
fn perform(words: &mut [u64], op: Op) -> (u64, u64) {
    match op {
        Op::Load(at) => (words[at as usize], words[at as usize]),
        Op::Compare(at, expected, word) => {
            let found = words[at as usize];
            if found == expected {
                words[at as usize] = word;
            }
            (found, found)
        }
        Op::Store(at, word) => (std::mem::replace(&mut words[at as usize], word), word),
        Op::Add(at, by) => {
            let found = words[at as usize];
            words[at as usize] = found.wrapping_add(by);
            (found, found)
        }
    }
}

impl Given {
    pub fn new(words: Vec<u64>, cores: Vec<Core>, lists: Vec<Vec<Call>>) -> Given {
        let begun = vec![0; cores.len()];
        let decisions = Vec::with_capacity(lists.iter().map(Vec::len).sum());
        Given { words, cores, lists, begun, decisions }
    }

    /// The core makes its next call whole, and answers whether there was one. Each step is shown to `see`, with the word found.
    #[inline(never)]
    pub fn go_on(&mut self, core: u8, mut see: impl FnMut(Op, u64)) -> bool {
        let at = core as usize;
        let Some(&call) = self.lists[at].get(self.begun[at]) else { return false };
        self.begun[at] += 1;
        self.cores[at].begin(call);
        loop {
            let op = self.cores[at].next();
            let (found, told) = perform(&mut self.words, op);
            see(op, found);
            match self.cores[at].absorb(told) {
                Told::Going => {}
                Told::Decided(reply) => self.decisions.push(Decision { core, index: self.begun[at], reply }),
                Told::Returned(_) => return true,
            }
        }
    }

    /// The first call that was refused.
    pub fn refused(&self) -> Option<&Decision> {
        self.decisions.iter().find(|decision| !decision.reply.is_ok())
    }
}

/// The step as a trace writes it.
pub fn line(layout: Layout, core: u8, op: Op, found: u64) -> String {
    let (verb, at, left) = match op {
        Op::Load(at) => ("load", at, found),
        Op::Compare(at, expected, word) => ("compare", at, if found == expected { word } else { found }),
        Op::Store(at, word) => ("store", at, word),
        Op::Add(at, by) => ("add", at, found.wrapping_add(by)),
    };
    let left = if left == found { String::new() } else { format!(" > {left:x}") };
    format!("{core} {verb} {}: {found:x}{left}", layout.name(at))
}
