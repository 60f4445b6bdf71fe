//! What makes calls, under one name for all: the machine in plain Rust, calls written straight through, the sequential kernel under a
//! lock, and, where the library for C was linked, this kernel. Unproved.

use std::sync::Arc;

use crate::calls::Call;
use crate::locked::Kernel;
use crate::locks::{Lock, Node};
use crate::machine::Core;
use crate::rows::{boot, prepare};
use crate::shared::{self, Table};
use crate::straight;

/// Makes the calls of one core.
pub trait Maker: Send {
    /// Makes a call, and answers whether it was carried out.
    fn make(&mut self, call: Call) -> bool;
}

impl Maker for shared::Port {
    fn make(&mut self, call: Call) -> bool {
        self.call(call).is_ok()
    }
}

impl Maker for straight::Port {
    fn make(&mut self, call: Call) -> bool {
        self.call(call).is_ok()
    }
}

/// The sequential kernel under a lock, for one core.
pub struct Locked<L> {
    lock: Arc<L>,
    node: Box<Node>,
    core: u8,
}

impl<L: Lock<Kernel>> Maker for Locked<L> {
    fn make(&mut self, call: Call) -> bool {
        self.lock.with(&self.node, |kernel| kernel.call(self.core, call)).is_ok()
    }
}

/// The machine's ports, core 0's first, once the row's first calls were made.
pub fn machine(row: &str, cores: u8) -> Vec<shared::Port> {
    let table = table(row, cores);
    (0..cores).map(|core| shared::Port::new(table.clone(), Core::new(core, table.layout, 1))).collect()
}

/// Those of the calls that are written straight through.
pub fn straight(row: &str, cores: u8) -> Vec<straight::Port> {
    let table = table(row, cores);
    (0..cores).map(|core| straight::Port::new(table.clone(), core)).collect()
}

fn table(row: &str, cores: u8) -> Arc<Table> {
    let (layout, mut words) = boot(cores);
    prepare(row, layout, &mut words);
    Arc::new(Table::new(layout, &words))
}

/// Those of the sequential kernel under this lock.
pub fn locked<L: Lock<Kernel>>(cores: u8) -> Vec<Locked<L>> {
    let lock = Arc::new(L::new(Kernel::new(cores)));
    (0..cores).map(|core| Locked { lock: lock.clone(), node: Box::new(Node::new()), core }).collect()
}
