//! The same sequential kernel in plain Rust under one lock: no call is in progress when another begins, so nothing is marked, nobody
//! waits for a call's end, and each frame has one count. Unproved.

use crate::calls::{COPIED, Call, Reply, USED};
use crate::rows::{BUDGET, FRAMES};
use crate::words::{Cap, Kind, cap};

/// A place of a node. What was removed is remembered by its stamp: a page may still be cached by a core.
#[derive(Clone, Copy)]
enum Place {
    Free,
    Holds(Cap),
    Removed(u64),
}

/// A core: its temporal capability, what it has spent and owes, the stamp of its last flush, and its calls.
#[derive(Clone)]
struct Core {
    tcap: u16,
    comp: u16,
    spent: u64,
    owed: u64,
    flushed: u64,
    made: u32,
}

/// The state of the kernel.
pub struct Kernel {
    places: Vec<[Place; 64]>,
    references: Vec<i64>,
    is_user: Vec<bool>,
    budgets: Vec<u32>,
    comps: Vec<(u8, u16)>,
    numbers: [u16; 64],
    cores: Vec<Core>,
    clock: u64,
}

impl Kernel {
    /// The state of a machine that has just booted, with a leaf of pages and a user frame.
    pub fn new(cores: u8) -> Kernel {
        let frames = FRAMES as usize;
        let core = Core { tcap: 0, comp: 3, spent: 0, owed: 0, flushed: 0, made: 0 };
        let mut kernel = Kernel {
            places: vec![[Place::Free; 64]; frames],
            references: vec![2; frames],
            is_user: vec![false; frames],
            budgets: vec![BUDGET; frames],
            comps: vec![(0, 1); frames],
            numbers: [1; 64],
            cores: vec![core; cores.into()],
            clock: 1,
        };
        let free = 4 + 2 * u16::from(cores);
        let held = [cap(Kind::Range, free, u32::from(FRAMES - free)), cap(Kind::Table, 0, 0), cap(Kind::Pages, 2, 0)];
        for (at, held) in held.into_iter().enumerate() {
            kernel.places[1][at] = Place::Holds(held);
        }
        kernel.places[0][0] = Place::Holds(cap(Kind::Link, 1, 0));
        kernel.places[2][0] = Place::Holds(cap(Kind::Link, 8, 0));
        kernel.is_user[9] = true;
        for core in 0..cores {
            kernel.cores[core as usize].tcap = 4 + u16::from(cores) + u16::from(core);
        }
        kernel
    }

    /// Makes the core's call.
    pub fn call(&mut self, core: u8, call: Call) -> Reply {
        self.cores[core as usize].made += 1;
        self.carry_out(core as usize, call).unwrap_or_else(|refusal| refusal)
    }

    fn carry_out(&mut self, core: usize, call: Call) -> Result<Reply, Reply> {
        let (number, epoch) = self.comps[self.cores[core].comp as usize];
        if call.asks_life() && self.numbers[number as usize] != epoch {
            return Err(Reply::Dead);
        }
        match call {
            Call::Look { a } => Ok(Reply::Found(self.named(a, None, 0)?)),
            Call::Copy { a, t, b, rights } => {
                let found = self.named(a, None, COPIED)?;
                let table = self.named(t, Some(Kind::Table), USED)?;
                self.fill(table.frame, b, Cap { rights: rights & found.rights, ..found })
            }
            Call::Remove { t, b } => {
                let table = self.named(t, Some(Kind::Table), USED)?;
                self.empty(table.frame, b)
            }
            Call::Unmap { p, v } => {
                let pages = self.named(p, Some(Kind::Pages), USED)?;
                self.empty(pages.frame, v)
            }
            Call::Map { p, v, r, f, w } => {
                let pages = self.named(p, Some(Kind::Pages), USED)?;
                let range = self.named(r, Some(Kind::Range), USED)?;
                if f < range.frame || u32::from(f) >= u32::from(range.frame) + range.arg {
                    return Err(Reply::OutOfRange);
                }
                if !self.is_user[f as usize] {
                    return Err(Reply::FrameKind);
                }
                self.fill(pages.frame, v, cap(Kind::Page, f, u32::from(w)))
            }
            Call::Tick { n } => Ok(self.tick(core, n)),
            Call::Flush => {
                self.cores[core].flushed = self.clock;
                Ok(Reply::Done)
            }
            other => unreachable!("{other:?} is not written"),
        }
    }

    fn place(&mut self, root: u16, number: u16) -> Result<&mut Place, Reply> {
        if number > 4095 {
            return Err(Reply::NoSlot);
        }
        match self.places[root as usize][number as usize >> 6] {
            Place::Holds(link) => Ok(&mut self.places[link.frame as usize][number as usize & 63]),
            _ => Err(Reply::NoSlot),
        }
    }

    fn named(&mut self, number: u16, kind: Option<Kind>, right: u8) -> Result<Cap, Reply> {
        match *self.place(0, number)? {
            Place::Holds(held) if kind.is_some_and(|kind| kind != held.kind) => Err(Reply::WrongCap),
            Place::Holds(held) if right & !held.rights != 0 => Err(Reply::NoRight),
            Place::Holds(held) => Ok(held),
            _ => Err(Reply::Empty),
        }
    }

    fn fill(&mut self, root: u16, number: u16, put: Cap) -> Result<Reply, Reply> {
        match *self.place(root, number)? {
            Place::Holds(_) => return Err(Reply::Occupied),
            Place::Removed(stamp) if put.kind == Kind::Page => {
                if let Some(core) = self.cores.iter().position(|core| core.flushed <= stamp) {
                    return Err(Reply::Unflushed(core as u8));
                }
            }
            _ => {}
        }
        *self.place(root, number)? = Place::Holds(put);
        self.references[put.frame as usize] += i64::from(put.kind != Kind::Range);
        Ok(Reply::Done)
    }

    fn empty(&mut self, root: u16, number: u16) -> Result<Reply, Reply> {
        let stamp = self.clock;
        let place = self.place(root, number)?;
        let Place::Holds(held) = *place else { return Err(Reply::Empty) };
        *place = Place::Removed(stamp);
        self.clock += 1;
        self.references[held.frame as usize] -= i64::from(held.kind != Kind::Range);
        Ok(Reply::Done)
    }

    fn tick(&mut self, core: usize, n: u32) -> Reply {
        let core = &mut self.cores[core];
        let budget = &mut self.budgets[core.tcap as usize];
        let due = u64::from(n) + core.owed;
        let charged = due.min(u64::from(*budget)) as u32;
        *budget -= charged;
        core.owed = due - u64::from(charged);
        core.spent += u64::from(charged);
        Reply::Charged(charged)
    }
}
