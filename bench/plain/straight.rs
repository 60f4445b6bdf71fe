//! Calls written straight through in Rust, over the same shared words, without the question of life: what they could cost at the
//! least. A refusal leaves by `?`. Those that are looked up, a tick and a flush are written. Unproved.

use std::sync::Arc;
use std::sync::atomic::Ordering::SeqCst;

use crate::calls::{COPIED, Call, Reply, USED};
use crate::shared::{Table, compare};
use crate::words::*;

/// What makes the calls of a core. It knows where the core's own words lie, and the clock; an entry lies where its place says.
pub struct Port {
    table: Arc<Table>,
    me: u8,
    exit: u64,
    spent: u64,
    owed: u64,
    counts: usize,
    own: usize,
    flush: usize,
    clock: usize,
    head: usize,
}

/// A count that is marked: where it lies, and the word found there.
type Pinned = Option<(usize, u64)>;

impl Port {
    pub fn new(table: Arc<Table>, me: u8) -> Port {
        let layout = table.layout;
        let tcap = 4 + u16::from(layout.cores) + u16::from(me);
        Port {
            me,
            exit: 1,
            spent: 0,
            owed: 0,
            counts: layout.position(layout.count(0, me)),
            own: layout.position(layout.core(me)),
            flush: layout.position(layout.flush(me)),
            clock: layout.position(layout.clock()),
            head: layout.entry(tcap, 0) as usize,
            table,
        }
    }

    /// Makes the call, which is one of those that are written.
    #[inline]
    pub fn call(&mut self, call: Call) -> Reply {
        self.table.at(self.own).store(core_word(true, self.exit), SeqCst);
        let reply = self.carry_out(call).unwrap_or_else(|refusal| refusal);
        self.exit = self.load(self.clock);
        self.table.at(self.own).store(core_word(false, self.exit), SeqCst);
        reply
    }

    fn carry_out(&mut self, call: Call) -> Result<Reply, Reply> {
        match call {
            Call::Look { a } => Ok(Reply::Found(self.named(a, None, 0)?)),
            Call::Copy { a, t, b, rights } => {
                let found = self.named(a, None, COPIED)?;
                let table = self.named(t, Some(Kind::Table), USED)?;
                let (place, word) = self.target(table.frame, b)?;
                self.free(word, false)?;
                let counted = if found.kind == Kind::Range { None } else { Some(found.frame) };
                self.fill(place, word, Cap { rights: rights & found.rights, ..found }, self.pin(counted)?)
            }
            Call::Remove { t, b } => self.empty(self.named(t, Some(Kind::Table), USED)?, b),
            Call::Unmap { p, v } => self.empty(self.named(p, Some(Kind::Pages), USED)?, v),
            Call::Map { p, v, r, f, w } => self.map(p, v, r, f, w),
            Call::Tick { n } => self.tick(n),
            Call::Flush => {
                let stamp = self.load(self.clock);
                self.table.at(self.flush).store(stamp, SeqCst);
                Ok(Reply::Done)
            }
            other => unreachable!("{other:?} is not written"),
        }
    }

    fn map(&self, p: u16, v: u16, r: u16, f: u16, w: u8) -> Result<Reply, Reply> {
        let pages = self.named(p, Some(Kind::Pages), USED)?;
        let range = self.named(r, Some(Kind::Range), USED)?;
        let (place, word) = self.target(pages.frame, v)?;
        self.free(word, true)?;
        if f < range.frame || u32::from(f) >= u32::from(range.frame) + range.arg {
            return Err(Reply::OutOfRange);
        }
        let pinned = self.pin(Some(f))?;
        let frame = self.load(self.table.layout.frame(f) as usize);
        if frame != USER_FRAME {
            self.settle(pinned, 0, 0);
            return Err(frame_mark(frame).map_or(Reply::FrameKind, Reply::Busy));
        }
        self.fill(place, word, cap(Kind::Page, f, u32::from(w)), pinned)
    }

    // Empties the target, with the count of what it held.
    fn empty(&self, node: Cap, number: u16) -> Result<Reply, Reply> {
        let (place, word) = self.target(node.frame, number)?;
        let held = held(word)?;
        let pinned = self.pin(if held.kind == Kind::Range { None } else { Some(held.frame) })?;
        if compare(self.table.at(place), word, Entry::Closing(self.me).pack()) != word {
            self.settle(pinned, 0, 0);
            return Err(Reply::Raced);
        }
        let stamp = self.table.at(self.clock).fetch_add(1, SeqCst);
        self.table.at(place).store(Entry::Quiescing(stamp).pack(), SeqCst);
        self.settle(pinned, -1, stamp);
        Ok(Reply::Done)
    }

    fn tick(&mut self, n: u32) -> Result<Reply, Reply> {
        let due = u64::from(n) + self.owed;
        let word = self.load(self.head);
        let head = Head::unpack(word);
        let charged = due.min(u64::from(head.budget)) as u32;
        self.owed = due;
        if let Some(core) = head.mark {
            return Err(Reply::Busy(core));
        }
        if compare(self.table.at(self.head), word, head.changed(head.budget - charged).pack()) != word {
            return Err(Reply::Raced);
        }
        self.owed = due - u64::from(charged);
        self.spent += u64::from(charged);
        Ok(Reply::Charged(charged))
    }

    #[inline]
    fn load(&self, at: usize) -> u64 {
        self.table.at(at).load(SeqCst)
    }

    // Where the entry of this number under a root lies, and its word.
    #[inline]
    fn target(&self, root: u16, number: u16) -> Result<(usize, u64), Reply> {
        if number > 4095 {
            return Err(Reply::NoSlot);
        }
        let link = match Entry::unpack(self.load(self.table.layout.entry(root, number >> 6) as usize)) {
            Entry::Held(link) => link,
            Entry::Closing(core) => return Err(Reply::Busy(core)),
            _ => return Err(Reply::NoSlot),
        };
        let place = self.table.layout.entry(link.frame, number & 63) as usize;
        Ok((place, self.load(place)))
    }

    // What a capability's number names in the core's table.
    #[inline]
    fn named(&self, number: u16, kind: Option<Kind>, right: u8) -> Result<Cap, Reply> {
        let held = held(self.target(0, number)?.1)?;
        if kind.is_some_and(|kind| kind != held.kind) {
            return Err(Reply::WrongCap);
        }
        if right & !held.rights != 0 { Err(Reply::NoRight) } else { Ok(held) }
    }

    // Whether the target may be filled: no other core still uses what was there.
    fn free(&self, word: u64, is_page: bool) -> Result<(), Reply> {
        let stamp = match Entry::unpack(word) {
            Entry::Free => return Ok(()),
            Entry::Quiescing(stamp) => stamp,
            Entry::Closing(core) => return Err(Reply::Busy(core)),
            Entry::Held(_) => return Err(Reply::Occupied),
        };
        let layout = self.table.layout;
        for core in (0..layout.cores).filter(|core| *core != self.me) {
            let word = self.table.word(layout.core(core)).load(SeqCst);
            if word & 1 == 1 && word >> 1 <= stamp {
                return Err(Reply::Quiescing(core));
            }
        }
        for core in 0..if is_page { layout.cores } else { 0 } {
            if self.table.word(layout.flush(core)).load(SeqCst) <= stamp {
                return Err(Reply::Unflushed(core));
            }
        }
        Ok(())
    }

    fn fill(&self, place: usize, word: u64, put: Cap, pinned: Pinned) -> Result<Reply, Reply> {
        let filled = compare(self.table.at(place), word, Entry::Held(put).pack()) == word;
        self.settle(pinned, i64::from(filled), 0);
        if filled { Ok(Reply::Done) } else { Err(Reply::Raced) }
    }

    // Marks the core's count of the frame.
    fn pin(&self, frame: Option<u16>) -> Result<Pinned, Reply> {
        let Some(frame) = frame else { return Ok(None) };
        let at = self.counts + usize::from(frame);
        let word = self.load(at);
        let count = Count::unpack(word);
        if let Some(core) = count.mark {
            return Err(Reply::Busy(core));
        }
        let marked = Count { mark: Some(self.me), ..count };
        if compare(self.table.at(at), word, marked.pack()) == word { Ok(Some((at, word))) } else { Err(Reply::Raced) }
    }

    // Gives a count back with so many references more. Where one is released its stamp is kept.
    fn settle(&self, pinned: Pinned, change: i64, stamp: u64) {
        if let Some((at, word)) = pinned {
            let count = Count::unpack(word);
            let stamp = if change < 0 { stamp } else { count.stamp };
            self.table.at(at).store(Count { references: count.references + change, stamp, ..count }.pack(), SeqCst);
        }
    }
}

/// What an entry holds.
fn held(word: u64) -> Result<Cap, Reply> {
    match Entry::unpack(word) {
        Entry::Held(held) => Ok(held),
        Entry::Closing(core) => Err(Reply::Busy(core)),
        _ => Err(Reply::Empty),
    }
}
