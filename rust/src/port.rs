//! What makes the calls of a core.

use crate::ffi::{self, Slot};
use crate::machine::{Fault, Kept, Note, done};
use crate::reply::{FrameKind, Refused, Rights, Value, answer};

/// What makes the calls of a core. It may move to another thread, and is not shared: the kernel is shared through ports alone.
#[derive(Debug)]
pub struct Port {
    pub(crate) slot: Slot,
}

// The library is proved to let what it holds cross threads, and each call takes it by `&mut`.
unsafe impl Send for Port {}

/// The calls of the core.
impl Port {
    /// The capability of this number.
    pub fn look(&mut self, capability: u16) -> Result<Value, Refused> {
        answer(unsafe { ffi::speck_look(&mut self.slot, capability) })
    }

    /// Puts the capability into the entry `slot` of `table`, with those of its rights that are among these.
    pub fn copy(&mut self, capability: u16, table: u16, slot: u16, rights: Rights) -> Result<Value, Refused> {
        answer(unsafe { ffi::speck_copy(&mut self.slot, capability, table, slot, rights as u8) })
    }

    /// Puts the range of the `count` frames from `frame` on, which are within `range`, into the entry `slot` of `table`.
    pub fn part(&mut self, range: u16, frame: u16, count: u16, table: u16, slot: u16) -> Result<Value, Refused> {
        answer(unsafe { ffi::speck_part(&mut self.slot, range, frame, count, table, slot) })
    }

    /// Removes the entry `slot` of `table`.
    pub fn remove(&mut self, table: u16, slot: u16) -> Result<Value, Refused> {
        answer(unsafe { ffi::speck_remove(&mut self.slot, table, slot) })
    }

    /// Links `leaf` into the entry `entry` of `root`.
    pub fn grow(&mut self, root: u16, entry: u16, leaf: u16) -> Result<Value, Refused> {
        answer(unsafe { ffi::speck_grow(&mut self.slot, root, entry, leaf) })
    }

    /// Removes the link in the entry `entry` of `root`.
    pub fn shrink(&mut self, root: u16, entry: u16) -> Result<Value, Refused> {
        answer(unsafe { ffi::speck_shrink(&mut self.slot, root, entry) })
    }

    /// Makes the frame of the range one of this kind.
    pub fn retype(&mut self, range: u16, frame: u16, kind: FrameKind) -> Result<Value, Refused> {
        answer(unsafe { ffi::speck_retype(&mut self.slot, range, frame, kind as u8) })
    }

    /// Makes the root of a capability table in the blank frame `frame` of `range`; its capability goes into the entry `slot` of `table`, as that
    /// of each object.
    pub fn make_table(&mut self, range: u16, frame: u16, table: u16, slot: u16) -> Result<Value, Refused> {
        answer(unsafe { ffi::speck_make_table(&mut self.slot, range, frame, table, slot) })
    }

    /// Makes a leaf of a capability table.
    pub fn make_leaf(&mut self, range: u16, frame: u16, table: u16, slot: u16) -> Result<Value, Refused> {
        answer(unsafe { ffi::speck_make_leaf(&mut self.slot, range, frame, table, slot) })
    }

    /// Makes the root of a page table.
    pub fn make_pages(&mut self, range: u16, frame: u16, table: u16, slot: u16) -> Result<Value, Refused> {
        answer(unsafe { ffi::speck_make_pages(&mut self.slot, range, frame, table, slot) })
    }

    /// Makes a leaf of a page table.
    pub fn make_pleaf(&mut self, range: u16, frame: u16, table: u16, slot: u16) -> Result<Value, Refused> {
        answer(unsafe { ffi::speck_make_pleaf(&mut self.slot, range, frame, table, slot) })
    }

    /// Makes a thread of the component.
    pub fn make_thread(&mut self, comp: u16, range: u16, frame: u16, table: u16, slot: u16) -> Result<Value, Refused> {
        answer(unsafe { ffi::speck_make_thread(&mut self.slot, comp, range, frame, table, slot) })
    }

    /// Makes a temporal capability of this scheduler, 0 to 63, and quality, 1 to 16,777,215.
    pub fn make_tcap(&mut self, sched: u8, quality: u32, range: u16, frame: u16, table: u16, slot: u16) -> Result<Value, Refused> {
        answer(unsafe { ffi::speck_make_tcap(&mut self.slot, sched, quality, range, frame, table, slot) })
    }

    /// Makes a component of these tables with the liveness number `live`, 0 to 63.
    #[allow(clippy::too_many_arguments)]
    pub fn make_comp(&mut self, names: u16, pages: u16, live: u8, range: u16, frame: u16, table: u16, slot: u16) -> Result<Value, Refused> {
        answer(unsafe { ffi::speck_make_comp(&mut self.slot, names, pages, live, range, frame, table, slot) })
    }

    /// Maps the user frame of the range at `page` of `pages`, with these flags: the sum of 1, to write, and 2, to execute.
    pub fn map(&mut self, pages: u16, page: u16, range: u16, frame: u16, flags: u8) -> Result<Value, Refused> {
        answer(unsafe { ffi::speck_map(&mut self.slot, pages, page, range, frame, flags) })
    }

    /// Removes the mapping of `page` in `pages`.
    pub fn unmap(&mut self, pages: u16, page: u16) -> Result<Value, Refused> {
        answer(unsafe { ffi::speck_unmap(&mut self.slot, pages, page) })
    }

    /// The frame and flags of the page of the caller's component.
    pub fn touch(&mut self, page: u16) -> Result<Value, Refused> {
        answer(unsafe { ffi::speck_touch(&mut self.slot, page) })
    }

    /// Empties the core's translations.
    pub fn flush(&mut self) -> Result<Value, Refused> {
        answer(unsafe { ffi::speck_flush(&mut self.slot) })
    }

    /// Puts a gate to the component into the entry `slot` of `table`.
    pub fn gate(&mut self, comp: u16, table: u16, slot: u16) -> Result<Value, Refused> {
        answer(unsafe { ffi::speck_gate(&mut self.slot, comp, table, slot) })
    }

    /// Ends the life of the component.
    pub fn kill(&mut self, comp: u16) -> Result<Value, Refused> {
        answer(unsafe { ffi::speck_kill(&mut self.slot, comp) })
    }

    /// Enters the component behind the gate.
    pub fn call(&mut self, gate: u16) -> Result<Value, Refused> {
        answer(unsafe { ffi::speck_call(&mut self.slot, gate) })
    }

    /// Leaves the component.
    pub fn ret(&mut self) -> Result<Value, Refused> {
        answer(unsafe { ffi::speck_ret(&mut self.slot) })
    }

    /// Goes on as this thread with this temporal capability.
    pub fn switch(&mut self, thread: u16, tcap: u16) -> Result<Value, Refused> {
        answer(unsafe { ffi::speck_switch(&mut self.slot, thread, tcap) })
    }

    /// Charges ticks, at most 1,000,000.
    pub fn tick(&mut self, ticks: u32) -> Result<Value, Refused> {
        answer(unsafe { ffi::speck_tick(&mut self.slot, ticks) })
    }

    /// Moves ticks between temporal capabilities of equal lists.
    pub fn transfer(&mut self, source: u16, target: u16, ticks: u32) -> Result<Value, Refused> {
        answer(unsafe { ffi::speck_transfer(&mut self.slot, source, target, ticks) })
    }

    /// Moves ticks, and merges the lists.
    pub fn delegate(&mut self, source: u16, target: u16, ticks: u32) -> Result<Value, Refused> {
        answer(unsafe { ffi::speck_delegate(&mut self.slot, source, target, ticks) })
    }

    /// Whether the first preempts the second.
    pub fn test(&mut self, first: u16, second: u16) -> Result<Value, Refused> {
        answer(unsafe { ffi::speck_test(&mut self.slot, first, second) })
    }

    /// Gives back to a temporal capability these ticks of those that the core has spent and has not had back.
    pub fn replenish(&mut self, tcap: u16, ticks: u32) -> Result<Value, Refused> {
        answer(unsafe { ffi::speck_replenish(&mut self.slot, tcap, ticks) })
    }

    /// Sends one to the component of the gate.
    pub fn send(&mut self, gate: u16) -> Result<Value, Refused> {
        answer(unsafe { ffi::speck_send(&mut self.slot, gate) })
    }

    /// Takes all that was sent to the component and was not taken yet: `Value::Amount`.
    pub fn recv(&mut self, comp: u16) -> Result<Value, Refused> {
        answer(unsafe { ffi::speck_recv(&mut self.slot, comp) })
    }
}

impl Port {
    pub(crate) const EMPTY: Port = Port { slot: Slot::EMPTY };

    /// The port's core, 0 to 7.
    pub fn core(&mut self) -> u8 {
        unsafe { ffi::speck_core(&mut self.slot) }
    }

    /// A note of what the port has seen.
    pub fn note(&mut self) -> Result<Note, Fault> {
        let mut note = Note { slot: Slot::EMPTY };
        done(unsafe { ffi::speck_note(&mut self.slot, &mut note.slot) })?;
        Ok(note)
    }

    /// Tells the port all that the note tells; a note of another machine is given back.
    pub fn meet(&mut self, mut note: Note) -> Result<(), Kept<Note>> {
        done(unsafe { ffi::speck_meet(&mut self.slot, &mut note.slot) }).map_err(|fault| Kept { fault, it: note })
    }
}

impl Drop for Port {
    fn drop(&mut self) {
        unsafe { ffi::speck_free_port(&mut self.slot) };
    }
}
