//! The functions of `speck.h`, as the archive has them. `c/compare` of the repository holds them against the exports that are proved.

#[repr(C)]
#[derive(Debug)]
pub(crate) struct Slot {
    own: [u64; 4],
}

impl Slot {
    pub(crate) const EMPTY: Slot = Slot { own: [0; 4] };
}

#[repr(C)]
#[derive(Clone, Copy)]
pub struct Reply {
    pub code: u8,
    pub value: u8,
    pub kind: u8,
    pub flags: u8,
    pub frame: u16,
    pub advice: u8,
    pub n: u32,
}

/// How large a machine is.
#[repr(C)]
#[derive(Clone, Copy, PartialEq, Eq, Debug, Default)]
pub struct SizePart {
    pub frames: u16,
    pub cores: u8,
}

#[repr(C)]
#[derive(Clone, Copy, Default)]
pub struct FramePart {
    pub kind: u8,
    pub object: u8,
}

#[repr(C)]
#[derive(Clone, Copy, Default)]
pub struct CapPart {
    pub kind: u8,
    pub rights: u8,
    pub frame: u16,
    pub argument: u32,
}

/// A component: the frames of the roots of its capability table and of its page table, its epoch, and its liveness number.
#[repr(C)]
#[derive(Clone, Copy, PartialEq, Eq, Debug, Default)]
pub struct CompPart {
    pub table: u16,
    pub pages: u16,
    pub epoch: u16,
    pub live: u8,
}

/// A scheduler and the quality there.
#[repr(C)]
#[derive(Clone, Copy, PartialEq, Eq, Debug, Default)]
pub struct QualityPart {
    pub quality: u32,
    pub sched: u8,
}

#[repr(C)]
#[derive(Clone, Copy, Default)]
pub struct LivePart {
    pub epoch: u16,
    pub frame: u16,
    pub lives: u8,
}

/// Where a core ended: ticks spent, had back and owed; the frames of its thread, its temporal capability and its component; how many translations
/// it has cached.
#[repr(C)]
#[derive(Clone, Copy, PartialEq, Eq, Debug, Default)]
pub struct CorePart {
    pub spent: u64,
    pub back: u64,
    pub owed: u64,
    pub thread: u16,
    pub tcap: u16,
    pub comp: u16,
    pub cached: u16,
}

/// A translation that a core has cached: the frame of the root of the page table, the page, the frame mapped there, and how it may be used.
#[repr(C)]
#[derive(Clone, Copy, PartialEq, Eq, Debug, Default)]
pub struct CachedPart {
    pub pages: u16,
    pub page: u16,
    pub frame: u16,
    pub flags: u8,
}

/// What a core is granted: ticks, through a scheduler, 0 to 63, at a quality, 1 to 16,777,215.
#[repr(C)]
#[derive(Clone, Copy, PartialEq, Eq, Debug)]
pub struct Grant {
    pub budget: u32,
    pub quality: u32,
    pub sched: u8,
}

unsafe extern "C" {
    pub(crate) fn speck_boot(machine: *mut Slot, cores: u8, frames: u16, budget: u32) -> u8;
    pub(crate) fn speck_deal(machine: *mut Slot, port: *mut Slot) -> u8;
    pub(crate) fn speck_core(port: *mut Slot) -> u8;
    pub(crate) fn speck_free_machine(machine: *mut Slot) -> u8;
    pub(crate) fn speck_free_port(port: *mut Slot) -> u8;
    pub(crate) fn speck_free_note(note: *mut Slot) -> u8;
    pub(crate) fn speck_take_back(machine: *mut Slot, port: *mut Slot) -> u8;
    pub(crate) fn speck_finish(machine: *mut Slot, last: *mut Slot) -> u8;
    pub(crate) fn speck_boot_with(machine: *mut Slot, frames: u16, calls: u64, epochs: u16, grants: *const Grant, cores: usize) -> u8;
    pub(crate) fn speck_free_final(last: *mut Slot) -> u8;
    pub(crate) fn speck_read_size(last: *mut Slot, into: *mut SizePart) -> u8;
    pub(crate) fn speck_read_frame(last: *mut Slot, frame: u16, into: *mut FramePart) -> u8;
    pub(crate) fn speck_read_count(last: *mut Slot, frame: u16, core: u8, into: *mut i32) -> u8;
    pub(crate) fn speck_read_entry(last: *mut Slot, frame: u16, entry: u16, into: *mut CapPart) -> u8;
    pub(crate) fn speck_read_under(last: *mut Slot, root: u16, number: u16, into: *mut CapPart) -> u8;
    pub(crate) fn speck_read_comp(last: *mut Slot, frame: u16, into: *mut CompPart) -> u8;
    pub(crate) fn speck_read_stack(last: *mut Slot, frame: u16, height: u16, into: *mut u16) -> u8;
    pub(crate) fn speck_read_budget(last: *mut Slot, frame: u16, into: *mut u32) -> u8;
    pub(crate) fn speck_read_quality(last: *mut Slot, frame: u16, place: u16, into: *mut QualityPart) -> u8;
    pub(crate) fn speck_read_live(last: *mut Slot, number: u8, into: *mut LivePart) -> u8;
    pub(crate) fn speck_read_core(last: *mut Slot, core: u8, into: *mut CorePart) -> u8;
    pub(crate) fn speck_read_cached(last: *mut Slot, core: u8, place: u8, into: *mut CachedPart) -> u8;
    pub(crate) fn speck_show(last: *mut Slot, text: *mut Slot) -> u8;
    pub(crate) fn speck_free_text(text: *mut Slot) -> u8;
    pub(crate) fn speck_read(text: *mut Slot, bytes: *mut u8, room: usize) -> u64;
    pub(crate) fn speck_note(port: *mut Slot, note: *mut Slot) -> u8;
    pub(crate) fn speck_meet(port: *mut Slot, note: *mut Slot) -> u8;
    pub(crate) fn speck_look(port: *mut Slot, capability: u16) -> Reply;
    pub(crate) fn speck_copy(port: *mut Slot, capability: u16, table: u16, slot: u16, rights: u8) -> Reply;
    pub(crate) fn speck_part(port: *mut Slot, range: u16, frame: u16, count: u16, table: u16, slot: u16) -> Reply;
    pub(crate) fn speck_remove(port: *mut Slot, table: u16, slot: u16) -> Reply;
    pub(crate) fn speck_grow(port: *mut Slot, root: u16, entry: u16, leaf: u16) -> Reply;
    pub(crate) fn speck_shrink(port: *mut Slot, root: u16, entry: u16) -> Reply;
    pub(crate) fn speck_retype(port: *mut Slot, range: u16, frame: u16, kind: u8) -> Reply;
    pub(crate) fn speck_make_table(port: *mut Slot, range: u16, frame: u16, table: u16, slot: u16) -> Reply;
    pub(crate) fn speck_make_leaf(port: *mut Slot, range: u16, frame: u16, table: u16, slot: u16) -> Reply;
    pub(crate) fn speck_make_pages(port: *mut Slot, range: u16, frame: u16, table: u16, slot: u16) -> Reply;
    pub(crate) fn speck_make_pleaf(port: *mut Slot, range: u16, frame: u16, table: u16, slot: u16) -> Reply;
    pub(crate) fn speck_make_thread(port: *mut Slot, comp: u16, range: u16, frame: u16, table: u16, slot: u16) -> Reply;
    pub(crate) fn speck_make_tcap(port: *mut Slot, sched: u8, quality: u32, range: u16, frame: u16, table: u16, slot: u16) -> Reply;
    pub(crate) fn speck_make_comp(port: *mut Slot, names: u16, pages: u16, live: u8, range: u16, frame: u16, table: u16, slot: u16) -> Reply;
    pub(crate) fn speck_map(port: *mut Slot, pages: u16, page: u16, range: u16, frame: u16, flags: u8) -> Reply;
    pub(crate) fn speck_unmap(port: *mut Slot, pages: u16, page: u16) -> Reply;
    pub(crate) fn speck_touch(port: *mut Slot, page: u16) -> Reply;
    pub(crate) fn speck_flush(port: *mut Slot) -> Reply;
    pub(crate) fn speck_gate(port: *mut Slot, comp: u16, table: u16, slot: u16) -> Reply;
    pub(crate) fn speck_kill(port: *mut Slot, comp: u16) -> Reply;
    pub(crate) fn speck_call(port: *mut Slot, gate: u16) -> Reply;
    pub(crate) fn speck_ret(port: *mut Slot) -> Reply;
    pub(crate) fn speck_switch(port: *mut Slot, thread: u16, tcap: u16) -> Reply;
    pub(crate) fn speck_tick(port: *mut Slot, ticks: u32) -> Reply;
    pub(crate) fn speck_transfer(port: *mut Slot, source: u16, target: u16, ticks: u32) -> Reply;
    pub(crate) fn speck_delegate(port: *mut Slot, source: u16, target: u16, ticks: u32) -> Reply;
    pub(crate) fn speck_test(port: *mut Slot, first: u16, second: u16) -> Reply;
    pub(crate) fn speck_replenish(port: *mut Slot, tcap: u16, ticks: u32) -> Reply;
    pub(crate) fn speck_send(port: *mut Slot, gate: u16) -> Reply;
    pub(crate) fn speck_recv(port: *mut Slot, comp: u16) -> Reply;
}
