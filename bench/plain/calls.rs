//! The calls that are measured, their replies, and atomic steps. Unproved.

use crate::words::{Cap, Kind};

/// A call, with the arguments of docs/FORMATS.md.
#[derive(Clone, Copy, PartialEq, Eq, Debug)]
pub enum Call {
    Look { a: u16 },
    Copy { a: u16, t: u16, b: u16, rights: u8 },
    Remove { t: u16, b: u16 },
    Map { p: u16, v: u16, r: u16, f: u16, w: u8 },
    Unmap { p: u16, v: u16 },
    Flush,
    Tick { n: u32 },
    Call { g: u16 },
    Ret,
    Switch { h: u16, q: u16 },
    Transfer { a: u16, b: u16, m: u32 },
    Touch { v: u16 },
    Delegate { a: u16, b: u16, m: u32 },
    Test { a: u16, b: u16 },
}

/// A page of a page table, and the frame and the flags that it leads to.
#[derive(Clone, Copy, PartialEq, Eq, Debug)]
pub struct Translation {
    pub pages: u16,
    pub page: u16,
    pub frame: u16,
    pub flags: u8,
}

/// What a call answers.
#[derive(Clone, Copy, PartialEq, Eq, Debug)]
pub enum Reply {
    Done,
    Found(Cap),
    Charged(u32),
    Mapped(Translation),
    Preempts,
    Stays,
    NoSlot,
    Empty,
    WrongCap,
    NoRight,
    Occupied,
    Quiescing(u8),
    Unflushed(u8),
    OutOfRange,
    FrameKind,
    Dead,
    Deep,
    Bottom,
    Running(u8),
    Same,
    Short(u32),
    Unlike,
    TooMany,
    Fault,
    Raced,
    Busy(u8),
    CallsSpent,
}

impl Reply {
    pub fn is_ok(self) -> bool {
        matches!(self, Reply::Done | Reply::Found(_) | Reply::Charged(_) | Reply::Mapped(_) | Reply::Preempts | Reply::Stays)
    }
}

/// A capability's kind as a call wants it, and the right that the call needs.
#[derive(Clone, Copy)]
pub struct Want {
    pub kind: Option<Kind>,
    pub right: u8,
}

pub const COPIED: u8 = 1;
pub const USED: u8 = 2;

/// One atomic step on the word of a place.
#[derive(Clone, Copy, PartialEq, Eq, Debug)]
pub enum Op {
    Load(u32),
    Compare(u32, u64, u64),
    Store(u32, u64),
    Add(u32, u64),
}

/// What a step tells of its call.
#[derive(Clone, Copy, PartialEq, Eq, Debug)]
pub enum Told {
    Going,
    Decided(Reply),
    Returned(Reply),
}

fn used(kind: Kind) -> Want {
    Want { kind: Some(kind), right: USED }
}

impl Call {
    /// The capabilities that the call names: the number of each, and what is wanted of it.
    pub fn name(self, at: u8) -> Option<(u16, Want)> {
        match (self, at) {
            (Call::Look { a }, 0) => Some((a, Want { kind: None, right: 0 })),
            (Call::Copy { a, .. }, 0) => Some((a, Want { kind: None, right: COPIED })),
            (Call::Copy { t, .. }, 1) | (Call::Remove { t, .. }, 0) => Some((t, used(Kind::Table))),
            (Call::Map { p, .. } | Call::Unmap { p, .. }, 0) => Some((p, used(Kind::Pages))),
            (Call::Map { r, .. }, 1) => Some((r, used(Kind::Range))),
            (Call::Call { g }, 0) => Some((g, used(Kind::Gate))),
            (Call::Switch { h, .. }, 0) => Some((h, used(Kind::Thread))),
            (Call::Switch { q, .. }, 1) => Some((q, used(Kind::Tcap))),
            (Call::Transfer { a, .. } | Call::Delegate { a, .. } | Call::Test { a, .. }, 0) => Some((a, used(Kind::Tcap))),
            (Call::Transfer { b, .. } | Call::Delegate { b, .. } | Call::Test { b, .. }, 1) => Some((b, used(Kind::Tcap))),
            _ => None,
        }
    }

    /// Which of its names the call's target lies in, and where there, if it has a target.
    pub fn target(self) -> Option<(u8, u16)> {
        match self {
            Call::Copy { b, .. } => Some((1, b)),
            Call::Remove { b, .. } => Some((0, b)),
            Call::Map { v, .. } | Call::Unmap { v, .. } => Some((0, v)),
            _ => None,
        }
    }

    /// Whether the call fills its target. Another one empties it.
    pub fn fills(self) -> bool {
        matches!(self, Call::Copy { .. } | Call::Map { .. })
    }

    /// Whether the call asks for the life of its core's component.
    pub fn asks_life(self) -> bool {
        !matches!(self, Call::Flush | Call::Tick { .. } | Call::Ret)
    }
}
