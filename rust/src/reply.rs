//! What a call answers.

use crate::ffi;
use core::fmt;

/// The kinds of capabilities.
#[derive(Clone, Copy, PartialEq, Eq, Debug)]
pub enum Kind {
    Range,
    Table,
    Leaf,
    Pages,
    Pleaf,
    Comp,
    Gate,
    Thread,
    Tcap,
    Link,
    Page,
}

pub(crate) const KINDS: [Kind; 11] = [
    Kind::Range,
    Kind::Table,
    Kind::Leaf,
    Kind::Pages,
    Kind::Pleaf,
    Kind::Comp,
    Kind::Gate,
    Kind::Thread,
    Kind::Tcap,
    Kind::Link,
    Kind::Page,
];

/// The kinds of frames, for `retype`.
#[derive(Clone, Copy, PartialEq, Eq, Debug)]
#[repr(u8)]
pub enum FrameKind {
    Untyped = 0,
    User = 1,
    Kernel = 2,
}

/// The rights of a capability.
#[derive(Clone, Copy, PartialEq, Eq, Debug)]
#[repr(u8)]
pub enum Rights {
    None = 0,
    Copy = 1,
    Use = 2,
    Both = 3,
}

const RIGHTS: [Rights; 4] = [Rights::None, Rights::Copy, Rights::Use, Rights::Both];

pub(crate) fn rights_of(bits: u64) -> Rights {
    RIGHTS[(bits & 3) as usize]
}

/// What a call that was carried out answers.
#[derive(Clone, Copy, PartialEq, Eq, Debug)]
pub enum Value {
    Nothing,
    /// `argument` is a range's length or a gate's epoch, else 0.
    Capability { kind: Kind, frame: u16, argument: u32, rights: Rights },
    Page { frame: u16, flags: u8 },
    /// The ticks that a `tick` charged, or how many a `recv` took.
    Amount(u32),
    Preempts,
    Stays,
}

/// Why a call was refused. A number is of a core, but for `Referenced`, the references that stand, and `Short`, the ticks that there are.
#[derive(Clone, Copy, PartialEq, Eq, Debug)]
pub enum Why {
    NoSlot,
    Empty,
    WrongCap,
    Occupied,
    Quiescing(u8),
    Unflushed(u8),
    FrameKind,
    OutOfRange,
    Referenced(u32),
    NotEmpty,
    Dead,
    Deep,
    Bottom,
    Running(u8),
    Short(u32),
    Unlike,
    TooMany,
    Same,
    EpochsSpent,
    Raced,
    Busy(u8),
    Fault,
    CallsSpent,
    NoRight,
    /// An argument is outside its limits, and no call was made.
    Outside,
}

/// What a caller may do about a refusal.
#[derive(Clone, Copy, PartialEq, Eq, Debug)]
pub enum Advice {
    /// Ask for something else.
    Change,
    /// The core makes no further call.
    GiveUp,
    /// Have so many references released.
    Release(u32),
    /// Wait until this core has returned from its call, then ask again.
    AwaitReturn(u8),
    /// Have this core flush, then ask again.
    AwaitFlush(u8),
    /// Choose another thread, or wait until this core runs another.
    AwaitSwitch(u8),
    /// A lost race: ask again at once, where it is still wanted; a `tick` with 0 ticks.
    Again,
    /// The component in which the core works is dead: leave it (`ret`).
    Return,
}

/// A refusal.
#[derive(Clone, Copy, PartialEq, Eq, Debug)]
pub struct Refused {
    pub why: Why,
    pub advice: Advice,
}

impl fmt::Display for Refused {
    fn fmt(&self, f: &mut fmt::Formatter<'_>) -> fmt::Result {
        write!(f, "the kernel refused the call: {:?}", self.why)
    }
}

#[cfg(feature = "error")]
impl core::error::Error for Refused {}

pub(crate) fn answer(reply: ffi::Reply) -> Result<Value, Refused> {
    match reply.code {
        0 => Ok(value(&reply)),
        _ => Err(Refused { why: why(&reply), advice: advice(&reply) }),
    }
}

fn value(reply: &ffi::Reply) -> Value {
    match reply.value {
        1 => Value::Capability {
            kind: KINDS[usize::from(reply.kind) % KINDS.len()],
            frame: reply.frame,
            argument: reply.n,
            rights: rights_of(u64::from(reply.flags)),
        },
        2 => Value::Page { frame: reply.frame, flags: reply.flags },
        3 => Value::Amount(reply.n),
        4 => Value::Preempts,
        5 => Value::Stays,
        _ => Value::Nothing,
    }
}

fn why(reply: &ffi::Reply) -> Why {
    let core = reply.n as u8;
    match reply.code {
        1 => Why::NoSlot,
        2 => Why::Empty,
        3 => Why::WrongCap,
        4 => Why::Occupied,
        5 => Why::Quiescing(core),
        6 => Why::Unflushed(core),
        7 => Why::FrameKind,
        8 => Why::OutOfRange,
        9 => Why::Referenced(reply.n),
        10 => Why::NotEmpty,
        11 => Why::Dead,
        12 => Why::Deep,
        13 => Why::Bottom,
        14 => Why::Running(core),
        15 => Why::Short(reply.n),
        16 => Why::Unlike,
        17 => Why::TooMany,
        18 => Why::Same,
        19 => Why::EpochsSpent,
        20 => Why::Raced,
        21 => Why::Busy(core),
        22 => Why::Fault,
        23 => Why::CallsSpent,
        24 => Why::NoRight,
        _ => Why::Outside,
    }
}

fn advice(reply: &ffi::Reply) -> Advice {
    let core = reply.n as u8;
    match reply.advice {
        2 => Advice::GiveUp,
        3 => Advice::Release(reply.n),
        4 => Advice::AwaitReturn(core),
        5 => Advice::AwaitFlush(core),
        6 => Advice::AwaitSwitch(core),
        7 => Advice::Again,
        8 => Advice::Return,
        _ => Advice::Change,
    }
}
