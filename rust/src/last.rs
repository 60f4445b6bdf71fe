//! What a finished machine has left, part by part and as a text.

use crate::ffi::{self, CachedPart, CapPart, CompPart, CorePart, FramePart, LivePart, QualityPart, SizePart, Slot};
use crate::machine::{Fault, done};
use crate::reply::{FrameKind, KINDS, Kind, Rights, rights_of};
use core::fmt;

/// What a machine has left: its frames, capabilities, mappings, counts, components, threads, budgets, names and cores.
#[derive(Debug)]
pub struct Final {
    pub(crate) slot: Slot,
}

// The library is proved to let what it holds cross threads, and each call takes it by `&mut`.
unsafe impl Send for Final {}

/// Why there is no such part.
#[derive(Clone, Copy, PartialEq, Eq, Debug)]
pub enum Missing {
    /// A number is outside the machine.
    Outside,
    /// The frame holds another object.
    OtherObject,
    /// Nothing stands there.
    Empty,
}

impl fmt::Display for Missing {
    fn fmt(&self, f: &mut fmt::Formatter<'_>) -> fmt::Result {
        f.write_str(match self {
            Missing::Outside => "outside the machine",
            Missing::OtherObject => "the frame holds another object",
            Missing::Empty => "nothing stands there",
        })
    }
}

#[cfg(feature = "error")]
impl core::error::Error for Missing {}

/// What a frame is; a kernel frame without an object is blank.
#[derive(Clone, Copy, PartialEq, Eq, Debug)]
pub struct Frame {
    pub kind: FrameKind,
    pub object: Option<Kind>,
}

/// A capability, a link or a mapping. `argument` is a range's length, a gate's epoch or a page's flags.
#[derive(Clone, Copy, PartialEq, Eq, Debug)]
pub struct Capability {
    pub kind: Kind,
    pub frame: u16,
    pub argument: u32,
    pub rights: Rights,
}

/// What a liveness number stands for.
#[derive(Clone, Copy, PartialEq, Eq, Debug)]
pub enum Life {
    Live { epoch: u16, frame: u16 },
    Dead { epoch: u16 },
}

fn part<T: Default>(read: impl FnOnce(&mut T) -> u8) -> Result<T, Missing> {
    let mut into = T::default();
    match read(&mut into) {
        0 => Ok(into),
        2 => Err(Missing::Empty),
        7 => Err(Missing::OtherObject),
        _ => Err(Missing::Outside),
    }
}

fn capability(part: CapPart) -> Capability {
    let kind = KINDS[usize::from(part.kind) % KINDS.len()];
    Capability { kind, frame: part.frame, argument: part.argument, rights: rights_of(u64::from(part.rights)) }
}

impl Final {
    /// How many frames and cores the machine has.
    pub fn size(&mut self) -> SizePart {
        part(|it| unsafe { ffi::speck_read_size(&mut self.slot, it) }).unwrap_or_default()
    }

    /// What a frame is.
    pub fn frame(&mut self, frame: u16) -> Result<Frame, Missing> {
        let read: FramePart = part(|it| unsafe { ffi::speck_read_frame(&mut self.slot, frame, it) })?;
        let kind = match read.kind {
            1 => FrameKind::User,
            2 => FrameKind::Kernel,
            _ => FrameKind::Untyped,
        };
        Ok(Frame { kind, object: KINDS.get(usize::from(read.object)).copied() })
    }

    /// What a core counts of the references to a frame: those made less those released.
    pub fn count(&mut self, frame: u16, core: u8) -> Result<i32, Missing> {
        part(|it| unsafe { ffi::speck_read_count(&mut self.slot, frame, core, it) })
    }

    /// The references to a frame: the sum of what all cores count.
    pub fn references(&mut self, frame: u16) -> Result<i64, Missing> {
        (0..self.size().cores).map(|core| self.count(frame, core).map(i64::from)).sum()
    }

    /// What an entry, 0 to 63, of a node holds.
    pub fn entry(&mut self, frame: u16, entry: u16) -> Result<Capability, Missing> {
        part(|it| unsafe { ffi::speck_read_entry(&mut self.slot, frame, entry, it) }).map(capability)
    }

    /// What stands under the number of a capability, or of a page, of the table whose root is in this frame.
    pub fn under(&mut self, root: u16, number: u16) -> Result<Capability, Missing> {
        part(|it| unsafe { ffi::speck_read_under(&mut self.slot, root, number, it) }).map(capability)
    }

    /// The component in a frame.
    pub fn comp(&mut self, frame: u16) -> Result<CompPart, Missing> {
        part(|it| unsafe { ffi::speck_read_comp(&mut self.slot, frame, it) })
    }

    /// The frame of the component at a height of the stack, 0 to 15, of the thread in a frame; its first component is at 0.
    pub fn stack(&mut self, frame: u16, height: u16) -> Result<u16, Missing> {
        part(|it| unsafe { ffi::speck_read_stack(&mut self.slot, frame, height, it) })
    }

    /// The ticks of the temporal capability in a frame.
    pub fn budget(&mut self, frame: u16) -> Result<u32, Missing> {
        part(|it| unsafe { ffi::speck_read_budget(&mut self.slot, frame, it) })
    }

    /// The pair at a place, 0 to 7, of its list.
    pub fn quality(&mut self, frame: u16, place: u16) -> Result<QualityPart, Missing> {
        part(|it| unsafe { ffi::speck_read_quality(&mut self.slot, frame, place, it) })
    }

    /// What a liveness number, 0 to 63, stands for; empty where no component was ever named so.
    pub fn live(&mut self, number: u8) -> Result<Life, Missing> {
        let read: LivePart = part(|it| unsafe { ffi::speck_read_live(&mut self.slot, number, it) })?;
        Ok(match read.lives {
            1 => Life::Live { epoch: read.epoch, frame: read.frame },
            _ => Life::Dead { epoch: read.epoch },
        })
    }

    /// Where a core ended.
    pub fn core(&mut self, core: u8) -> Result<CorePart, Missing> {
        part(|it| unsafe { ffi::speck_read_core(&mut self.slot, core, it) })
    }

    /// A translation that a core has cached, the earliest at place 0.
    pub fn cached(&mut self, core: u8, place: u8) -> Result<CachedPart, Missing> {
        part(|it| unsafe { ffi::speck_read_cached(&mut self.slot, core, place, it) })
    }

    /// The text of all this.
    pub fn tables(&mut self) -> Result<Tables, Fault> {
        let mut tables = Tables { slot: Slot::EMPTY };
        done(unsafe { ffi::speck_show(&mut self.slot, &mut tables.slot) })?;
        Ok(tables)
    }
}

impl Drop for Final {
    fn drop(&mut self) {
        unsafe { ffi::speck_free_final(&mut self.slot) };
    }
}

/// The text of the tables of a machine that was finished.
#[derive(Debug)]
pub struct Tables {
    slot: Slot,
}

unsafe impl Send for Tables {}

impl Tables {
    /// Copies its beginning, as much as there is room for, and answers its whole length.
    pub fn read(&mut self, bytes: &mut [u8]) -> usize {
        unsafe { ffi::speck_read(&mut self.slot, bytes.as_mut_ptr(), bytes.len()) as usize }
    }
}

impl Drop for Tables {
    fn drop(&mut self) {
        unsafe { ffi::speck_free_text(&mut self.slot) };
    }
}
