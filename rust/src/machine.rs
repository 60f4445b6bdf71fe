//! Machines and notes.

use crate::ffi::{self, Grant, Slot};
use crate::last::Final;
use crate::port::Port;
use core::fmt;

/// Why something was not done with a machine, a port or a note.
#[derive(Clone, Copy, PartialEq, Eq, Debug)]
pub enum Fault {
    /// Not 1 to 8 cores.
    Cores,
    /// Not `4 + 2 * cores` to 512 frames.
    Frames,
    /// A budget past 500,000,000 ticks, a scheduler past 63, or a quality that is not 1 to 16,777,215.
    Grant,
    /// More than 2^40 - 1 calls of a core.
    Calls,
    /// No epoch of a liveness number.
    Epochs,
    /// Each core has its port.
    AllDealt,
    /// The ports with lower numbers are not all back.
    NotItsTurn,
    /// A port is not back.
    PortOut,
    /// Out of memory.
    Memory,
    /// The port or the note is of another machine.
    OtherMachine,
}

impl fmt::Display for Fault {
    fn fmt(&self, f: &mut fmt::Formatter<'_>) -> fmt::Result {
        f.write_str(match self {
            Fault::Cores => "not 1 to 8 cores",
            Fault::Frames => "not 4 + 2 * cores to 512 frames",
            Fault::Grant => "a grant out of range",
            Fault::Calls => "more than 2^40 - 1 calls of a core",
            Fault::Epochs => "no epoch of a liveness number",
            Fault::AllDealt => "each core has its port",
            Fault::NotItsTurn => "the ports with lower numbers are not all back",
            Fault::PortOut => "a port is not back",
            Fault::Memory => "out of memory",
            Fault::OtherMachine => "it is of another machine",
        })
    }
}

#[cfg(feature = "error")]
impl core::error::Error for Fault {}

pub(crate) fn done(code: u8) -> Result<(), Fault> {
    match code {
        0 => Ok(()),
        241 => Err(Fault::Cores),
        242 => Err(Fault::Frames),
        243 => Err(Fault::Grant),
        249 => Err(Fault::Calls),
        250 => Err(Fault::Epochs),
        244 => Err(Fault::AllDealt),
        245 => Err(Fault::NotItsTurn),
        246 => Err(Fault::PortOut),
        247 => Err(Fault::Memory),
        _ => Err(Fault::OtherMachine),
    }
}

/// What was refused, with why.
pub struct Kept<T> {
    pub fault: Fault,
    pub it: T,
}

impl<T> fmt::Debug for Kept<T> {
    fn fmt(&self, f: &mut fmt::Formatter<'_>) -> fmt::Result {
        write!(f, "{:?}", self.fault)
    }
}

impl<T> fmt::Display for Kept<T> {
    fn fmt(&self, f: &mut fmt::Formatter<'_>) -> fmt::Result {
        self.fault.fmt(f)
    }
}

#[cfg(feature = "error")]
impl<T> core::error::Error for Kept<T> {}

/// A kernel, whose ports are dealt and come back.
#[derive(Debug)]
pub struct Machine {
    slot: Slot,
}

// The library is proved to let what it holds cross threads, and each call takes it by `&mut`.
unsafe impl Send for Machine {}

impl Machine {
    /// A machine of so many cores and frames, whose cores are each granted so many ticks.
    pub fn boot(cores: u8, frames: u16, budget: u32) -> Result<Machine, Fault> {
        let mut machine = Machine { slot: Slot::EMPTY };
        done(unsafe { ffi::speck_boot(&mut machine.slot, cores, frames, budget) })?;
        Ok(machine)
    }

    /// A machine of a core for each grant, core 0's first, of so many frames, whose cores may each make so many calls, at most 2^40 - 1, and
    /// whose liveness numbers have so many epochs.
    pub fn boot_with(frames: u16, calls: u64, epochs: u16, grants: &[Grant]) -> Result<Machine, Fault> {
        let mut machine = Machine { slot: Slot::EMPTY };
        done(unsafe { ffi::speck_boot_with(&mut machine.slot, frames, calls, epochs, grants.as_ptr(), grants.len()) })?;
        Ok(machine)
    }

    /// The next core's port, core 0's first.
    pub fn deal(&mut self) -> Result<Port, Fault> {
        let mut port = Port::EMPTY;
        done(unsafe { ffi::speck_deal(&mut self.slot, &mut port.slot) })?;
        Ok(port)
    }

    /// Takes a port of this machine back, core 0's first. What is refused is given back.
    pub fn take_back(&mut self, mut port: Port) -> Result<(), Kept<Port>> {
        done(unsafe { ffi::speck_take_back(&mut self.slot, &mut port.slot) }).map_err(|fault| Kept { fault, it: port })
    }

    /// What it has left, once all ports are back; else the machine is given back as it was.
    pub fn finish(mut self) -> Result<Final, Kept<Machine>> {
        let mut last = Final { slot: Slot::EMPTY };
        match done(unsafe { ffi::speck_finish(&mut self.slot, &mut last.slot) }) {
            Ok(()) => Ok(last),
            Err(fault) => Err(Kept { fault, it: self }),
        }
    }
}

impl Drop for Machine {
    fn drop(&mut self) {
        unsafe { ffi::speck_free_machine(&mut self.slot) };
    }
}

/// What a port has seen.
#[derive(Debug)]
pub struct Note {
    pub(crate) slot: Slot,
}

unsafe impl Send for Note {}

impl Drop for Note {
    fn drop(&mut self) {
        unsafe { ffi::speck_free_note(&mut self.slot) };
    }
}
