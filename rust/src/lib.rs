//! The core of a capability kernel, as a library: a safe surface of `libspeck.a`.
//!
//! ```
//! use speck::{Machine, Rights, Value, Kind};
//! let mut machine = Machine::boot(2, 32, 100)?;
//! let (mut first, mut second) = (machine.deal()?, machine.deal()?);
//! std::thread::scope(|scope| {
//!     scope.spawn(|| first.copy(0, 1, 20, Rights::Both));
//!     scope.spawn(|| second.tick(7));
//! });
//! second.meet(first.note()?)?; // core 1 has then seen what core 0 has done
//! assert!(matches!(second.look(20)?, Value::Capability { kind: Kind::Range, .. }));
//! machine.take_back(first)?;
//! machine.take_back(second)?;
//! let mut last = machine.finish()?; // what it has left, part by part
//! assert_eq!(last.under(0, 20)?.frame, 8);
//! assert_eq!(last.core(1)?.spent, 7);
//! # Ok::<(), Box<dyn std::error::Error>>(())
//! ```
//!
//! Each type frees what it holds when it is dropped; the last of a machine and its ports frees the kernel. What is refused is given back.
//! What a machine holds at boot and the limits stand in `speck.h`, when each refusal comes in docs/REPLIES.md of the repository.
//!
//! It needs no `std`. With the feature `heap`, its memory comes from the global allocator, so from the embedder's own where there is one.
#![no_std]

mod ffi;
#[cfg(feature = "heap")]
mod heap;
mod last;
mod machine;
mod port;
mod reply;

pub use ffi::{CachedPart as Translation, CompPart as Component, CorePart as CoreEnd, Grant, QualityPart as Quality, SizePart as Size};
pub use last::{Capability, Final, Frame, Life, Missing, Tables};
pub use machine::{Fault, Kept, Machine, Note};
pub use port::Port;
pub use reply::{Advice, FrameKind, Kind, Refused, Rights, Value, Why};
