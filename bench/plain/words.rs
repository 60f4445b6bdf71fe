//! The words of the shared table, and where they lie, as docs/STEPS.md has them. Unproved.

#[derive(Clone, Copy, PartialEq, Eq, Debug)]
pub enum Kind {
    Range,
    Table,
    Leaf,
    Pages,
    Pleaf,
    Comp,
    Gate,
    Thread,
    Tcap,
    Link,
    Page,
}

impl Kind {
    const ALL: [Kind; 11] = [
        Kind::Range,
        Kind::Table,
        Kind::Leaf,
        Kind::Pages,
        Kind::Pleaf,
        Kind::Comp,
        Kind::Gate,
        Kind::Thread,
        Kind::Tcap,
        Kind::Link,
        Kind::Page,
    ];
}

/// A capability, with the rights to copy (1) and to use (2) it.
#[derive(Clone, Copy, PartialEq, Eq, Debug)]
pub struct Cap {
    pub kind: Kind,
    pub frame: u16,
    pub arg: u32,
    pub rights: u8,
}

pub fn cap(kind: Kind, frame: u16, arg: u32) -> Cap {
    Cap { kind, frame, arg, rights: 3 }
}

/// An entry of a node.
#[derive(Clone, Copy, PartialEq, Eq, Debug)]
pub enum Entry {
    Free,
    Held(Cap),
    Closing(u8),
    Quiescing(u64),
}

impl Entry {
    pub fn unpack(word: u64) -> Entry {
        match word & 3 {
            0 => Entry::Free,
            1 => Entry::Held(Cap {
                kind: Kind::ALL[(word >> 2 & 15) as usize],
                frame: (word >> 6 & 511) as u16,
                arg: (word >> 16 & 0xff_ffff) as u32,
                rights: 3 & !(word >> 40) as u8,
            }),
            2 => Entry::Closing((word >> 2 & 7) as u8),
            _ => Entry::Quiescing(word >> 4),
        }
    }

    pub fn pack(self) -> u64 {
        match self {
            Entry::Free => 0,
            Entry::Held(cap) => {
                let withheld = u64::from(3 & !cap.rights);
                1 | (cap.kind as u64) << 2 | u64::from(cap.frame) << 6 | u64::from(cap.arg) << 16 | withheld << 40
            }
            Entry::Closing(core) => 2 | u64::from(core) << 2,
            Entry::Quiescing(stamp) => 3 | stamp << 4,
        }
    }
}

/// The word of a frame: 1 is a user frame, 2 a kernel frame, whose object stands above.
pub fn frame_mark(word: u64) -> Option<u8> {
    (word >> 6 & 15).checked_sub(1).map(|core| core as u8)
}

pub const USER_FRAME: u64 = 1;

pub fn kernel_frame(object: Kind) -> u64 {
    let number = match object {
        Kind::Thread => 6,
        Kind::Tcap => 7,
        other => other as u64,
    };
    2 | number << 2
}

/// The references to a frame that one core counts, modulo 2^16.
#[derive(Clone, Copy, PartialEq, Eq, Debug)]
pub struct Count {
    pub stamp: u64,
    pub references: i64,
    pub mark: Option<u8>,
    pub closed: bool,
}

impl Count {
    pub fn unpack(word: u64) -> Count {
        Count {
            stamp: word & 0x7ff_ffff_ffff,
            references: i64::from((word >> 43) as i16),
            mark: (word >> 59 & 15).checked_sub(1).map(|core| core as u8),
            closed: word >> 63 == 1,
        }
    }

    pub fn pack(self) -> u64 {
        let mark = self.mark.map_or(0, |core| u64::from(core) + 1);
        self.stamp | u64::from(self.references as u16) << 43 | mark << 59 | u64::from(self.closed) << 63
    }
}

/// A core's word: whether it is inside a call, and the stamp of its last exit.
pub fn core_word(inside: bool, stamp: u64) -> u64 {
    u64::from(inside) | stamp << 1
}

/// A liveness number.
#[derive(Clone, Copy, PartialEq, Eq, Debug)]
pub enum Life {
    Free,
    Live { epoch: u16, frame: u16 },
    Closing { core: u8 },
    Dead,
}

impl Life {
    pub fn unpack(word: u64) -> Life {
        match word & 3 {
            0 => Life::Free,
            1 => Life::Live { epoch: (word >> 2) as u16, frame: (word >> 18 & 511) as u16 },
            2 => Life::Closing { core: (word >> 27 & 7) as u8 },
            _ => Life::Dead,
        }
    }
}

pub fn live_word(epoch: u16, frame: u16) -> u64 {
    1 | u64::from(epoch) << 2 | u64::from(frame) << 18
}

/// Word 2 of a component: its liveness number and its epoch.
pub fn comp_word(number: u8, epoch: u16) -> u64 {
    u64::from(number) | u64::from(epoch) << 6
}

/// The head of a temporal capability.
#[derive(Clone, Copy, PartialEq, Eq, Debug)]
pub struct Head {
    pub budget: u32,
    pub mark: Option<u8>,
    pub version: u32,
}

impl Head {
    pub fn unpack(word: u64) -> Head {
        Head {
            budget: word as u32,
            mark: (word >> 32 & 15).checked_sub(1).map(|core| core as u8),
            version: (word >> 36) as u32,
        }
    }

    pub fn pack(self) -> u64 {
        let mark = self.mark.map_or(0, |core| u64::from(core) + 1);
        u64::from(self.budget) | mark << 32 | u64::from(self.version) << 36
    }

    /// The head with this budget, unmarked. Its version rises where its list changes, and here all lists are alike.
    pub fn changed(self, budget: u32) -> Head {
        Head { budget, mark: None, version: self.version }
    }
}

/// The first word of a thread. An idle one has no core.
#[derive(Clone, Copy, PartialEq, Eq, Debug)]
pub enum Doing {
    Idle,
    Running(u8),
    Claimed(u8),
}

pub fn thread_word(doing: Doing, depth: u8) -> u64 {
    let state = match doing {
        Doing::Idle => 0,
        Doing::Running(core) => 1 | u64::from(core) << 2,
        Doing::Claimed(core) => 2 | u64::from(core) << 2,
    };
    state | u64::from(depth) << 5
}

pub fn thread_of(word: u64) -> (Doing, u8) {
    let core = (word >> 2 & 7) as u8;
    let doing = match word & 3 {
        0 => Doing::Idle,
        1 => Doing::Running(core),
        _ => Doing::Claimed(core),
    };
    (doing, (word >> 5 & 31) as u8)
}

pub fn stack_word(frame: u16) -> u64 {
    1 | u64::from(frame) << 1
}

/// Where the words of a machine lie.
#[derive(Clone, Copy, Debug)]
pub struct Layout {
    pub cores: u8,
    pub frames: u16,
}

impl Layout {
    pub fn entry(self, frame: u16, at: u16) -> u32 {
        64 * u32::from(frame) + u32::from(at)
    }

    pub fn frame(self, frame: u16) -> u32 {
        64 * u32::from(self.frames) + u32::from(frame)
    }

    pub fn count(self, frame: u16, core: u8) -> u32 {
        self.row(core) + u32::from(frame)
    }

    pub fn core(self, core: u8) -> u32 {
        self.row(core) + u32::from(self.frames)
    }

    pub fn flush(self, core: u8) -> u32 {
        self.row(core) + u32::from(self.frames) + 1
    }

    pub fn live(self, number: u8) -> u32 {
        self.row(self.cores) + u32::from(number)
    }

    pub fn clock(self) -> u32 {
        self.live(64)
    }

    pub fn size(self) -> usize {
        self.clock() as usize + 1
    }

    /// What a trace calls the word of a place.
    pub fn name(self, place: u32) -> String {
        let frames = u32::from(self.frames);
        if place < 64 * frames {
            return format!("entry {} {}", place / 64, place % 64);
        }
        if place < 65 * frames {
            return format!("frame {}", place - 64 * frames);
        }
        let (core, at) = ((place - 65 * frames) / (frames + 2), (place - 65 * frames) % (frames + 2));
        match at {
            _ if place == self.clock() => "clock".to_string(),
            _ if place >= self.live(0) => format!("live {}", place - self.live(0)),
            _ if at == frames => format!("core {core}"),
            _ if at == frames + 1 => format!("flush {core}"),
            _ => format!("count {at} {core}"),
        }
    }

    fn row(self, core: u8) -> u32 {
        let frames = u32::from(self.frames);
        65 * frames + (frames + 2) * u32::from(core)
    }

    /// Where in memory the word of a place is kept by the kernel for threads: 16 unused words stand before each row.
    pub fn position(self, place: u32) -> usize {
        let first = 65 * u32::from(self.frames);
        let rows = if place < first { 0 } else { (place - first) / (u32::from(self.frames) + 2) + 1 };
        (place + 16 * rows) as usize
    }
}
