//! A machine in plain Rust that makes the same atomic steps as the kernel, those of the question of life among them. Unproved.
//!
//! A core says which step it makes next (`next`) and takes in the word that the step has told (`absorb`), so that any order of
//! single steps can be made. Where its call stands is a `Stage`, and what the call has found and marked is in `Active`.

use crate::calls::{Call, Op, Reply, Told, Translation};
use crate::stage::{Active, Stage, active, root};
use crate::words::*;

/// A core makes no more calls than this.
const MOST_CALLS: u64 = (1 << 40) - 1;

/// A core: what it has of its own, and its call in progress.
#[derive(Clone, Debug)]
pub struct Core {
    own: Own,
    active: Option<Active>,
}

#[derive(Clone, Debug)]
struct Own {
    me: u8,
    layout: Layout,
    thread: u16,
    depth: u8,
    tcap: u16,
    comp: u16,
    table: u16,
    pages: u16,
    exit: u64,
    made: u64,
    spent: u64,
    owed: u64,
    cached: Vec<Translation>,
}

impl Core {
    /// A core of a machine that has just booted, with the stamp of its last exit.
    pub fn new(me: u8, layout: Layout, exit: u64) -> Core {
        let own = Own {
            me,
            layout,
            thread: 4 + u16::from(me),
            depth: 1,
            tcap: 4 + u16::from(layout.cores) + u16::from(me),
            comp: 3,
            table: 0,
            pages: 2,
            exit,
            made: 0,
            spent: 0,
            owed: 0,
            cached: Vec::new(),
        };
        Core { own, active: None }
    }

    pub fn begin(&mut self, call: Call) {
        self.active = Some(active(call));
    }

    /// The next step of the core's call.
    pub fn next(&self) -> Op {
        self.own.next(self.active.as_ref().expect("a call"))
    }

    /// Takes in the word that the core's step has told: the word found, or for a store the word stored.
    pub fn absorb(&mut self, found: u64) -> Told {
        let call = self.active.as_mut().expect("a call");
        let told = self.own.took(call, found);
        match told {
            Told::Going => {}
            Told::Decided(reply) => {
                self.own.made += u64::from(reply != Reply::CallsSpent);
                call.reply = Some(reply);
            }
            Told::Returned(_) => self.active = None,
        }
        told
    }
}

impl Own {
    fn next(&self, call: &Active) -> Op {
        let l = self.layout;
        match call.stage {
            Stage::Enter => Op::Store(l.core(self.me), core_word(true, self.exit)),
            Stage::Comp => Op::Load(l.entry(self.comp, 2)),
            Stage::Live { number, .. } => Op::Load(l.live(number)),
            Stage::Root { name } => Op::Load(l.entry(self.table, call.number(name) >> 6)),
            Stage::Leaf { name, node } => Op::Load(l.entry(node, call.number(name) & 63)),
            Stage::TargetRoot => Op::Load(l.entry(call.target_node(), call.target_number() >> 6)),
            Stage::TargetLeaf { node } => Op::Load(l.entry(node, call.target_number() & 63)),
            Stage::ScanCore { core, .. } => Op::Load(l.core(core)),
            Stage::ScanFlush { core, .. } => Op::Load(l.flush(core)),
            Stage::Pin => Op::Load(l.count(call.due().frame, self.me)),
            Stage::Pinning { found } => {
                let marked = Count { mark: Some(self.me), ..Count::unpack(found) };
                Op::Compare(l.count(call.due().frame, self.me), found, marked.pack())
            }
            Stage::Fill => Op::Compare(call.target, call.target_word, Entry::Held(call.put()).pack()),
            Stage::Close => Op::Compare(call.target, call.target_word, Entry::Closing(self.me).pack()),
            Stage::Draw => Op::Add(l.clock(), 1),
            Stage::Quiesce { stamp } => Op::Store(call.target, Entry::Quiescing(stamp).pack()),
            Stage::FlushClock | Stage::Clock => Op::Load(l.clock()),
            Stage::FlushStore { stamp } => Op::Store(l.flush(self.me), u64::from(stamp)),
            Stage::Settle { at } => {
                let due = call.dues[at as usize];
                Op::Store(l.count(due.frame, self.me), call.settled(due))
            }
            Stage::Leave { stamp } => Op::Store(l.core(self.me), core_word(false, stamp)),
            _ => self.next_of_act(call),
        }
    }

    fn next_of_act(&self, call: &Active) -> Op {
        let l = self.layout;
        let a = call.names[0];
        match call.stage {
            Stage::TouchRoot => Op::Load(l.entry(self.pages, call.page() >> 6)),
            Stage::TouchLeaf { node } => Op::Load(l.entry(node, call.page() & 63)),
            Stage::FrameWord => Op::Load(l.frame(call.due().frame)),
            Stage::OwnHead => Op::Load(l.entry(self.tcap, 0)),
            Stage::Charge { found } => {
                let head = Head::unpack(found);
                let left = head.budget - self.charged(call, head);
                Op::Compare(l.entry(self.tcap, 0), found, head.changed(left).pack())
            }
            Stage::Part { at } => Op::Load(l.entry(call.entered(), at)),
            Stage::Gate => Op::Load(l.live((call.parts[2] & 63) as u8)),
            Stage::Push => Op::Store(l.entry(self.thread, u16::from(self.depth)), stack_word(a.frame)),
            Stage::Below => Op::Load(l.entry(self.thread, u16::from(self.depth) - 1)),
            Stage::StoreThread => Op::Store(l.entry(self.thread, 0), thread_word(Doing::Running(self.me), self.depth)),
            Stage::Pop => Op::Store(l.entry(self.thread, u16::from(self.depth) + 1), 0),
            Stage::NewThread => Op::Load(l.entry(a.frame, 0)),
            Stage::Claim { found } => Op::Compare(l.entry(a.frame, 0), found, thread_word(Doing::Claimed(self.me), call.depth)),
            Stage::Top => Op::Load(l.entry(a.frame, u16::from(call.depth))),
            Stage::StoreOld => Op::Store(l.entry(self.thread, 0), thread_word(Doing::Claimed(self.me), self.depth)),
            Stage::StoreNew { .. } => Op::Store(l.entry(a.frame, 0), thread_word(Doing::Running(self.me), self.depth)),
            Stage::Rest { .. } => Op::Store(l.entry(call.dues[1].frame, 0), thread_word(Doing::Idle, call.depth)),
            Stage::Unclaim => Op::Store(l.entry(a.frame, 0), thread_word(Doing::Idle, call.depth)),
            _ => self.next_of_heads(call),
        }
    }

    fn next_of_heads(&self, call: &Active) -> Op {
        let l = self.layout;
        let [a, b] = call.names;
        match call.stage {
            Stage::HeadA => Op::Load(l.entry(a.frame, 0)),
            Stage::MarkA { found } => {
                let marked = Head { mark: Some(self.me), ..Head::unpack(found) };
                Op::Compare(l.entry(a.frame, 0), found, marked.pack())
            }
            Stage::ListA { at } => Op::Load(l.entry(a.frame, at)),
            Stage::HeadB | Stage::AgainB => Op::Load(l.entry(b.frame, 0)),
            Stage::ListB { at } => Op::Load(l.entry(b.frame, at)),
            Stage::FillB => {
                let head = Head::unpack(call.heads[1]);
                Op::Compare(l.entry(b.frame, 0), call.heads[1], head.changed(head.budget + call.moved()).pack())
            }
            Stage::MarkB => {
                let marked = Head { mark: Some(self.me), ..Head::unpack(call.heads[1]) };
                Op::Compare(l.entry(b.frame, 0), call.heads[1], marked.pack())
            }
            Stage::StoreListB { at } => Op::Store(l.entry(b.frame, at), call.lists[1][at as usize - 1]),
            Stage::StoreB => {
                let head = Head::unpack(call.heads[1]);
                Op::Store(l.entry(b.frame, 0), head.changed(head.budget + call.moved()).pack())
            }
            Stage::StoreA => Op::Store(l.entry(a.frame, 0), call.given()),
            other => unreachable!("{other:?}"),
        }
    }

    fn took(&mut self, call: &mut Active, found: u64) -> Told {
        match call.stage {
            Stage::Enter => self.entered(call),
            Stage::Comp => {
                let stage = Stage::Live { number: (found & 63) as u8, epoch: (found >> 6) as u16 };
                call.to(stage)
            }
            Stage::Live { epoch, .. } => match Life::unpack(found) {
                Life::Live { epoch: now, .. } if now == epoch => call.lives(),
                Life::Closing { core } => call.refuse(Reply::Busy(core)),
                _ => call.refuse(Reply::Dead),
            },
            Stage::Root { name } => match root(found) {
                Ok(node) => call.to(Stage::Leaf { name, node }),
                Err(reply) => call.refuse(reply),
            },
            Stage::Leaf { name, .. } => self.named(call, name, found),
            Stage::TargetRoot => match root(found) {
                Ok(node) => call.to(Stage::TargetLeaf { node }),
                Err(reply) => call.refuse(reply),
            },
            Stage::TargetLeaf { node } => self.target(call, node, found),
            Stage::ScanCore { core, stamp } => self.scanned(call, core, stamp, found),
            Stage::ScanFlush { core, stamp } => self.scanned_flush(call, core, stamp, found),
            Stage::Pin => {
                let count = Count::unpack(found);
                match count.mark {
                    Some(core) => call.refuse(Reply::Busy(core)),
                    None => call.to(Stage::Pinning { found }),
                }
            }
            Stage::Pinning { found: expected } => self.pinned(call, expected, found),
            _ => self.took_act(call, found),
        }
    }

    fn took_act(&mut self, call: &mut Active, found: u64) -> Told {
        match call.stage {
            Stage::TouchRoot => self.touched_root(call, found),
            Stage::TouchLeaf { .. } => self.touched(call, found),
            Stage::FrameWord => match frame_mark(found) {
                Some(core) => call.refuse(Reply::Busy(core)),
                None if found != USER_FRAME => call.refuse(Reply::FrameKind),
                None => call.to(Stage::Fill),
            },
            Stage::Fill if found != call.target_word => call.refuse(Reply::Raced),
            Stage::Fill => call.carried_out(Stage::Settle { at: 0 }),
            Stage::Close if found != call.target_word => call.refuse(Reply::Raced),
            Stage::Close => call.to(Stage::Draw),
            Stage::Draw => self.drew(call, found),
            Stage::Quiesce { .. } => call.settle(0),
            Stage::OwnHead => match Head::unpack(found).mark {
                Some(core) => self.owes(call, Reply::Busy(core)),
                None => call.to(Stage::Charge { found }),
            },
            Stage::Charge { found: expected } if found != expected => self.owes(call, Reply::Raced),
            Stage::Charge { .. } => self.charge(call, found),
            Stage::Part { at } => self.took_part(call, at, found),
            Stage::Gate => self.passed(call, found),
            Stage::Push => call.to(Stage::StoreThread),
            Stage::Below => {
                call.names[0] = cap(Kind::Comp, (found >> 1) as u16, 0);
                call.to(Stage::Part { at: 0 })
            }
            Stage::StoreThread if call.call == Call::Ret => call.to(Stage::Pop),
            Stage::StoreThread | Stage::Pop => call.settle(0),
            _ => self.took_switch(call, found),
        }
    }

    fn took_switch(&mut self, call: &mut Active, found: u64) -> Told {
        match call.stage {
            Stage::NewThread => match thread_of(found) {
                (Doing::Running(core), _) => call.refuse(Reply::Running(core)),
                (Doing::Claimed(core), _) => call.refuse(Reply::Busy(core)),
                (Doing::Idle, depth) => {
                    call.depth = depth;
                    call.to(Stage::Claim { found })
                }
            },
            Stage::Claim { found: expected } if found != expected => call.refuse(Reply::Raced),
            Stage::Claim { .. } => call.to(Stage::Top),
            Stage::Top => {
                call.parts[2] = found >> 1;
                call.to(Stage::Part { at: 0 })
            }
            Stage::StoreOld => call.to(Stage::Draw),
            Stage::StoreNew { stamp } => call.to(Stage::Rest { stamp }),
            Stage::Rest { .. } | Stage::Unclaim => call.settle(0),
            Stage::Settle { at } => call.settle(at + 1),
            Stage::Clock => call.to(Stage::Leave { stamp: found }),
            Stage::Leave { stamp } => {
                self.exit = stamp;
                Told::Returned(call.reply.expect("a decision"))
            }
            Stage::FlushClock => {
                self.cached.clear();
                call.decide(Reply::Done, Stage::FlushStore { stamp: found })
            }
            Stage::FlushStore { .. } => call.to(Stage::Clock),
            _ => call.took_heads(found),
        }
    }

    // The call has made its entry.
    fn entered(&self, call: &mut Active) -> Told {
        if self.made >= MOST_CALLS {
            return call.refuse(Reply::CallsSpent);
        }
        match call.call {
            Call::Flush => call.to(Stage::FlushClock),
            Call::Tick { .. } => call.to(Stage::OwnHead),
            Call::Ret if self.depth == 1 => call.refuse(Reply::Bottom),
            Call::Ret => {
                call.owe(self.comp, -1);
                call.to(Stage::Below)
            }
            _ => call.to(Stage::Comp),
        }
    }

    // A name has led to this entry.
    fn named(&self, call: &mut Active, name: u8, found: u64) -> Told {
        let (_, want) = call.call.name(name).expect("a name");
        let found = match Entry::unpack(found) {
            Entry::Held(found) => found,
            Entry::Closing(core) => return call.refuse(Reply::Busy(core)),
            _ => return call.refuse(Reply::Empty),
        };
        if want.kind.is_some_and(|kind| kind != found.kind) {
            return call.refuse(Reply::WrongCap);
        }
        if want.right & !found.rights != 0 {
            return call.refuse(Reply::NoRight);
        }
        call.names[name as usize] = found;
        if call.call.name(name + 1).is_some() {
            return call.look_up(name + 1);
        }
        if call.call.target().is_some() {
            let past = call.target_number() > 4095;
            return if past { call.refuse(Reply::NoSlot) } else { call.to(Stage::TargetRoot) };
        }
        match call.call {
            Call::Call { .. } if self.depth == 16 => call.refuse(Reply::Deep),
            Call::Call { .. } => {
                call.owe(found.frame, 1);
                call.to(Stage::Part { at: 0 })
            }
            Call::Switch { .. } => call.to(Stage::NewThread),
            Call::Look { .. } => call.decide(Reply::Found(found), Stage::Clock),
            _ if call.names[0].frame == found.frame => call.refuse(Reply::Same),
            _ => call.to(Stage::HeadA),
        }
    }

    // The target is this entry of the node.
    fn target(&self, call: &mut Active, node: u16, found: u64) -> Told {
        call.target = self.layout.entry(node, call.target_number() & 63);
        call.target_word = found;
        match (Entry::unpack(found), call.call.fills()) {
            (Entry::Closing(core), _) => call.refuse(Reply::Busy(core)),
            (Entry::Free, true) => call.to_fill(),
            (Entry::Quiescing(stamp), true) => self.scan_from(call, 0, stamp),
            (Entry::Held(_), true) => call.refuse(Reply::Occupied),
            (Entry::Held(held), false) => {
                if held.kind != Kind::Range {
                    call.owe(held.frame, -1);
                }
                call.pin()
            }
            (_, false) => call.refuse(Reply::Empty),
        }
    }

    // The scan goes on with the first other core from this one on.
    fn scan_from(&self, call: &mut Active, core: u8, stamp: u64) -> Told {
        let core = if core == self.me { core + 1 } else { core };
        if core < self.layout.cores {
            return call.to(Stage::ScanCore { core, stamp });
        }
        match call.call {
            Call::Map { .. } => call.to(Stage::ScanFlush { core: 0, stamp }),
            _ => call.to_fill(),
        }
    }

    fn scanned(&self, call: &mut Active, core: u8, stamp: u64, found: u64) -> Told {
        if found & 1 == 1 && found >> 1 <= stamp {
            return call.refuse(Reply::Quiescing(core));
        }
        self.scan_from(call, core + 1, stamp)
    }

    fn scanned_flush(&self, call: &mut Active, core: u8, stamp: u64, found: u64) -> Told {
        if found <= stamp {
            return call.refuse(Reply::Unflushed(core));
        }
        if core + 1 < self.layout.cores {
            return call.to(Stage::ScanFlush { core: core + 1, stamp });
        }
        call.to_fill()
    }

    // The compare that marks a count has been made.
    fn pinned(&self, call: &mut Active, expected: u64, found: u64) -> Told {
        if found != expected {
            return call.refuse(Reply::Raced);
        }
        call.dues[call.pinned as usize].word = found;
        call.pinned += 1;
        call.pin()
    }

    // A page that is cached is answered, whatever its root entry says.
    fn touched_root(&self, call: &mut Active, found: u64) -> Told {
        if let Some(cached) = self.cached.iter().find(|cached| cached.pages == self.pages && cached.page == call.page()) {
            return call.decide(Reply::Mapped(*cached), Stage::Clock);
        }
        match root(found) {
            Ok(node) => call.to(Stage::TouchLeaf { node }),
            Err(Reply::Busy(core)) => call.refuse(Reply::Busy(core)),
            Err(_) => call.refuse(Reply::Fault),
        }
    }

    // The page is mapped so; no more than 64 are cached.
    fn touched(&mut self, call: &mut Active, found: u64) -> Told {
        let held = match Entry::unpack(found) {
            Entry::Held(held) => held,
            Entry::Closing(core) => return call.refuse(Reply::Busy(core)),
            _ => return call.refuse(Reply::Fault),
        };
        let mapped = Translation { pages: self.pages, page: call.page(), frame: held.frame, flags: held.arg as u8 };
        if self.cached.len() < 64 {
            self.cached.push(mapped);
        }
        call.decide(Reply::Mapped(mapped), Stage::Clock)
    }

    // The call is carried out with this stamp.
    fn drew(&mut self, call: &mut Active, stamp: u64) -> Told {
        call.stamp = stamp;
        match call.call {
            Call::Ret => {
                self.depth -= 1;
                self.enter(call.names[0].frame, call.parts);
                call.carried_out(Stage::StoreThread)
            }
            Call::Switch { .. } => {
                self.thread = call.names[0].frame;
                self.tcap = call.names[1].frame;
                std::mem::swap(&mut self.depth, &mut call.depth);
                self.enter(call.parts[2] as u16, call.parts);
                call.carried_out(Stage::StoreNew { stamp })
            }
            _ => call.carried_out(Stage::Quiesce { stamp }),
        }
    }

    fn enter(&mut self, comp: u16, parts: [u64; 3]) {
        self.comp = comp;
        self.table = parts[0] as u16;
        self.pages = parts[1] as u16;
    }

    fn charged(&self, call: &Active, head: Head) -> u32 {
        let Call::Tick { n } = call.call else { unreachable!() };
        u64::from(head.budget).min(u64::from(n) + self.owed) as u32
    }

    // A tick charges what is due, as far as there is budget.
    fn charge(&mut self, call: &mut Active, found: u64) -> Told {
        let Call::Tick { n } = call.call else { unreachable!() };
        let charged = self.charged(call, Head::unpack(found));
        self.owed = u64::from(n) + self.owed - u64::from(charged);
        self.spent += u64::from(charged);
        call.decide(Reply::Charged(charged), Stage::Clock)
    }

    // A tick that was refused leaves its ticks owed.
    fn owes(&mut self, call: &mut Active, reply: Reply) -> Told {
        let Call::Tick { n } = call.call else { unreachable!() };
        self.owed += u64::from(n);
        call.refuse(reply)
    }

    // A word of the component that is entered has been loaded.
    fn took_part(&self, call: &mut Active, at: u16, found: u64) -> Told {
        let last = if matches!(call.call, Call::Call { .. }) { 2 } else { 1 };
        call.parts[at as usize] = found;
        if at < last {
            return call.to(Stage::Part { at: at + 1 });
        }
        if matches!(call.call, Call::Switch { .. }) {
            call.owe(call.names[0].frame, 1);
            call.owe(self.thread, -1);
            if call.names[1].frame != self.tcap {
                call.owe(call.names[1].frame, 1);
                call.owe(self.tcap, -1);
            }
        }
        call.pin()
    }

    // The liveness number of the gate's component is this.
    fn passed(&mut self, call: &mut Active, found: u64) -> Told {
        let epoch = call.names[0].arg as u16;
        match Life::unpack(found) {
            Life::Live { epoch: now, .. } if now == epoch => {
                self.depth += 1;
                self.enter(call.names[0].frame, call.parts);
                call.carried_out(Stage::Push)
            }
            Life::Closing { core } => call.refuse(Reply::Busy(core)),
            _ => call.refuse(Reply::Dead),
        }
    }
}

