//! Two threads at one kernel, each refusal of a machine, a port and a note, grants and endpoints, and a finished machine read part by part.

use speck::{Advice, Capability, Fault, Final, Frame, FrameKind, Grant, Kind, Life, Machine, Missing, Port, Quality, Refused, Rights, Value, Why};
use std::alloc::{GlobalAlloc, Layout, System};
use std::sync::atomic::{AtomicUsize, Ordering};

/// An allocator of the embedder's own, which counts.
struct Counting;

static BLOCKS: AtomicUsize = AtomicUsize::new(0);

unsafe impl GlobalAlloc for Counting {
    unsafe fn alloc(&self, layout: Layout) -> *mut u8 {
        BLOCKS.fetch_add(1, Ordering::SeqCst);
        unsafe { System.alloc(layout) }
    }

    unsafe fn dealloc(&self, block: *mut u8, layout: Layout) {
        unsafe { System.dealloc(block, layout) }
    }
}

#[global_allocator]
static HEAP: Counting = Counting;

/// Makes the call until it is carried out or refused for good.
fn made(mut call: impl FnMut() -> Result<Value, Refused>) -> Result<Value, Refused> {
    loop {
        match call() {
            Err(Refused { advice: Advice::Again | Advice::AwaitReturn(_), .. }) => std::thread::yield_now(),
            answer => return answer,
        }
    }
}

fn fill(port: &mut Port) -> u32 {
    let place = 21 + u16::from(port.core());
    for done in 0..100 {
        if made(|| port.copy(0, 1, place, Rights::Both)).is_err() || made(|| port.remove(1, place)).is_err() {
            return done;
        }
    }
    100
}

fn last_of(machine: Machine) -> Final {
    machine.finish().expect("all ports are back")
}

#[test]
fn two_threads_share_a_kernel() {
    let mut machine = Machine::boot(2, 32, 100).expect("a machine within the limits");
    let (mut first, mut second) = (machine.deal().expect("core 0"), machine.deal().expect("core 1"));
    assert_eq!((first.core(), second.core()), (0, 1));
    let (mut machine, mut first, note) = std::thread::spawn(move || {
        assert_eq!(first.copy(0, 1, 20, Rights::Use), Ok(Value::Nothing));
        assert_eq!(first.part(0, 16, 4, 1, 23), Ok(Value::Nothing));
        let note = first.note().expect("memory");
        (machine, first, note) // a machine, too, may move
    })
    .join()
    .expect("the thread of core 0");
    second.meet(note).expect("a note of this machine");
    let looked = Value::Capability { kind: Kind::Range, frame: 8, argument: 24, rights: Rights::Use };
    assert_eq!(second.look(20), Ok(looked));
    let part = Value::Capability { kind: Kind::Range, frame: 16, argument: 4, rights: Rights::Both };
    assert_eq!(second.look(23), Ok(part));
    assert!(second.part(20, 16, 4, 1, 24).is_err());
    assert_eq!(second.tick(7), Ok(Value::Amount(7)));
    assert_eq!(second.replenish(13, 3), Ok(Value::Nothing));
    assert_eq!(second.replenish(13, 5), Err(Refused { why: Why::Short(4), advice: Advice::Change }));
    let filled = std::thread::scope(|scope| {
        let other = scope.spawn(|| fill(&mut first));
        (fill(&mut second), other.join().expect("the thread of core 0"))
    });
    assert_eq!(filled, (100, 100));
    machine.take_back(first).expect("core 0's");
    machine.take_back(second).expect("core 1's");
    let mut last = last_of(machine);
    assert_eq!((last.size().frames, last.size().cores), (32, 2));
    assert_eq!(last.frame(0), Ok(Frame { kind: FrameKind::Kernel, object: Some(Kind::Table) }));
    assert_eq!((last.references(0), last.references(3)), (Ok(2), Ok(4)));
    let range = Capability { kind: Kind::Range, frame: 8, argument: 24, rights: Rights::Use };
    assert_eq!((last.entry(1, 20), last.under(0, 20)), (Ok(range), Ok(range)));
    assert_eq!(last.core(1).map(|it| (it.thread, it.tcap, it.comp, it.spent, it.back)), Ok((5, 7, 3, 7, 3)));
    assert_eq!((last.budget(6), last.budget(7)), (Ok(100), Ok(96)));
    let mut tables = last.tables().expect("memory");
    let mut text = vec![0; tables.read(&mut [])];
    assert_eq!(tables.read(&mut text), text.len());
    assert!(text.ends_with(b"total 200\n"));
}

#[test]
fn each_core_has_its_grant_and_endpoints_count() {
    let grants = [Grant { budget: 500, quality: 3, sched: 7 }, Grant { budget: 20, quality: 9, sched: 63 }];
    assert_eq!(Machine::boot_with(32, 1 << 40, 1, &grants).err(), Some(Fault::Calls));
    assert_eq!(Machine::boot_with(32, 9, 0, &grants).err(), Some(Fault::Epochs));
    assert_eq!(Machine::boot_with(32, 9, 1, &[Grant { quality: 0, ..grants[0] }]).err(), Some(Fault::Grant));
    assert_eq!(Machine::boot_with(32, 9, 1, &[]).err(), Some(Fault::Cores));
    let mut machine = Machine::boot_with(32, 4, 1, &grants).expect("a machine");
    let (mut first, mut second) = (machine.deal().expect("core 0"), machine.deal().expect("core 1"));
    assert_eq!(first.gate(3, 1, 40), Ok(Value::Nothing));
    assert_eq!((first.send(40), first.send(40)), (Ok(Value::Nothing), Ok(Value::Nothing)));
    assert_eq!(second.recv(3), Ok(Value::Amount(2)));
    assert_eq!(second.recv(3), Ok(Value::Amount(0)));
    assert_eq!(second.recv(40).map_err(|it| it.why), Err(Why::WrongCap));
    assert_eq!(first.look(0).map(|_| ()), Ok(()));
    assert_eq!(first.send(40).map_err(|it| (it.why, it.advice)), Err((Why::CallsSpent, Advice::GiveUp))); // its look would be the fifth call
    machine.take_back(first).expect("core 0's");
    machine.take_back(second).expect("core 1's");
    let mut last = last_of(machine);
    assert_eq!((last.quality(6, 0), last.quality(7, 0)), (Ok(Quality { quality: 3, sched: 7 }), Ok(Quality { quality: 9, sched: 63 })));
    assert_eq!((last.budget(6), last.budget(7)), (Ok(500), Ok(20)));
    assert_eq!((last.quality(6, 1), last.quality(6, 8), last.budget(5)), (Err(Missing::Empty), Err(Missing::Outside), Err(Missing::OtherObject)));
    assert_eq!((last.live(0), last.live(1)), (Ok(Life::Live { epoch: 1, frame: 3 }), Err(Missing::Empty)));
    assert_eq!(last.comp(3).map(|it| (it.table, it.pages, it.live, it.epoch)), Ok((0, 2, 0, 1)));
    assert_eq!((last.stack(4, 0), last.stack(4, 1)), (Ok(3), Err(Missing::Empty)));
    assert_eq!(last.cached(0, 0), Err(Missing::Empty));
}

#[test]
fn what_is_refused_says_why_and_is_given_back() {
    assert_eq!(Machine::boot(9, 32, 100).err(), Some(Fault::Cores));
    assert_eq!(Machine::boot(2, 7, 100).err(), Some(Fault::Frames));
    assert_eq!(Machine::boot(2, 32, 500_000_001).err(), Some(Fault::Grant));
    let mut machine = Machine::boot(2, 32, 100).expect("a machine");
    let mut other = Machine::boot(1, 16, 100).expect("another");
    let (first, second) = (machine.deal().expect("core 0"), machine.deal().expect("core 1"));
    let mut others = other.deal().expect("its core");
    assert_eq!(machine.deal().err(), Some(Fault::AllDealt));
    let refused = machine.take_back(others).expect_err("a port of another machine");
    assert_eq!(refused.fault, Fault::OtherMachine);
    others = refused.it;
    let refused = machine.take_back(second).expect_err("core 0's comes first");
    assert_eq!(refused.fault, Fault::NotItsTurn);
    let mut second = refused.it;
    let refused = second.meet(others.note().expect("memory")).expect_err("a note of another machine");
    assert_eq!(refused.fault, Fault::OtherMachine);
    others.meet(refused.it).expect("its own note");
    machine.take_back(first).expect("core 0's");
    let refused = machine.finish().expect_err("core 1's port is out");
    assert_eq!(refused.fault, Fault::PortOut);
    let mut machine = refused.it;
    assert_eq!(second.look(60), Err(Refused { why: Why::Empty, advice: Advice::Change }));
    assert_eq!(second.tick(1_000_001), Err(Refused { why: Why::Outside, advice: Advice::Change }));
    assert_eq!(second.switch(4, 12), Err(Refused { why: Why::Running(0), advice: Advice::AwaitSwitch(0) }));
    assert_eq!(second.transfer(12, 13, 101), Err(Refused { why: Why::Short(100), advice: Advice::Change }));
    machine.take_back(second).expect("core 1's");
    assert!(last_of(machine).tables().is_ok());
}

#[test]
fn a_call_takes_no_memory_and_the_embedders_heap_serves_the_rest() {
    let before = BLOCKS.load(Ordering::SeqCst);
    let mut machine = Machine::boot(1, 16, 100).expect("a machine");
    let mut port = machine.deal().expect("its core");
    assert!(BLOCKS.load(Ordering::SeqCst) > before);
    assert_eq!(port.retype(0, 10, FrameKind::Kernel), Ok(Value::Nothing));
    assert_eq!(port.make_table(0, 10, 1, 30), Ok(Value::Nothing));
    drop(port);
}
