//! Locks: a ticket lock, an MCS lock, and the system's mutex. Unproved.

use std::cell::UnsafeCell;
use std::hint::spin_loop;
use std::ptr::null_mut;
use std::sync::Mutex;
use std::sync::atomic::{AtomicBool, AtomicPtr, AtomicU32, Ordering::*};

/// What guards a value. Each thread comes with a node of its own, which only the MCS lock uses.
pub trait Lock<T>: Sync + Send + 'static {
    fn new(value: T) -> Self;
    fn with<R>(&self, node: &Node, act: impl FnOnce(&mut T) -> R) -> R;
}

/// A thread's place in the queue of an MCS lock, on a line of memory of its own.
#[repr(align(128))]
pub struct Node {
    waits: AtomicBool,
    next: AtomicPtr<Node>,
}

impl Node {
    pub fn new() -> Node {
        Node { waits: AtomicBool::new(false), next: AtomicPtr::new(null_mut()) }
    }
}

/// A word on a line of memory of its own.
#[repr(align(128))]
struct Line<W>(W);

/// Each thread draws a number and waits until it is served.
pub struct Ticket<T> {
    drawn: Line<AtomicU32>,
    served: Line<AtomicU32>,
    value: UnsafeCell<T>,
}

unsafe impl<T: Send> Sync for Ticket<T> {}

impl<T: Send + 'static> Lock<T> for Ticket<T> {
    fn new(value: T) -> Ticket<T> {
        Ticket { drawn: Line(AtomicU32::new(0)), served: Line(AtomicU32::new(0)), value: UnsafeCell::new(value) }
    }

    fn with<R>(&self, _: &Node, act: impl FnOnce(&mut T) -> R) -> R {
        let mine = self.drawn.0.fetch_add(1, Relaxed);
        while self.served.0.load(Acquire) != mine {
            spin_loop();
        }
        let result = act(unsafe { &mut *self.value.get() });
        self.served.0.store(mine.wrapping_add(1), Release);
        result
    }
}

/// Threads stand in a queue, and each waits at a word of its own.
pub struct Mcs<T> {
    last: Line<AtomicPtr<Node>>,
    value: UnsafeCell<T>,
}

unsafe impl<T: Send> Sync for Mcs<T> {}
unsafe impl<T: Send> Send for Mcs<T> {}

impl<T: Send + 'static> Lock<T> for Mcs<T> {
    fn new(value: T) -> Mcs<T> {
        Mcs { last: Line(AtomicPtr::new(null_mut())), value: UnsafeCell::new(value) }
    }

    fn with<R>(&self, node: &Node, act: impl FnOnce(&mut T) -> R) -> R {
        let me = node as *const Node as *mut Node;
        node.next.store(null_mut(), Relaxed);
        node.waits.store(true, Relaxed);
        let before = self.last.0.swap(me, AcqRel);
        if !before.is_null() {
            unsafe { (*before).next.store(me, Release) };
            while node.waits.load(Acquire) {
                spin_loop();
            }
        }
        let result = act(unsafe { &mut *self.value.get() });
        if self.last.0.compare_exchange(me, null_mut(), Release, Relaxed).is_err() {
            let mut after = node.next.load(Acquire);
            while after.is_null() {
                spin_loop();
                after = node.next.load(Acquire);
            }
            unsafe { (*after).waits.store(false, Release) };
        }
        result
    }
}

impl<T: Send + 'static> Lock<T> for Mutex<T> {
    fn new(value: T) -> Mutex<T> {
        Mutex::new(value)
    }

    fn with<R>(&self, _: &Node, act: impl FnOnce(&mut T) -> R) -> R {
        act(&mut self.lock().expect("no holder has panicked"))
    }
}
