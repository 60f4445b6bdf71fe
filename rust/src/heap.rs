//! The library's memory, from the global allocator. A block's size stands before it, since the library gives a block back by its address alone.

extern crate alloc;

use alloc::alloc::{Layout, alloc, dealloc, realloc};
use core::ptr::null_mut;

#[repr(C)]
pub struct Got {
    is_some: u64,
    at: *mut u8,
}

const BEFORE: usize = 16;

fn layout(size: usize) -> Option<Layout> {
    Layout::from_size_align(size.checked_add(BEFORE)?, BEFORE).ok()
}

unsafe fn got(block: *mut u8, size: usize) -> Got {
    if block.is_null() {
        return Got { is_some: 0, at: null_mut() };
    }
    unsafe { block.cast::<usize>().write(size) };
    Got { is_some: 1, at: unsafe { block.add(BEFORE) } }
}

#[unsafe(no_mangle)]
unsafe extern "C" fn rattle_alloc(size: usize, _align: usize) -> Got {
    match layout(size) {
        Some(it) => unsafe { got(alloc(it), size) },
        None => Got { is_some: 0, at: null_mut() },
    }
}

#[unsafe(no_mangle)]
unsafe extern "C" fn rattle_realloc(at: *mut u8, _old: usize, size: usize, _align: usize) -> Got {
    let block = unsafe { at.sub(BEFORE) };
    let old = unsafe { block.cast::<usize>().read() };
    match (layout(old), layout(size)) {
        (Some(was), Some(it)) => unsafe { got(realloc(block, was, it.size()), size) },
        _ => Got { is_some: 0, at: null_mut() },
    }
}

#[unsafe(no_mangle)]
unsafe extern "C" fn rattle_dealloc(at: *mut u8) {
    let block = unsafe { at.sub(BEFORE) };
    let size = unsafe { block.cast::<usize>().read() };
    if let Some(it) = layout(size) {
        unsafe { dealloc(block, it) };
    }
}
