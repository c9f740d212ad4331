//! The memory of the library: what the three functions of the program around it give.
use core::alloc::{GlobalAlloc, Layout};
use core::ptr::null_mut;

#[repr(C)]
struct Block {
    is_given: bool,
    place: *mut u8,
}

unsafe extern "C" {
    fn rattle_alloc(size: usize, alignment: usize) -> Block;
    fn rattle_realloc(block: *mut u8, kept: usize, size: usize, alignment: usize) -> Block;
    fn rattle_dealloc(block: *mut u8);
}

struct Memory;

#[global_allocator]
static MEMORY: Memory = Memory;

impl Block {
    fn place(self) -> *mut u8 {
        if self.is_given {
            self.place
        } else {
            null_mut()
        }
    }
}

// SAFETY: the header asks for blocks that are as large and as aligned as is asked.
unsafe impl GlobalAlloc for Memory {
    unsafe fn alloc(&self, layout: Layout) -> *mut u8 {
        unsafe { rattle_alloc(layout.size(), layout.align()) }.place()
    }

    unsafe fn dealloc(&self, block: *mut u8, _: Layout) {
        unsafe { rattle_dealloc(block) }
    }

    unsafe fn realloc(&self, block: *mut u8, layout: Layout, size: usize) -> *mut u8 {
        let kept = layout.size().min(size);
        unsafe { rattle_realloc(block, kept, size, layout.align()) }.place()
    }
}
