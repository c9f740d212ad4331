//! Memory of a fixed size. What was taken last is given back; all else stays until the end.
use core::alloc::{GlobalAlloc, Layout};
use core::cell::UnsafeCell;
use core::ptr::null_mut;

const SIZE: usize = 32 * 1024;

#[repr(align(16))]
struct Room([u8; SIZE]);

struct Memory {
    room: UnsafeCell<Room>,
    taken: UnsafeCell<usize>,
}

// SAFETY: there is one thread, and nothing that interrupts takes memory.
unsafe impl Sync for Memory {}

#[global_allocator]
static MEMORY: Memory = Memory {
    room: UnsafeCell::new(Room([0; SIZE])),
    taken: UnsafeCell::new(0),
};

// SAFETY: each block lies behind what is taken, is as large and as aligned as is asked, and in the room.
unsafe impl GlobalAlloc for Memory {
    unsafe fn alloc(&self, layout: Layout) -> *mut u8 {
        // SAFETY: nothing else holds the count.
        let taken = unsafe { &mut *self.taken.get() };
        let Some(start) = taken.checked_next_multiple_of(layout.align()) else {
            return null_mut();
        };
        match start.checked_add(layout.size()) {
            Some(end) if end <= SIZE && layout.align() <= 16 => {
                *taken = end;
                // SAFETY: the place is in the room.
                unsafe { self.room.get().cast::<u8>().add(start) }
            }
            _ => null_mut(),
        }
    }

    unsafe fn dealloc(&self, block: *mut u8, layout: Layout) {
        // SAFETY: nothing else holds the count, and the block lies in the room.
        unsafe {
            let taken = &mut *self.taken.get();
            let start = block.offset_from(self.room.get().cast::<u8>()) as usize;
            if start + layout.size() == *taken {
                *taken = start;
            }
        }
    }
}
