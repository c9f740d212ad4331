//! An allocator over the pages of the module: a list of free blocks for each power of two.
use core::alloc::{GlobalAlloc, Layout};
use core::arch::wasm32::{memory_grow, memory_size};
use core::cell::UnsafeCell;
use core::ptr::null_mut;

const PAGE: usize = 1 << 16;

struct Lists {
    /// The first free block of each size.
    free: [*mut u8; 32],
    /// Where the next new block begins, and where the memory ends.
    next: usize,
    end: usize,
}

struct Pages(UnsafeCell<Lists>);

// SAFETY: a module without shared memory has one thread.
unsafe impl Sync for Pages {}

#[global_allocator]
static PAGES: Pages = Pages(UnsafeCell::new(Lists {
    free: [null_mut(); 32],
    next: 0,
    end: 0,
}));

/// The power of two that holds a block, which is aligned to it up to a page; none from 2 GiB on.
fn class(layout: Layout) -> Option<usize> {
    let size = layout
        .size()
        .max(layout.align())
        .max(8)
        .checked_next_power_of_two()?;
    let class = size.trailing_zeros() as usize;
    (class < 31 && layout.align() <= PAGE).then_some(class)
}

impl Lists {
    fn new_block(&mut self, size: usize) -> Option<*mut u8> {
        if self.next == 0 {
            self.next = memory_size(0) * PAGE;
            self.end = self.next;
        }
        let at = self.next.checked_next_multiple_of(size.min(PAGE))?;
        let end = at.checked_add(size)?;
        if end > self.end {
            let pages = (end - self.end).div_ceil(PAGE);
            if memory_grow(0, pages) == usize::MAX {
                return None;
            }
            self.end += pages * PAGE;
        }
        self.next = end;
        Some(core::ptr::with_exposed_provenance_mut(at))
    }
}

// SAFETY: a block is given once until it comes back, and it is as large and as aligned as is asked.
unsafe impl GlobalAlloc for Pages {
    unsafe fn alloc(&self, layout: Layout) -> *mut u8 {
        let Some(class) = class(layout) else {
            return null_mut();
        };
        // SAFETY: nothing else holds the lists, since there is one thread and no call inside of this one.
        let lists = unsafe { &mut *self.0.get() };
        let first = lists.free[class];
        if first.is_null() {
            return lists.new_block(1 << class).unwrap_or(null_mut());
        }
        // SAFETY: a free block holds the place of the next one.
        lists.free[class] = unsafe { first.cast::<*mut u8>().read() };
        first
    }

    unsafe fn dealloc(&self, block: *mut u8, layout: Layout) {
        let Some(class) = class(layout) else {
            return;
        };
        // SAFETY: as above, and a block has room for the place of the next one.
        unsafe {
            let lists = &mut *self.0.get();
            block.cast::<*mut u8>().write(lists.free[class]);
            lists.free[class] = block;
        }
    }
}
