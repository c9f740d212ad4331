//! What the module holds between calls: blocks of bytes, desks, and what the last call gave.
use crate::Stop;
use crate::desk::Desk;
use core::cell::UnsafeCell;
use std::alloc::Global;
use std::vec::Vec;

/// Things by numbers from 1. A number that is free is given again.
pub struct Slots<T> {
    slots: Vec<Option<T>>,
}

impl<T> Slots<T> {
    const fn new() -> Slots<T> {
        Slots {
            slots: Vec::new(Global),
        }
    }

    /// The number of a new thing.
    pub fn add(&mut self, thing: T) -> Result<u32, Stop> {
        let free = self.slots.iter().position(Option::is_none);
        let at = match free {
            Some(at) => at,
            None => {
                self.slots.push(None)?;
                self.slots.len() - 1
            }
        };
        self.slots[at] = Some(thing);
        u32::try_from(at + 1).map_err(|_| Stop::Memory)
    }

    pub fn get(&mut self, number: u32) -> Result<&mut T, Stop> {
        let at = (number as usize).checked_sub(1).ok_or(Stop::Unknown)?;
        match self.slots.get_mut(at) {
            Some(Some(thing)) => Ok(thing),
            _ => Err(Stop::Unknown),
        }
    }

    pub fn remove(&mut self, number: u32) -> Result<T, Stop> {
        let at = (number as usize).checked_sub(1).ok_or(Stop::Unknown)?;
        self.slots
            .get_mut(at)
            .and_then(Option::take)
            .ok_or(Stop::Unknown)
    }
}

pub struct Held {
    pub blocks: Slots<Vec<u8>>,
    pub desks: Slots<Desk>,
    pub out: Vec<u8>,
    /// The status of the last `open`.
    pub opened: u32,
}

struct Cell(UnsafeCell<Held>);

// SAFETY: a module without shared memory has one thread.
unsafe impl Sync for Cell {}

static HELD: Cell = Cell(UnsafeCell::new(Held {
    blocks: Slots::new(),
    desks: Slots::new(),
    out: Vec::new(Global),
    opened: 0,
}));

/// What is held. Each call of the module takes it once, and none is made inside of another one.
pub fn held() -> &'static mut Held {
    // SAFETY: there is one thread, and only one call at a time has it.
    unsafe { &mut *HELD.0.get() }
}

/// Room for so many bytes, or nothing where there is no memory.
pub fn new_block(size: usize) -> Result<u32, Stop> {
    let block = Vec::from_elem(Global, 0, size)?;
    held().blocks.add(block)
}
