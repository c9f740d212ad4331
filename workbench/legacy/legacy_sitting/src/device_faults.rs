//! What is said where a simulated device has no answer.
use std::prelude::v1::*;

use edd_device::DeviceFault;
use edd_display::trap_word;
use edd_loader::Image;
use edd_sinks::TextSink;
use edd_syntax::numbers::ItemNo;
use std::alloc::{AllocError, Global};

fn push_name(text: &mut TextSink, image: &Image<'_>, item: ItemNo) {
    write!(text, " {}", image.name(item).unwrap_or(""));
}

/// A fault of a device, with what it is about: a method of the device, or what the instrument has.
pub fn fault_text(
    alloc: Global,
    instrument: &Image<'_>,
    device: &Image<'_>,
    fault: DeviceFault,
) -> Result<String, AllocError> {
    let mut text = TextSink::new(alloc);
    write!(text, "{fault}");
    match fault {
        DeviceFault::Asks(method) | DeviceFault::Aborts(method) | DeviceFault::RunsOn(method) => {
            push_name(&mut text, device, ItemNo::Method(method));
        }
        DeviceFault::Traps(method, why) => {
            push_name(&mut text, device, ItemNo::Method(method));
            write!(text, " {}", trap_word(why));
        }
        DeviceFault::NoCommand(number) => write!(text, " {number}"),
        DeviceFault::NoTransaction(number, transaction) => write!(text, " {number} {transaction}"),
        DeviceFault::NoMessage(command, why) => {
            push_name(&mut text, instrument, ItemNo::Command(command));
            write!(text, " {}", trap_word(why));
        }
        DeviceFault::OutOfRange(variable) => {
            push_name(&mut text, instrument, ItemNo::Variable(variable));
        }
        DeviceFault::WrongCode | DeviceFault::Memory => {}
    }
    text.finish()
}
