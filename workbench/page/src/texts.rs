//! Texts of the communicator, as `edd open` prints them.
use edd_device::{Device, DeviceFault};
use edd_loader::Image;
use edd_syntax::answer::Trap;
use edd_syntax::numbers::ItemNo;
use legacy_panel_lines::{TextSink, push_content, push_trap, push_words};
use legacy_screens::{Content, Words};
use std::alloc::{AllocError, Global};
use std::string::String;

pub fn words_text(words: Words<'_>) -> Result<String, AllocError> {
    let mut text = TextSink::new(Global);
    push_words(&mut text, words);
    text.finish()
}

pub fn optional_text(words: Option<Words<'_>>) -> Result<Option<String>, AllocError> {
    words.map(words_text).transpose()
}

pub fn content_text(content: &Content<'_>) -> Result<String, AllocError> {
    let mut text = TextSink::new(Global);
    push_content(&mut text, content);
    text.finish()
}

pub fn trap_text(trap: Trap) -> Result<String, AllocError> {
    let mut text = TextSink::new(Global);
    push_trap(&mut text, trap);
    text.finish()
}

/// The name of an item.
pub fn name_text(image: &Image<'_>, item: ItemNo) -> Result<String, AllocError> {
    String::from_str(Global, image.name(item).unwrap_or(""))
}

/// A fault of a device, and the name of what it is about.
pub fn device_fault_text(
    device: &Device<'_, '_>,
    fault: DeviceFault,
) -> Result<String, AllocError> {
    let name = match fault {
        DeviceFault::Asks(method)
        | DeviceFault::Aborts(method)
        | DeviceFault::RunsOn(method)
        | DeviceFault::Traps(method, _) => device.image().name(ItemNo::Method(method)),
        DeviceFault::NoMessage(command, _) => device.instrument().name(ItemNo::Command(command)),
        DeviceFault::OutOfRange(variable) => device.instrument().name(ItemNo::Variable(variable)),
        DeviceFault::NoCommand(number) => return std::format!(in Global; "{fault} {number}"),
        DeviceFault::NoTransaction(number, transaction) => {
            return std::format!(in Global; "{fault} {number} {transaction}");
        }
        DeviceFault::WrongCode | DeviceFault::Memory => None,
    };
    match name {
        Some(name) => std::format!(in Global; "{fault} {name}"),
        None => std::format!(in Global; "{fault}"),
    }
}
