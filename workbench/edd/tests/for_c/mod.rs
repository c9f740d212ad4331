//! Random messages as a file, with what the library makes and takes of them, for `tools/c/exchanges.c`
//! to try over the library for C.
//!
//! All numbers are little-endian. A case is the image, the values of the device and those of the host,
//! how many replies carry each variable, the octets, and the trials: what the host takes from octets.

use crate::messages::{Item, REPLY, Variable, image_with, messages, values_of};
use edd::{Image, OctetsFault, Values, VarNo};
use proptest::collection::vec;
use proptest::prelude::*;
use std::cell::RefCell;
use std::fs::File;
use std::io::{BufWriter, Write};

/// Where the file is written.
const CASES: &str = "EDD_CASES";

/// Writes a file's numbers and lists.
#[derive(Default)]
struct Written {
    bytes: Vec<u8>,
}

impl Written {
    fn number(&mut self, number: u32) {
        self.bytes.extend(number.to_le_bytes());
    }

    fn count(&mut self, count: usize) {
        self.number(u32::try_from(count).expect("a small file"));
    }

    fn octets(&mut self, octets: &[u8]) {
        self.count(octets.len());
        self.bytes.extend(octets);
    }

    fn value(&mut self, value: i64) {
        self.bytes.extend(value.to_le_bytes());
    }

    fn values(&mut self, values: &[i64]) {
        self.count(values.len());
        values.iter().for_each(|value| self.value(*value));
    }

    /// Octets that came to the host, with the sets, or with the number of the fault and what it is of.
    fn trial(&mut self, image: &Image, host: &Values, octets: &[u8]) {
        self.octets(octets);
        match image.decode(REPLY, host, octets) {
            Ok(sets) => {
                self.number(0);
                self.count(sets.len());
                for (VarNo(variable), value) in sets {
                    self.number(variable.into());
                    self.value(value);
                }
            }
            Err(fault) => {
                self.number(fault.number().into());
                self.count(match fault {
                    OctetsFault::WrongConstant(place) => place,
                    OctetsFault::OutOfType(VarNo(variable)) => variable.into(),
                    _ => 0,
                });
            }
        }
    }
}

fn case(variables: &[Variable], items: &[Item], noise: &[u8]) -> Vec<u8> {
    let image = image_with(variables, items);
    let device = values_of(&image, variables, |it| it.device);
    let host = values_of(&image, variables, |it| it.host);
    let octets = image.encode(REPLY, &device).expect("octets");

    let mut written = Written::default();
    written.octets(image.bytes());
    for values in [&device, &host] {
        written.values(values.numbers());
    }
    for (number, _) in (0..).zip(variables) {
        let readers = image.readers(VarNo(number), &host).expect("readers");
        written.count(readers.len());
    }
    written.octets(&octets);

    let noise: Vec<u8> = noise.iter().copied().cycle().take(octets.len()).collect();
    let longer = [&octets[..], &[0]].concat();
    let shorter = octets.split_last().map(|(_, shorter)| shorter);
    let mut trials = vec![&octets[..], &noise, &longer];
    trials.extend(shorter);
    written.count(trials.len());
    for octets in trials {
        written.trial(&image, &host, octets);
    }
    written.bytes
}

#[test]
#[allow(
    clippy::disallowed_methods,
    reason = "no user's file: a folder of the tests has it"
)]
#[ignore = "it writes the messages that tools/c/exchanges.c tries: EDD_CASES names the file"]
fn messages_for_c() {
    let name = std::env::var_os(CASES).expect("EDD_CASES names a file");
    let file = RefCell::new(BufWriter::new(File::create(name).expect("a file")));
    let noise = vec(any::<u8>(), 1..24);
    crate::inputs::try_many(5000, (messages(), noise), |((variables, items), noise)| {
        let case = case(&variables, &items, &noise);
        file.borrow_mut()
            .write_all(&case)
            .expect("room on the disk");
    });
    file.into_inner().flush().expect("room on the disk");
}
