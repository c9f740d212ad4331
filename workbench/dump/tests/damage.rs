//! Dumps of whole, cut and damaged images: each ends, and names the fault that `load` has.

#![allow(clippy::expect_used, reason = "a test fails by a panic")]

use core_std::alloc::Global;
use edd_compiler::compile;
use edd_dump::Dump;
use edd_loader::load;

/// A description with each kind of item, and an array, which makes the image one of version 2.
const SOURCE: &str = r#"MANUFACTURER 1, DEVICE_TYPE 2, DEVICE_REVISION 3, DD_REVISION 4
VARIABLE flow
{
  LABEL "|en|Flow|de|Durchfluß"; HELP [flow_help]; CLASS LOCAL & DYNAMIC;
  TYPE INTEGER (2) { MIN_VALUE -5; MAX_VALUE IF (mode == 1) { 100; } ELSE { mode * 7 % 50; } }
  HANDLING SELECT (mode) { CASE 1: READ; CASE 2: WRITE; DEFAULT: READ & WRITE; }
}
VARIABLE mode { TYPE ENUMERATED { { 0, "Off" } { 1, "On", "It runs" } } }
COMMAND read
{
  NUMBER 1; OPERATION READ;
  TRANSACTION { REQUEST { 7, mode <0x0F> (INFO) } REPLY { flow } }
  RESPONSE_CODES { 0, SUCCESS, "Done"; 8, MISC_ERROR, "Failed"; }
}
MENU main { LABEL "Main"; ITEMS { flow (READ_ONLY), all.first, reset } }
COLLECTION OF VARIABLE all { MEMBERS { first, flow, "First"; second, mode; } }
ARRAY OF VARIABLE channels { LABEL "Channels"; ELEMENTS { 1, flow; 5, mode, "Mode"; } }
METHOD stop { DEFINITION { send_command(2); } }
METHOD reset
{
  LABEL "Reset"; VALIDITY IF (flow > 3 && mode != 2) { TRUE; } ELSE { FALSE; }
  DEFINITION
  {
    int n;
    add_abort_method(stop);
    n = flow << 2;
    while (n > 0) { n--; flow = channels[1]; }
    GET_DEV_VAR_VALUE("Value?", mode);
    abort();
  }
}
"#;

/// Pseudorandom numbers from a fixed seed.
struct Random(u64);

impl Random {
    fn next(&mut self) -> u64 {
        self.0 = self.0.wrapping_mul(6_364_136_223_846_793_005);
        self.0 = self.0.wrapping_add(1_442_695_040_888_963_407);
        self.0 >> 33
    }

    fn byte(&mut self) -> u8 {
        self.next().to_le_bytes()[0]
    }

    /// A place below a length that is not 0.
    fn place(&mut self, length: usize) -> usize {
        let length = u64::try_from(length).expect("a length");
        let place = self.next().checked_rem(length);
        usize::try_from(place.expect("a length that is not 0")).expect("a place")
    }
}

fn image() -> Vec<u8> {
    let compiled = compile(Global, SOURCE.as_bytes());
    compiled.expect("a description").into_real()
}

/// Dumps bytes and compares the fault with that of `load`.
fn check(bytes: &[u8]) {
    let dump = Dump::new(bytes);
    let wanted = load(Global, bytes).err();
    assert_eq!(dump.fault(), wanted);
    let lines = dump.to_string();
    assert!(lines.is_empty() || lines.ends_with('\n'));
    let faults = lines.lines().filter(|line| line.starts_with("fault "));
    assert_eq!(faults.count(), usize::from(wanted.is_some()));
    let last = lines.lines().next_back().unwrap_or_default();
    assert_eq!(last.starts_with("fault "), wanted.is_some());
}

#[test]
fn a_whole_image_has_no_fault() {
    let image = image();
    check(&image);
    let lines = Dump::new(&image).to_string();
    for line in [
        "header version 2",
        "variable 0 flow INTEGER 2",
        "element 1 array 0 channels number 5 variable 1 mode",
        "string 0 en \"Flow\" de \"Durchfluß\"",
        "row 19 method 1 reset DEFINITION slots 1 start 314 length 91",
        "  9 AddAbortMethod 0 stop",
    ] {
        assert!(lines.lines().any(|it| it == line), "{line}\n{lines}");
    }
}

#[test]
fn each_beginning_has_a_fault() {
    let image = image();
    for end in 0..image.len() {
        check(image.get(..end).expect("a beginning"));
    }
}

#[test]
fn damage_is_said_as_load_says_it() {
    let image = image();
    let mut random = Random(7);
    for _ in 0..20_000 {
        let mut bytes = image.clone();
        for _ in 0..=random.place(3) {
            // The header is a small part of the image, and has most of the rules.
            let length = [64, image.len()][random.place(2)];
            let place = random.place(length);
            bytes[place] = [random.byte(), bytes[place] ^ 1][random.place(2)];
        }
        check(&bytes);
    }
}

#[test]
fn any_bytes_have_a_dump() {
    let mut random = Random(11);
    for _ in 0..5_000 {
        let length = random.place(150);
        let mut bytes: Vec<u8> = (0..length).map(|_| random.byte()).collect();
        check(&bytes);
        bytes.splice(..0, *b"EDI1\0\x02\0\0\0\0\0\x40");
        check(&bytes);
    }
}
