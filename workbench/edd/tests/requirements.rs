//! What contracts of the core ask of their callers, and that the library's calls keep it.
//!
//! Each test names a call of the core and its `requires`, and tries the library's call with what it
//! must not get. Calls that cannot be written are the `compile_fail` examples in
//! `src/unwritable.rs`. The calls of the core that the library uses and that are named in neither
//! ask for nothing: `named.rs` reads that in the core's sources.

#![allow(
    clippy::arithmetic_side_effects,
    clippy::expect_used,
    clippy::indexing_slicing,
    clippy::panic,
    reason = "a test fails by a panic"
)]

mod common;

use common::{IMAGES, image_of, methods};
use edd::{
    Answer, AnswerFault, Attr, AttrRef, Carried, CmdNo, Command, Device, DeviceFault, Drive,
    EditFault, Happened, Host, Image, ItemNo, LoadFault, MenuNo, Message, MessageField, MethNo,
    OctetsFault, Panel, PlayFault, ReadFault, Request, Session, SetFault, Side, StartFault, StrNo,
    Turn, Values, ValuesFault, VarNo, WrongValues, drive, play,
};
use std::convert::Infallible;

const ASKING: &str = "VARIABLE p { TYPE INTEGER (1); } \
    COMMAND c { NUMBER 1; OPERATION READ; TRANSACTION { REPLY { p } } } \
    METHOD m { DEFINITION { send_command(1); p = p + 1; } }";

/// Another image with one variable, whose range is larger.
const OTHER: &str = "VARIABLE p { TYPE INTEGER (4); } METHOD m { DEFINITION { p = 1; } }";

const METHOD: MethNo = MethNo(0);

/// Values of another image, which has as many variables.
fn others() -> Values {
    Values::new(&image_of(OTHER), &[1_000_000]).expect("values")
}

fn attribute_of(item: ItemNo, attr: Attr) -> AttrRef {
    AttrRef { item, attr, sub: 0 }
}

/// `edd_loader::reopen` asks for the bytes of a valid image.
#[test]
fn reopen_gets_bytes_that_load_has_accepted() {
    for image in IMAGES.iter() {
        let bytes = image.bytes();
        assert!(Image::load(bytes).is_ok());
        for length in (0..bytes.len()).step_by(7) {
            Image::load(&bytes[..length]).expect_err("an image that is cut is refused");
        }
        let longer = [bytes, &[0]].concat();
        assert_eq!(Image::load(longer), Err(LoadFault::Length));
    }
    assert_eq!(Image::load(Vec::new()), Err(LoadFault::Short));
    assert_eq!(Image::load([0; 64].as_slice()), Err(LoadFault::Magic));
}

/// The same: of an image that is damaged in one byte only what `load` accepts becomes an [`Image`],
/// and all of that can be read.
#[test]
fn reopen_of_damaged_images() {
    let image = image_of(ASKING);
    let mut accepted = 0;
    for place in 0..image.bytes().len() {
        for byte in [0, 1, 0x7F, 0xFF] {
            let mut bytes = image.bytes().to_vec();
            bytes[place] = byte;
            if let Ok(image) = Image::load(bytes) {
                read_all(&image);
                accepted += 1;
            }
        }
    }
    assert!(accepted > 0, "some damage makes another image");
}

/// Reads each attribute of each item.
fn read_all(image: &Image) {
    let values = image.start_values();
    for item in image.items() {
        for number in 0..=u8::MAX {
            if let Some(attr) = Attr::from_number(number) {
                let _ = image.attribute(attribute_of(item.number, attr), &values);
            }
        }
    }
}

/// `element_array`, `element_number` and `element_variable` of `edd_image` ask for a row that is
/// whole.
#[test]
fn rows_of_elements_are_whole() {
    for image in IMAGES.iter() {
        for array in (0..u16::MAX).map(edd::ArrNo).step_by(251) {
            let count = image.elements(array).count();
            assert!(count == 0 || array.0 < image.counts().arrays);
        }
    }
}

/// The core's `Image::name`, `text`, `variable` and `element` ask for nothing, and look up what is
/// not there.
#[test]
fn items_that_are_not_there() {
    let image = image_of(ASKING);
    let beyond = u16::MAX;
    assert!(image.item(ItemNo::Variable(VarNo(beyond))).is_none());
    assert!(image.item(ItemNo::Menu(MenuNo(0))).is_none());
    assert!(image.variable(VarNo(1)).is_none());
    assert!(image.element(edd::ArrNo(beyond), i64::MIN).is_none());
    assert!(image.text(StrNo(beyond), "en").is_none());
    assert!(image.find("no such name").is_none());
}

/// `edd_machine::attribute_of_device`, `edd_panel::read` and `Page::label`, `Page::help` of
/// `legacy_screens` ask for values of a device of the image.
#[test]
fn attributes_get_values_of_their_image() {
    let image = image_of(ASKING);
    let p = ItemNo::Variable(VarNo(0));
    let label = attribute_of(p, Attr::Label);
    assert_eq!(
        image.attribute(label, &others()),
        Err(ReadFault::WrongValues)
    );
    assert_eq!(image.label(p, "en", &others()), Err(ReadFault::WrongValues));
    assert_eq!(image.help(p, "en", &others()), Err(ReadFault::WrongValues));
    assert_eq!(image.validity(p, &others()), Err(ReadFault::WrongValues));
    assert_eq!(image.handling(p, &others()), Err(ReadFault::WrongValues));

    let values = image.values();
    let absent = ItemNo::Command(CmdNo(9));
    assert_eq!(image.label(absent, "en", &values), Err(ReadFault::NoItem));
    assert_eq!(image.help(absent, "en", &values), Err(ReadFault::NoItem));
    let body = attribute_of(ItemNo::Method(METHOD), Attr::Definition);
    assert_eq!(image.attribute(body, &values), Err(ReadFault::NoItem));
    let transaction = AttrRef {
        sub: 9,
        ..attribute_of(ItemNo::Command(CmdNo(0)), Attr::Reply)
    };
    assert_eq!(
        image.attribute(transaction, &values),
        Err(ReadFault::NoItem)
    );
}

/// `encode`, `decode`, `message_fields`, `readers` and `writers` of `edd_octets` ask for nothing. With
/// values of another image, or for what is not there, the library refuses as with attributes.
#[test]
fn octets_are_those_of_messages_and_values_of_the_image() {
    let image = image_of(ASKING);
    let reply = Message {
        command: CmdNo(0),
        position: 0,
        side: Side::Reply,
    };
    let (values, others) = (image.values(), others());
    let wrong = ReadFault::WrongValues;
    let refused = OctetsFault::Read(wrong);
    assert_eq!(image.encode(reply, &others), Err(refused));
    assert_eq!(image.decode(reply, &others, &[0]), Err(refused));
    assert_eq!(image.message_fields(reply, &others), Err(refused));
    assert_eq!(image.readers(VarNo(0), &others), Err(wrong));
    assert_eq!(image.writers(VarNo(0), &others), Err(wrong));

    let absent = OctetsFault::Read(ReadFault::NoItem);
    for (command, position) in [(1, 0), (u16::MAX, 0), (0, 1), (0, u16::MAX)] {
        let message = Message {
            command: CmdNo(command),
            position,
            ..reply
        };
        assert_eq!(image.encode(message, &values), Err(absent));
        assert_eq!(image.decode(message, &values, &[]), Err(absent));
        assert_eq!(image.message_fields(message, &values), Err(absent));
    }
    assert_eq!(image.readers(VarNo(0), &values), Ok(vec![reply]));
    assert_eq!(image.readers(VarNo(u16::MAX), &values), Ok(Vec::new()));
    assert_eq!(image.writers(VarNo(0), &values), Ok(Vec::new()));
}

/// `number_of` of `edd_octets` wants at most four octets. A field gives it as many as its width, and none
/// where a caller made that wider.
#[test]
fn a_field_has_at_most_four_octets() {
    let octets = [1, 2, 3, 4, 5, 6];
    for width in 0..octets.len() {
        let field = MessageField {
            width,
            carries: Carried::Constant(0),
        };
        for length in 0..octets.len() {
            let number = field.number_in(&octets[..length]);
            let expected = [0, 0x1, 0x102, 0x0001_0203, 0x0102_0304];
            let is_whole = length == width && width < expected.len();
            assert_eq!(
                number,
                is_whole.then(|| expected[width]),
                "{length} of {width}"
            );
        }
    }
}

/// What is decoded is a value that `Values` takes, so that a host can set it.
#[test]
fn what_is_decoded_is_in_range() {
    let image = image_of(ASKING);
    let reply = Message {
        command: CmdNo(0),
        position: 0,
        side: Side::Reply,
    };
    for octet in 0..=u8::MAX {
        let mut values = image.values();
        for (variable, value) in image.decode(reply, &values, &[octet]).expect("sets") {
            values.set(variable, value).expect("a value in range");
        }
        assert_eq!(image.encode(reply, &values), Ok(vec![octet]));
    }
    for octets in [&[][..], &[1, 2], &[0; 300]] {
        image
            .decode(reply, &image.values(), octets)
            .expect_err("one octet");
    }
}

/// Whoever asks for values of a device means numbers that are as many as the variables and in their
/// ranges.
#[test]
fn values_are_always_in_range() {
    let image = image_of(ASKING);
    assert_eq!(Values::new(&image, &[]), Err(ValuesFault::Count));
    assert_eq!(Values::new(&image, &[0, 0]), Err(ValuesFault::Count));
    assert_eq!(Values::new(&image, &[128]), Err(ValuesFault::Range));
    assert_eq!(Values::with_defaults(&image, &[]), Err(ValuesFault::Count));
    assert_eq!(
        Values::with_defaults(&image, &[Some(-129)]),
        Err(ValuesFault::Range)
    );
    let mut values = image.values();
    assert_eq!(values.set(VarNo(0), i64::MAX), Err(SetFault::OutOfRange));
    assert_eq!(values.set(VarNo(1), 0), Err(SetFault::BadVariable));
    assert_eq!(values, image.values());
    for image in IMAGES.iter() {
        let opened = edd_loader::load(core_std::alloc::Global, image.bytes()).expect("an image");
        for values in [image.values(), image.start_values()] {
            assert!(edd_machine::are_values(&opened, values.numbers()));
        }
    }
}

/// Values of an image with the same bytes are values of the image.
#[test]
fn values_of_an_equal_image_are_accepted() {
    let (one, other) = (image_of(ASKING), image_of(ASKING));
    let p = ItemNo::Variable(VarNo(0));
    assert!(one.label(p, "en", &other.values()).is_ok());
    assert!(Session::start(&one, METHOD, other.values()).is_ok());
}

/// `edd_port::Session::resume` takes nothing but a state of the method's body, and `Machine::open`
/// asks for at most 64 slots: no session is made but by `Session::start`.
#[test]
fn sessions_start_with_a_method_and_its_values() {
    let image = image_of(ASKING);
    let (fault, values) = Session::start(&image, MethNo(1), image.values()).expect_err("no method");
    assert_eq!((fault, values), (StartFault::NoItem, image.values()));
    let (fault, values) = Session::start(&image, METHOD, others()).expect_err("other values");
    assert_eq!((fault, values), (StartFault::WrongValues, others()));
}

/// `edd_port::make_sets` asks for variables that are there, and `go_on` for a request that is
/// pending.
#[test]
fn answers_meet_a_request_and_set_what_is_there() {
    let image = image_of(ASKING);
    let mut session = Session::start(&image, METHOD, image.values()).expect("a session");
    assert_eq!(session.answer(&Answer::Abort), Err(AnswerFault::NotAsking));
    assert_eq!(session.advance(100), Turn::Asks(Request::SendCommand(1)));
    assert_eq!(set(&mut session, 1, 0), Err(AnswerFault::BadVariable));
    assert_eq!(set(&mut session, 0, 128), Err(AnswerFault::OutOfRange));
    assert_eq!(session.turn(), Turn::Asks(Request::SendCommand(1)));
    assert_eq!(session.values(), &image.values());
    assert_eq!(set(&mut session, 0, 127), Ok(()));
    assert_eq!(session.advance(100), Turn::Ended);
    assert_eq!(set(&mut session, 0, 0), Err(AnswerFault::NotAsking));
    // The sum is wrapped where it is stored.
    assert_eq!(session.into_values().numbers(), [-128]);
}

fn set(session: &mut Session, variable: u16, value: i64) -> Result<(), AnswerFault> {
    session.answer(&Answer::Go {
        code: i32::MIN,
        sets: vec![(VarNo(variable), value)],
    })
}

/// A host that gives an answer, or panics.
struct Given(Option<Answer>);

impl Host for Given {
    type Error = Infallible;

    fn reply(&mut self, _: &Request) -> Result<Option<Answer>, Infallible> {
        Ok(Some(self.0.clone().expect("the host panics")))
    }
}

/// `edd_port::Host` asks for a book: what a host gives is the last answer that it has noted.
#[test]
fn hosts_that_answer_wrongly() {
    let image = image_of(ASKING);
    let mut session = Session::start(&image, METHOD, image.values()).expect("a session");
    let answer = Answer::Go {
        code: 0,
        sets: vec![(VarNo(7), 0)],
    };
    let end = drive(&mut session, &mut Given(Some(answer)), 100);
    assert_eq!(end, Drive::Refused(AnswerFault::BadVariable));
    assert_eq!(session.turn(), Turn::Asks(Request::SendCommand(1)));
}

/// A host that answers with 1, then with 2.
struct Counting(i32);

impl Host for Counting {
    type Error = Infallible;

    fn reply(&mut self, _: &Request) -> Result<Option<Answer>, Infallible> {
        self.0 += 1;
        Ok(Some(Answer::code(self.0)))
    }
}

/// The same: each request gets the answer that was given to it.
#[test]
fn hosts_that_answer_twice() {
    let body = "VARIABLE p { TYPE INTEGER (1); } \
        METHOD m { DEFINITION { p = send_command(1); p = 10 * p + send_command(2); } }";
    let image = image_of(body);
    let mut session = Session::start(&image, METHOD, image.values()).expect("a session");
    let end = drive(&mut session, &mut Counting(0), 100);
    assert_eq!(end, Drive::Done(Turn::Ended));
    assert_eq!(session.into_values().numbers(), [12]);
}

/// A host that panics leaves the session where it asked, so that its state is still one of the
/// method.
#[test]
fn hosts_that_panic() {
    let image = image_of(ASKING);
    let mut session = Session::start(&image, METHOD, image.values()).expect("a session");
    let unwound = std::panic::catch_unwind(std::panic::AssertUnwindSafe(|| {
        drive(&mut session, &mut Given(None), 100)
    }));
    assert!(unwound.is_err());
    assert_eq!(session.turn(), Turn::Asks(Request::SendCommand(1)));
    assert_eq!(session.values(), &image.values());
    let end = drive(&mut session, &mut Given(Some(Answer::code(0))), 100);
    assert_eq!(end, Drive::Done(Turn::Ended));
}

/// `edd_port::execute_some` and `fault_of_refused` ask for a session that runs or asks: `play` is
/// given what does neither.
#[test]
fn plays_of_what_is_not_there() {
    let image = image_of(ASKING);
    let played = |method, values, answers: &[Answer]| play(&image, method, values, answers, 100);
    assert_eq!(
        played(MethNo(7), image.values(), &[]),
        Err(PlayFault::NoItem)
    );
    assert_eq!(played(METHOD, others(), &[]), Err(PlayFault::WrongValues));
    let wrong = |variable, value| Answer::Go {
        code: 0,
        sets: vec![(VarNo(variable), value)],
    };
    assert_eq!(
        played(METHOD, image.values(), &[wrong(1, 0)]),
        Err(PlayFault::BadVariable)
    );
    assert_eq!(
        played(METHOD, image.values(), &[wrong(0, 300)]),
        Err(PlayFault::OutOfRange)
    );
    let left_over = [Answer::code(0), Answer::Abort, wrong(1, 0)];
    assert!(played(METHOD, image.values(), &left_over).is_ok());
}

/// `edd_device::Device::reply` asks for values of the instrument.
#[test]
fn devices_get_values_of_their_instrument() {
    let (instrument, other) = (image_of(ASKING), image_of(OTHER));
    let (opened, simulation) = (instrument.open(), other.open());
    let mut device = Device::start(&opened, &simulation);
    let request = Request::SendCommand(1);
    assert_eq!(
        device.reply(&request, &others()),
        Err(DeviceFault::WrongValues)
    );
    let played = device.play(METHOD, others(), &[], 100);
    assert_eq!(played.expect_err("other values"), PlayFault::WrongValues);
    let played = device.play(MethNo(9), instrument.values(), &[], 100);
    assert_eq!(played.expect_err("no method"), PlayFault::NoItem);
    assert!(device.reply(&request, &instrument.values()).is_ok());
}

/// A device may be made of any two images, and gets any request.
#[test]
fn devices_of_other_instruments() {
    for one in IMAGES.iter() {
        let (instrument, values) = (one.open(), one.start_values());
        for other in IMAGES.iter() {
            let simulation = other.open();
            let mut device = Device::start(&instrument, &simulation);
            for request in odd_requests() {
                let _ = device.reply(&request, &values);
            }
        }
    }
}

/// Requests with numbers that no image has.
fn odd_requests() -> [Request; 8] {
    let (string, variable) = (StrNo(u16::MAX), VarNo(u16::MAX));
    [
        Request::PutMessage(string),
        Request::Acknowledge(string),
        Request::Delay(i32::MIN, string),
        Request::GetDevVarValue(string, variable),
        Request::SelectFromList(string, string),
        Request::SendCommand(i32::MAX),
        Request::SendCommandTrans(i32::MIN, -1),
        Request::SaveValues,
    ]
}

/// `edd_panel::read`, `rules_of`, `list_entries` and all of `legacy_screens` ask for values of the
/// image: a panel is opened with no others, and `edd_panel::set` gets a variable of a screen alone.
#[test]
fn panels_get_values_of_their_image() {
    let image = image_of(ASKING);
    let opened = image.open();
    let refused = Panel::open(&opened, "en", others()).expect_err("other values");
    assert_eq!(refused, WrongValues(others()));
    let fitting = image_of(OTHER).values();
    let refused = Panel::open(&opened, "en", fitting.clone()).expect_err("other values");
    assert_eq!(refused, WrongValues(fitting));
    let mut panel = Panel::open(&opened, "", image.values()).expect("a panel");
    assert_eq!(panel.perform(Command::Number(i64::MIN)), Happened::NoEntry);
    assert_eq!(panel.perform(Command::Number(1)), Happened::Moved);
    let refused = Happened::Refused(EditFault::OutOfType);
    assert_eq!(panel.perform(Command::Number(128)), refused);
    assert_eq!(panel.answer(&Answer::Abort), Err(AnswerFault::NotAsking));
    assert_eq!(panel.advance(100), None);
}

/// `edd_panel::replies::reply` asks for a session of the panel's image, which it has started
/// itself.
#[test]
fn panels_run_methods_of_their_image() {
    let image = image_of(ASKING);
    let opened = image.open();
    let mut panel = Panel::open(&opened, "en", image.values()).expect("a panel");
    assert_eq!(panel.perform(Command::Number(2)), Happened::Started(METHOD));
    assert_eq!(
        panel.advance(100),
        Some(Turn::Asks(Request::SendCommand(1)))
    );
    let wrong = Answer::Go {
        code: 0,
        sets: vec![(VarNo(0), i64::MAX)],
    };
    assert_eq!(panel.answer(&wrong), Err(AnswerFault::OutOfRange));
    assert_eq!(panel.answer(&Answer::code(0)), Ok(()));
    assert_eq!(panel.advance(100), Some(Turn::Ended));
    assert_eq!(panel.values().numbers(), [1]);
}

/// A session moves to another thread with all that it needs.
#[test]
fn sessions_and_images_may_move() {
    fn moves<T: Send + Sync + 'static>(_: &T) {}
    let image = image_of(ASKING);
    moves(&image);
    moves(&image.values());
    let session = Session::start(&image, METHOD, image.values()).expect("a session");
    moves(&session);
    drop(image);
    let mut moved = session;
    let there = std::thread::spawn(move || moved.advance(100));
    assert_eq!(
        there.join().expect("a turn"),
        Turn::Asks(Request::SendCommand(1))
    );
}

/// Sessions go on over their own image whatever else is loaded.
#[test]
fn sessions_of_many_images() {
    let mut sessions: Vec<Session> = Vec::new();
    for image in IMAGES.iter() {
        for method in methods(image) {
            sessions.push(Session::start(image, method, image.values()).expect("a session"));
        }
    }
    for _ in 0..50 {
        for session in &mut sessions {
            if let Turn::Asks(_) = session.advance(3) {
                session.answer(&Answer::code(1)).expect("an answer");
            }
        }
    }
}
