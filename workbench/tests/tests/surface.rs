//! The public calls of the core, each by its name, parameters and result, and with answers that were worked
//! out by hand. The compiler does not take a call that has changed its form.

#![expect(
    clippy::type_complexity,
    reason = "the forms of calls are what is tested"
)]
#![expect(
    clippy::panic,
    reason = "a source of the test that is refused fails it"
)]

use edd_attrs::lower_attribute;
use edd_breaches::RuleFault;
use edd_compiler::{Fault, compile};
use edd_image::{Counts, Parts, VarKind, WriteFault, write};
use edd_instructions::{Record, Request};
use edd_lexer::fault::LexFault;
use edd_lexer::lex;
use edd_lexer::token::Token;
use edd_loader::{Image, LoadFault, Text, load};
use edd_machine::{Machine, ReadFault, Values, ValuesFault, attribute};
use edd_methods::{MethodCode, lower_method};
use edd_names::resolve;
use edd_octets::{
    Field, Message, OctetsFault, Part, Side, decode, encode, message_fields, number_of, picked,
    readers, width_of, writers,
};
use edd_parser::parse;
use edd_plain_std::alloc::{AllocError, Global};
use edd_plain_std::string::String as CoreString;
use edd_plain_std::vec::Vec as List;
use edd_port::{
    AnswerFault, Drive, Ending, Host, PlayFault, Reply, Session, StartFault, Transcript, Turn,
    drive, play,
};
use edd_strings::{StringFault, Table, choose, key, split};
use edd_syntax::answer::Answer;
use edd_syntax::checked::Checked;
use edd_syntax::numbers::{Attr, AttrRef, CmdNo, ItemNo, MethNo, StrNo, VarNo};
use edd_syntax::resolved::Resolved;
use edd_syntax::unit::Unit;
use edd_syntax::words::Words;
use edd_syntax::wrap::wrap;
use edd_token_reader::fault::ParseFault;
use edd_types::check;

const HEAD: &str = "MANUFACTURER 1, DEVICE_TYPE 2, DEVICE_REVISION 3, DD_REVISION 4\n";

fn source(items: &str) -> Vec<u8> {
    format!("{HEAD}{items}").into_bytes()
}

fn image_of(items: &str) -> List<u8> {
    let Ok(bytes) = compile(Global, &source(items)) else {
        panic!("the items are accepted");
    };
    bytes
}

/// An answer that goes on with a code and sets variables.
fn go(code: i32, sets: &[(u16, i64)]) -> Answer {
    let sets = sets.iter().map(|(number, value)| (VarNo(*number), *value));
    Answer::Go {
        code,
        sets: List::from_real(sets.collect()),
    }
}

#[test]
fn calls_on_a_source_have_their_form() {
    let _: fn(Global, &[u8]) -> Result<List<Token>, LexFault> = lex;
    let _: fn(Global, &[u8], &[Token]) -> Result<Unit, ParseFault> = parse;
    let _: fn(Global, &Unit) -> Result<Resolved, RuleFault> = resolve;
    let _: fn(Global, &Resolved) -> Result<Checked, RuleFault> = check;
    let _: fn(&Checked, Global) -> Result<List<AttrRef>, AllocError> = Checked::rows;
    let _: fn(Global, &str) -> Result<Words, StringFault> = split;
    let _: fn(Global, &str) -> Result<Words, StringFault> = key;
    let _: fn(Global) -> Table = Table::new;
    let _: fn(&mut Table, Words) -> Result<StrNo, StringFault> = Table::add;
    let _: fn(&Table) -> &[Words] = Table::words;
    let _: fn(&mut Table, u16) = Table::cut;
    let _: for<'a> fn(&'a Words, &str) -> &'a str = choose;
    let _: fn(Global, &Parts) -> Result<List<u8>, WriteFault> = write;
    let _: fn(Global, &[u8]) -> Result<List<u8>, Fault> = compile;
    let _: fn(&Fault, Global, &[u8]) -> Result<CoreString, AllocError> = Fault::refusal;
    let _: fn(u32, i128) -> i64 = wrap;
}

#[test]
fn calls_on_an_image_have_their_form() {
    let _: for<'b> fn(Global, &'b [u8]) -> Result<Image<'b>, LoadFault> = load;
    let _: for<'b> fn(&Image<'b>) -> &'b [u8] = |it| it.bytes();
    let _: fn(&Image<'_>) -> Counts = |it| it.counts();
    let _: fn(&Image<'_>, &str) -> Option<ItemNo> = |it, name| it.find(name);
    let _: for<'b> fn(&Image<'b>, ItemNo) -> Option<&'b str> = |it, item| it.name(item);
    let _: fn(&Image<'_>, VarNo) -> Option<VarKind> = |it, number| it.variable(number);
    let _: for<'b> fn(&Image<'b>, StrNo, &str) -> Option<Text<'b>> =
        |it, string, code| it.text(string, code);
    let _: fn(Global, &Image<'_>, &[i64]) -> Result<Values, ValuesFault> = Values::new;
    let _: fn(&Values, VarNo) -> Option<i64> = Values::get;
    let _: fn(Global, &Image<'_>, AttrRef, &Values) -> Result<List<Record>, ReadFault> = attribute;
    let _: fn(&mut Machine, &Image<'_>, &mut [i64]) = Machine::step;
    let _: for<'i, 'b> fn(
        &'i Image<'b>,
        MethNo,
        Values,
    ) -> Result<Session<'i, 'b>, (StartFault, Values)> =
        |image, method, values| Session::start(image, method, values);
    let _: fn(&mut Session<'_, '_>, u32) -> Turn = |it, budget| it.advance(budget);
    let _: fn(&mut Session<'_, '_>, &Answer) -> Result<(), AnswerFault> =
        |it, answer| it.answer(answer);
    let _: for<'s> fn(&'s Session<'_, '_>) -> &'s Values = |it| it.values();
    let _: fn(&Session<'_, '_>) -> Turn = |it| it.turn();
    let _: fn(&Session<'_, '_>) -> u64 = |it| it.taken();
    let _: fn(&mut Session<'_, '_>, &mut Silent, u64) -> Drive = drive;
    let _: fn(Global, &Image<'_>, MethNo, Values, &[Answer], u64) -> Result<Transcript, PlayFault> =
        play;
}

type Sets = List<(VarNo, i64)>;

#[test]
fn calls_on_octets_have_their_form() {
    let _: fn(Global, &Image<'_>, Message, &Values) -> Result<List<u8>, OctetsFault> = encode;
    let _: fn(Global, &Image<'_>, Message, &Values, &[u8]) -> Result<Sets, OctetsFault> = decode;
    let _: fn(Global, &Image<'_>, VarNo, &Values) -> Result<List<Message>, ReadFault> = readers;
    let _: fn(Global, &Image<'_>, VarNo, &Values) -> Result<List<Message>, ReadFault> = writers;
    let _: fn(Global, &Image<'_>, Message, &Values) -> Result<List<Field>, OctetsFault> =
        message_fields;
    let _: fn(&Field) -> usize = width_of;
    let _: fn(&[u8]) -> u32 = number_of;
    let _: fn(u32, u32) -> u32 = picked;
}

#[test]
fn octets_are_made_and_taken_apart() {
    let bytes = image_of(
        "VARIABLE p { TYPE INTEGER (2); } VARIABLE m { TYPE UNSIGNED_INTEGER; }
         COMMAND c { NUMBER 1; OPERATION WRITE; TRANSACTION { REPLY { 9 } REQUEST { m <0xF0>, p } } }",
    );
    let image = load(Global, &bytes).unwrap();
    let request = Message {
        command: CmdNo(0),
        position: 0,
        side: Side::Request,
    };
    let values = Values::new(Global, &image, &[-2, 0x13]).unwrap();
    let octets = encode(Global, &image, request, &values).unwrap();
    assert_eq!(&*octets, [0x30, 0xFF, 0xFE]);
    let fields = message_fields(Global, &image, request, &values).unwrap();
    let widths: Vec<usize> = fields.iter().map(width_of).collect();
    assert_eq!(widths, [1, 2]);
    let m = Part {
        variable: VarNo(1),
        mask: 0xF0,
        is_kept: true,
    };
    assert!(matches!(&*fields, [Field::Variables(parts), _] if **parts == [m]));
    assert_eq!(number_of(&octets), 0x30_FF_FE);
    assert_eq!(picked(0xF0, 0x30), 3);
    let others = Values::new(Global, &image, &[7, 0x45]).unwrap();
    let sets = decode(Global, &image, request, &others, &octets).unwrap();
    assert_eq!(&*sets, [(VarNo(1), 0x43), (VarNo(0), -2)]);

    let reply = Message {
        side: Side::Reply,
        ..request
    };
    let fault = decode(Global, &image, reply, &values, &[8]).err();
    assert_eq!(fault, Some(OctetsFault::WrongConstant(0)));
    let of_m = writers(Global, &image, VarNo(1), &values).unwrap();
    assert_eq!(&*of_m, [request]);
    let none = readers(Global, &image, VarNo(1), &values).unwrap();
    assert!(none.is_empty());
}

#[test]
fn a_text_is_taken_apart() {
    let text = b"x 0x1F";
    let tokens = lex(Global, text).unwrap();
    let spans: Vec<_> = tokens.iter().map(|it| (it.start, it.end)).collect();
    assert_eq!(spans, [(0, 1), (2, 6)]);
    assert!(matches!(
        lex(Global, &[0xFF]),
        Err(LexFault::NotUtf8 { .. })
    ));

    let text = source("VARIABLE p { LABEL \"Pressure\"; TYPE INTEGER (2); }");
    let tokens = lex(Global, &text).unwrap();
    let unit = parse(Global, &text, &tokens).unwrap();
    let checked = check(Global, &resolve(Global, &unit).unwrap()).unwrap();
    let label = AttrRef {
        item: ItemNo::Variable(VarNo(0)),
        attr: Attr::Label,
        sub: 0,
    };
    assert_eq!(&*checked.rows(Global).unwrap(), [label]);
    let mut table = Table::new(Global);
    // TEXT with the number 0, then END.
    let code = lower_attribute(Global, &checked, label, &mut table).unwrap();
    assert_eq!((code.len(), table.words().len()), (4, 1));
}

#[test]
fn a_method_is_lowered_with_its_slots() {
    let text = source("METHOD m { LABEL \"m\"; DEFINITION { int i; int j; i = j; } }");
    let tokens = lex(Global, &text).unwrap();
    let unit = parse(Global, &text, &tokens).unwrap();
    let checked = check(Global, &resolve(Global, &unit).unwrap()).unwrap();
    let mut table = Table::new(Global);
    let made: MethodCode = lower_method(Global, &checked, MethNo(0), &mut table).unwrap();
    assert_eq!(made.slots, 2);
    assert!(!made.code.is_empty());
}

#[test]
fn strings_have_variants_and_one_number_each() {
    let words = split(Global, "a |de|b").unwrap();
    assert_eq!((choose(&words, "en"), choose(&words, "de")), ("a ", "b"));
    let mut table = Table::new(Global);
    assert_eq!(table.add(words).unwrap(), StrNo(0));
    assert_eq!(
        table.add(split(Global, "a |de|b").unwrap()).unwrap(),
        StrNo(0)
    );
    assert_eq!(table.add(split(Global, "").unwrap()).unwrap(), StrNo(1));
    table.cut(1);
    assert_eq!(table.words().len(), 1);
    assert!(matches!(split(Global, "\\x"), Err(StringFault::BadEscape)));
    assert_eq!(choose(&key(Global, "on").unwrap(), "de"), "on");
}

#[test]
fn numbers_wrap_in_their_width() {
    assert_eq!(
        (wrap(32, 1 << 31), wrap(64, 1 << 63)),
        (i64::from(i32::MIN), i64::MIN)
    );
    assert_eq!(wrap(8, -129), 127);
}

#[test]
fn an_image_is_read() {
    let bytes = image_of("VARIABLE p { LABEL \"|en|Pressure|de|Druck\"; TYPE INTEGER (1); }");
    let image = load(Global, &bytes).unwrap();
    assert_eq!(image.bytes(), &*bytes);
    let counts = image.counts();
    assert_eq!(
        (counts.variables, counts.manufacturer, counts.dd_revision),
        (1, 1, 4)
    );
    let p = ItemNo::Variable(VarNo(0));
    assert_eq!((image.find("p"), image.name(p)), (Some(p), Some("p")));
    assert_eq!(image.find("q"), None);
    assert_eq!(image.variable(VarNo(0)).unwrap().size, 1);
    assert!(matches!(
        image.text(StrNo(0), "de"),
        Some(Text::Words("Druck"))
    ));
    assert!(matches!(load(Global, &bytes[..3]), Err(LoadFault::Short)));

    assert!(matches!(
        Values::new(Global, &image, &[]),
        Err(ValuesFault::Count)
    ));
    assert!(matches!(
        Values::new(Global, &image, &[128]),
        Err(ValuesFault::Range)
    ));
    let values = Values::new(Global, &image, &[-128]).unwrap();
    assert_eq!(
        (values.get(VarNo(0)), values.get(VarNo(1))),
        (Some(-128), None)
    );
    let row = |attr| AttrRef {
        item: p,
        attr,
        sub: 0,
    };
    let read = |attr| attribute(Global, &image, row(attr), &values);
    assert_eq!(&*read(Attr::Handling).unwrap(), [Record::Number(3)]);
    assert_eq!(&*read(Attr::Validity).unwrap(), [Record::Number(1)]);
    assert_eq!(&*read(Attr::Label).unwrap(), [Record::Words(StrNo(0))]);
    assert!(matches!(read(Attr::Items), Err(ReadFault::NoItem)));
}

/// A method that adds the answer of ACKNOWLEDGE to x, which is 250.
const ADDS: &str = "VARIABLE x { LABEL \"x\"; TYPE UNSIGNED_INTEGER (1); } \
                    METHOD m { LABEL \"m\"; DEFINITION { x += ACKNOWLEDGE(\"a\"); } }";

#[test]
fn a_session_asks_and_is_answered() {
    let bytes = image_of(ADDS);
    let image = load(Global, &bytes).unwrap();
    let values = || Values::new(Global, &image, &[250]).unwrap();
    assert!(matches!(
        Session::start(&image, MethNo(1), values()),
        Err((StartFault::NoItem, _))
    ));
    let Ok(mut session) = Session::start(&image, MethNo(0), values()) else {
        panic!("the method starts");
    };
    assert_eq!((session.advance(0), session.taken()), (Turn::Spent, 0));
    let turn = session.advance(1000);
    assert!(matches!(turn, Turn::Asks(Request::Acknowledge(_))));
    assert_eq!(
        session.answer(&go(0, &[(0, 256)])),
        Err(AnswerFault::OutOfRange)
    );
    assert_eq!(
        session.answer(&go(0, &[(9, 1)])),
        Err(AnswerFault::BadVariable)
    );
    assert_eq!(
        (session.values().get(VarNo(0)), session.turn()),
        (Some(250), turn)
    );
    assert_eq!(session.answer(&go(10, &[(0, 1)])), Ok(()));
    assert_eq!(session.advance(1000), Turn::Ended);
    // 250 + 10 has the low 8 bits 4: what is added to is read before the request.
    assert_eq!(session.values().get(VarNo(0)), Some(4));
    assert_eq!(session.answer(&go(0, &[])), Err(AnswerFault::NotAsking));
}

#[test]
fn a_play_is_the_run_under_its_answers() {
    let bytes = image_of(ADDS);
    let image = load(Global, &bytes).unwrap();
    let values = || Values::new(Global, &image, &[250]).unwrap();
    let played = |answers: &[Answer]| play(Global, &image, MethNo(0), values(), answers, 1000);
    let transcript = played(&[go(10, &[(0, 1)])]).unwrap();
    assert_eq!(
        (transcript.requests.len(), transcript.ending),
        (1, Ending::Ended)
    );
    assert_eq!(transcript.values.get(VarNo(0)), Some(4));
    assert_eq!(played(&[]).unwrap().ending, Ending::Waiting);
    assert!(matches!(
        played(&[go(0, &[(0, 256)])]),
        Err(PlayFault::OutOfRange)
    ));
}

/// A host that has no answer.
struct Silent(Answer);

impl Host for Silent {
    fn reply(&mut self, _: &Request) -> Reply {
        Reply::Nothing
    }

    fn given(&self) -> &Answer {
        &self.0
    }
}

#[test]
fn a_drive_waits_for_a_host_without_an_answer() {
    let bytes = image_of(ADDS);
    let image = load(Global, &bytes).unwrap();
    let values = Values::new(Global, &image, &[250]).unwrap();
    let Ok(mut session) = Session::start(&image, MethNo(0), values) else {
        panic!("the method starts");
    };
    assert_eq!(
        drive(&mut session, &mut Silent(Answer::Abort), 1000),
        Drive::Waiting
    );
}

#[test]
fn refusals_print_their_line() {
    for (items, line) in [
        ("VARIABLE p { LABEL \"x\"; }", "24 MISSING_ATTRIBUTE p TYPE"),
        ("FILE f { }", "12 UNSUPPORTED FILE"),
        (
            "VARIABLE f { TYPE FLOAT { MIN_VALUE 0.5; } }",
            "30 FLOAT_VARIABLE f",
        ),
    ] {
        let text = source(items);
        let fault = compile(Global, &text).unwrap_err();
        assert_eq!(fault.refusal(Global, &text).unwrap().as_str(), line);
    }
}
