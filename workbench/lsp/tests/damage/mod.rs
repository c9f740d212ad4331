//! Conversations of the table of calls, and damage to their bytes, messages and members.

use serde_json::{Value, json};

const TABLE: &str = include_str!("../../../tests/tables/calls");

/// The most bytes that are put in from somewhere else.
const LONGEST_PIECE: usize = 200;

/// A generator of numbers: the steps of SplitMix64.
pub(crate) struct Dice(u64);

impl Dice {
    /// The dice of a conversation, which depend on nothing else.
    pub(crate) fn of_conversation(seed: u64, number: u64) -> Dice {
        let mut dice = Dice(seed ^ number.wrapping_mul(0xd1b5_4a32_d192_ed03));
        dice.next();
        dice
    }

    fn next(&mut self) -> u64 {
        self.0 = self.0.wrapping_add(0x9e37_79b9_7f4a_7c15);
        let mut mixed = self.0;
        mixed = (mixed ^ (mixed >> 30)).wrapping_mul(0xbf58_476d_1ce4_e5b9);
        mixed = (mixed ^ (mixed >> 27)).wrapping_mul(0x94d0_49bb_1331_11eb);
        mixed ^ (mixed >> 31)
    }

    /// A number below a bound that is not 0.
    pub(crate) fn below(&mut self, bound: usize) -> usize {
        let bound = u64::try_from(bound).expect("a small bound");
        usize::try_from(self.next() % bound).expect("a small number")
    }

    fn of<'a, T>(&mut self, all: &'a [T]) -> &'a T {
        &all[self.below(all.len())]
    }

    fn byte(&mut self) -> u8 {
        self.next().to_le_bytes()[0]
    }
}

/// The contents of the messages of an editor, one after the other.
pub(crate) type Conversation = Vec<Vec<u8>>;

/// The message with which an editor begins that supports everything, or nothing.
fn greeting(kind: &str) -> Option<Vec<u8>> {
    let able = json!({
        "general": {"positionEncodings": ["utf-16", "utf-8"]},
        "textDocument": {
            "publishDiagnostics": {"relatedInformation": true},
            "rename": {"prepareSupport": true},
            "documentSymbol": {"hierarchicalDocumentSymbolSupport": true},
            "codeAction": {"codeActionLiteralSupport": {}},
            "completion": {"completionItem": {"snippetSupport": true}},
        },
    });
    let capabilities = match kind {
        "utf-8" => able,
        "utf-16" => json!({}),
        _ => return None,
    };
    let params = json!({"capabilities": capabilities});
    let message = json!({"jsonrpc": "2.0", "id": 0, "method": "initialize", "params": params});
    Some(message.to_string().into_bytes())
}

/// The conversations of the table.
pub(crate) fn conversations() -> Vec<Conversation> {
    let parts = TABLE.split("\n@");
    let spoken = parts.filter_map(|part| {
        let (head, lines) = part.split_once('\n')?;
        let kind = head.split(' ').next()?;
        if !["utf-8", "utf-16", "-"].contains(&kind) {
            return None;
        }
        let sent = lines.lines().filter_map(|line| {
            let message = line.strip_prefix("> ").or_else(|| line.strip_prefix("& "));
            message.map(|message| message.as_bytes().to_vec())
        });
        Some(greeting(kind).into_iter().chain(sent).collect())
    });
    spoken
        .filter(|spoken: &Conversation| !spoken.is_empty())
        .collect()
}

/// A message, mostly one behind the greeting, without which all others are refused.
fn pick(dice: &mut Dice, messages: &Conversation) -> usize {
    let first = usize::from(messages.len() > 1 && dice.below(16) != 0);
    first + dice.below(messages.len() - first)
}

/// Leaves out, repeats or exchanges messages, or takes one of another conversation.
fn damage_messages(dice: &mut Dice, messages: &mut Conversation, other: &Conversation) {
    let (one, two) = (pick(dice, messages), pick(dice, messages));
    match dice.below(4) {
        0 if messages.len() > 1 => {
            messages.remove(one);
        }
        1 => messages.swap(one, two),
        2 => messages.insert(one, messages[two].clone()),
        _ => messages.insert(one, dice.of(other).clone()),
    }
}

/// Puts another value in the place of one of a message's members, or leaves it out.
fn damage_member(dice: &mut Dice, messages: &mut Conversation) {
    let number = pick(dice, messages);
    if let Ok(mut message) = serde_json::from_slice::<Value>(&messages[number]) {
        damage_value(dice, &mut message);
        messages[number] = message.to_string().into_bytes();
    }
}

/// One in four times damages the value itself, else one in it, if there is one.
fn damage_value(dice: &mut Dice, value: &mut Value) {
    let goes_on = dice.below(4) != 0;
    match value {
        Value::Object(members) if goes_on && !members.is_empty() => {
            let names: Vec<_> = members.keys().cloned().collect();
            let name = dice.of(&names);
            if dice.below(8) == 0 {
                members.remove(name);
            } else if let Some(member) = members.get_mut(name) {
                damage_value(dice, member);
            }
        }
        Value::Array(values) if goes_on && !values.is_empty() => {
            let index = dice.below(values.len());
            damage_value(dice, &mut values[index]);
        }
        _ => *value = strange(dice, value),
    }
}

/// Another value, often one of the same form.
fn strange(dice: &mut Dice, value: &Value) -> Value {
    match (dice.below(3), value) {
        (0 | 1, Value::Number(number)) => {
            let near = number.as_i64().unwrap_or(0);
            let step = i64::from(dice.byte() % 7) - 3;
            json!(dice.of(&[
                near.wrapping_add(step),
                near.wrapping_add(50),
                -1,
                i64::MAX,
                1 << 32,
                0
            ]))
        }
        (0 | 1, Value::String(text)) => json!(strange_text(dice, text)),
        _ => {
            let deep = (0..100).fold(json!(1), |inner, _| json!([inner]));
            let values = [
                Value::Null,
                json!(true),
                json!(1.5),
                json!([]),
                json!({}),
                json!("x"),
                deep,
            ];
            dice.of(&values).clone()
        }
    }
}

/// A text with another piece in it, or without one.
fn strange_text(dice: &mut Dice, text: &str) -> String {
    const PIECES: [&str; 12] = [
        "",
        "\"",
        "{",
        "}",
        ";",
        "\r",
        "\n",
        "\u{0}",
        "\u{1d11e}",
        "\u{feff}",
        "/*",
        "VARIABLE a {",
    ];
    let mut characters: Vec<char> = text.chars().collect();
    let start = dice.below(characters.len() + 1);
    let end = characters.len().min(start + dice.below(8));
    characters.splice(start..end, dice.of(&PIECES).chars());
    characters.into_iter().collect()
}

/// Sets, leaves out or puts in bytes, also pieces of another place.
fn damage_bytes(dice: &mut Dice, bytes: &mut Vec<u8>) {
    if bytes.is_empty() {
        return;
    }
    let place = dice.below(bytes.len());
    let most = LONGEST_PIECE.min(bytes.len() - place);
    let end = place + dice.below(most + 1);
    match dice.below(4) {
        0 => bytes[place] = dice.byte(),
        1 => bytes[place] ^= 1 << dice.below(8),
        2 => {
            bytes.drain(place..end);
        }
        _ => {
            let piece = bytes[place..end].to_vec();
            let to = dice.below(bytes.len());
            bytes.splice(to..to, piece);
        }
    }
}

fn framed(message: &[u8]) -> Vec<u8> {
    let header = format!("Content-Length: {}\r\n\r\n", message.len());
    [header.as_bytes(), message].concat()
}

/// The bytes of a damaged conversation.
pub(crate) fn damaged(dice: &mut Dice, all: &[Conversation]) -> Vec<u8> {
    let mut messages = dice.of(all).clone();
    let other = dice.of(all).clone();
    for _ in 0..dice.below(4) {
        messages.extend(dice.of(all).iter().skip(1).cloned());
    }
    for _ in 0..=dice.below(4) {
        match dice.below(4) {
            0 => {
                let number = pick(dice, &messages);
                damage_bytes(dice, &mut messages[number]);
            }
            1 => damage_messages(dice, &mut messages, &other),
            _ => damage_member(dice, &mut messages),
        }
    }
    let mut bytes: Vec<u8> = messages.iter().flat_map(|it| framed(it)).collect();
    // Behind a wrong length little of a conversation is left.
    if dice.below(8) == 0 {
        damage_bytes(dice, &mut bytes);
    }
    bytes
}
