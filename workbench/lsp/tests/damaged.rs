//! What holds of conversations whose bytes, messages and members are damaged: each request has one
//! answer, none fails, and each conversation ends.

#![allow(
    clippy::arithmetic_side_effects,
    clippy::expect_used,
    clippy::indexing_slicing,
    clippy::panic,
    clippy::string_slice,
    reason = "a test fails by a panic"
)]

mod damage;
mod given;

use damage::{Conversation, Dice, conversations, damaged};
use edd_lsp::{ErrorCode, Framing, Incoming, Outgoing, Session};
use given::number;
use std::sync::mpsc::{Sender, channel};
use std::thread;
use std::time::Duration;

/// How many conversations are tried, where `EDD_CONVERSATIONS` says nothing.
const COUNT: u64 = 2000;

/// No conversation takes longer, also where the machine is busy.
const PATIENCE: Duration = Duration::from_secs(60);

/// What became of a conversation.
#[derive(Default)]
struct Came {
    answered: usize,
    refused: usize,
    told: usize,
}

/// What is wrong with a message of the server, if something is.
fn note(message: &Outgoing, came: &mut Came) -> Result<(), String> {
    match message {
        Outgoing::Answer { .. } => came.answered += 1,
        Outgoing::Notification { .. } => came.told += 1,
        Outgoing::Refusal { error, .. } if error.code == ErrorCode::InternalError => {
            return Err("a request failed".to_owned());
        }
        Outgoing::Refusal { .. } => came.refused += 1,
    }
    let bytes = message.to_bytes().map_err(|error| error.to_string())?;
    let start = bytes.iter().position(|byte| *byte == b'{');
    let content = start.map(|start| serde_json::from_slice::<serde_json::Value>(&bytes[start..]));
    match content {
        Some(Ok(_)) => Ok(()),
        _ => Err("an answer that is no JSON".to_owned()),
    }
}

/// Has the server take the bytes in pieces.
fn converse(bytes: &[u8], dice: &mut Dice) -> Result<Came, String> {
    let (mut session, mut framing) = (Session::default(), Framing::default());
    let (mut came, mut awaited) = (Came::default(), 0);
    let mut left = bytes;
    while !left.is_empty() {
        let (piece, rest) = left.split_at(left.len().min(dice.below(4000) + 1));
        left = rest;
        framing.push(piece);
        while let Some(content) = framing.next_content() {
            let message = Incoming::from(content);
            awaited += usize::from(matches!(
                message,
                Incoming::Request(_) | Incoming::Unreadable(..)
            ));
            session.receive(message);
        }
        while let Some(sent) = session.step() {
            for message in &sent {
                note(message, &mut came)?;
            }
        }
    }
    let answers = came.answered + came.refused;
    // What comes behind `exit` is not answered.
    if answers == awaited || (session.ending().is_some() && answers < awaited) {
        Ok(came)
    } else {
        Err(format!("{answers} answers to {awaited} requests"))
    }
}

/// Tries a conversation, and returns what became of it.
fn tried(seed: u64, number: u64, all: &[Conversation]) -> Came {
    let mut dice = Dice::of_conversation(seed, number);
    let bytes = damaged(&mut dice, all);
    converse(&bytes, &mut dice).unwrap_or_else(|why| {
        let text = String::from_utf8_lossy(&bytes);
        panic!("{why} in conversation {number}, with EDD_SEED={seed}:\n{text}")
    })
}

fn try_all(seed: u64, count: u64, sender: &Sender<Came>) {
    let all = conversations();
    assert!(all.len() > 40, "{} conversations", all.len());
    for number in 0..count {
        sender.send(tried(seed, number, &all)).expect("a listener");
    }
}

/// 2,000 conversations, or as many as `EDD_CONVERSATIONS` says. They are the same at each run, unless
/// `EDD_SEED`, a number, makes other ones.
#[test]
fn damaged_conversations_are_answered_and_end() {
    let seed = number("EDD_SEED").unwrap_or(0);
    let count = number("EDD_CONVERSATIONS").unwrap_or(COUNT);
    let (sender, receiver) = channel();
    let trying = thread::spawn(move || try_all(seed, count, &sender));
    let mut sums = Came::default();
    for conversation in 0..count {
        let Ok(came) = receiver.recv_timeout(PATIENCE) else {
            if trying.is_finished() {
                break;
            }
            panic!("conversation {conversation} does not end, with EDD_SEED={seed}");
        };
        sums.answered += came.answered;
        sums.refused += came.refused;
        sums.told += came.told;
    }
    trying.join().expect("conversations that are answered");
    let Came {
        answered,
        refused,
        told,
    } = sums;
    println!("{count} conversations, {answered} answers, {refused} refusals, {told} notifications");
    // Damage leaves much of a conversation as it was.
    let few = usize::try_from(count / 2).expect("a count");
    assert!(answered > few && refused > few && told > few);
}
