//! Transactions that differ from all others where they look copied: what a reply repeats of its request.

use crate::context::Context;
use crate::exchanges::Exchange;
use crate::kind::CommandKind;
use crate::source::TokenIndex;
use crate::usage::operation_of;
use crate::warning::Findings;
use edd_syntax::item::{Item, ItemKind};
use edd_syntax::reference::Target;
use edd_syntax::types::Operation;

/// How many others have to agree.
const FEWEST: usize = 2;

/// How many transactions have to reply with what they send, where one does not.
const FEWEST_REPLIES: usize = 4;

// The one transaction of a command whose reply does not begin with the constant of its request, but with that
// of another one.
fn check_selectors(exchanges: &[Exchange], findings: &mut Findings<'_>) {
    let pairs = || {
        exchanges
            .iter()
            .filter_map(|one| Some((one, one.selector?, one.echo?)))
    };
    let mut others = pairs().filter(|(_, selector, echo)| selector != echo);
    let (Some((one, selector, echo)), None) = (others.next(), others.next()) else {
        return;
    };
    let agreeing = pairs()
        .filter(|(_, selector, echo)| selector == echo)
        .count();
    if FEWEST <= agreeing && pairs().any(|(_, selector, _)| selector == echo) {
        findings.add(one.at, CommandKind::OtherEcho(echo, selector));
    }
}

/// The transactions of the commands that write.
#[derive(Default)]
struct Written {
    agreeing: usize,
    others: Vec<TokenIndex>,
}

impl Written {
    // A transaction that replies with what it sends, or with nothing of it.
    fn add(&mut self, exchange: &Exchange) {
        let (sent, received) = (&exchange.sent, exchange.received.numbers());
        if sent.numbers().is_empty() || received.is_empty() {
            return;
        }
        let repeated = received.iter().filter(|one| sent.contains(**one)).count();
        if repeated == received.len() {
            self.agreeing = self.agreeing.saturating_add(1);
        } else if repeated == 0 {
            self.others.push(exchange.at);
        }
    }
}

/// Checks what the transactions of all commands repeat.
pub(crate) fn check_echoes(context: &Context<'_>, findings: &mut Findings<'_>) {
    let mut written = Written::default();
    let commands = context.instrument.items.iter();
    let commands = commands.filter(|item| item.sort == ItemKind::Command);
    for (number, command) in commands.enumerate() {
        let exchanges = context.instrument.exchanges(number);
        check_selectors(exchanges, findings);
        if is_write(command) {
            for exchange in exchanges {
                written.add(exchange);
            }
        }
    }
    if let [at] = *written.others
        && FEWEST_REPLIES <= written.agreeing
    {
        findings.add(at, CommandKind::OtherReply);
    }
}

fn is_write(command: &Item<Target>) -> bool {
    operation_of(command) == Some(Operation::Write)
}
