//! What is known of the items of a description.

use crate::exchanges::{Exchange, exchanges_of};
use crate::lists::{Listed, enumerators_of, is_total, values_in};
use crate::range::Range;
use crate::source::{TokenIndex, index};
use crate::texts::variants::first_words;
use crate::traits::quoted;
use crate::types::{number_of, number_parts};
use crate::units::{Unit, units_of};
use edd_constants::evaluate;
use edd_instructions::Sort;
use edd_syntax::cond::Cond;
use edd_syntax::expr::Expr;
use edd_syntax::item::{Attribute, Enumerator, Item, ItemKind, TypePart, TypeWord};
use edd_syntax::numbers::{Element, ItemNo, NumberOption, VarNo};
use edd_syntax::reference::Target;
use edd_syntax::types::{Handling, VarType};
use std::collections::{HashMap, HashSet};

/// What is known of a variable.
pub(crate) struct Variable<'i> {
    pub(crate) item: &'i Item<Target>,
    pub(crate) number: u16,
    pub(crate) kind: Option<VarType>,
    pub(crate) range: Option<Range>,
    /// The enumerators of all branches.
    pub(crate) enumerators: Vec<i64>,
    /// What their texts say in their first language: by their numbers, and by what is said.
    words: Vec<(i64, &'i str)>,
    numbers: Vec<(&'i str, i64)>,
    /// Its units in all branches and languages, where all of them are known.
    pub(crate) units: Vec<Unit>,
    /// Whether HANDLING is READ, under no condition.
    pub(crate) is_read_only: bool,
    /// Whether it is WRITE so.
    pub(crate) is_write_only: bool,
    /// The least MIN_VALUE and the greatest MAX_VALUE of all branches, where these are constants.
    pub(crate) least: Option<i64>,
    pub(crate) greatest: Option<i64>,
}

/// What is known of the commands of a number.
#[derive(Default)]
struct Command {
    /// Where the number is first.
    at: TokenIndex,
    transactions: Vec<u32>,
    /// Their response codes.
    codes: Vec<u32>,
    /// Whether all transactions have their numbers written.
    are_numbered: bool,
    /// How many transactions there are.
    count: i64,
    /// Which of all commands they are.
    places: Vec<usize>,
}

/// What is known of the items of a description.
pub(crate) struct Instrument<'i> {
    pub(crate) items: &'i [Item<Target>],
    /// The index of each item, by the number of its kind and its own.
    by_kind: Vec<Vec<usize>>,
    variables: Vec<Variable<'i>>,
    elements: HashMap<(u16, u32), u16>,
    /// The arrays with elements.
    arrays: HashSet<u16>,
    /// What the elements of each array hold together.
    element_ranges: HashMap<u16, Range>,
    /// The commands by their numbers.
    commands: HashMap<u32, Command>,
    /// What the transactions of each command carry.
    exchanges: Vec<Vec<Exchange>>,
    /// The items by their names.
    names: HashMap<&'i [u8], usize>,
}

/// The variable that a target is.
pub(crate) fn variable_of(target: Target) -> Option<u16> {
    match target {
        Target::Item(ItemNo::Variable(variable)) => Some(variable.0),
        _ => None,
    }
}

impl<'i> Variable<'i> {
    fn of(item: &'i Item<Target>, number: usize) -> Variable<'i> {
        let mut variable = Variable {
            item,
            number: u16::try_from(number).unwrap_or(u16::MAX),
            kind: None,
            range: None,
            enumerators: Vec::new(),
            words: Vec::new(),
            numbers: Vec::new(),
            units: Vec::new(),
            is_read_only: false,
            is_write_only: false,
            least: None,
            greatest: None,
        };
        variable.add_limits();
        variable.units = units_of(item);
        for attribute in &item.attributes {
            match attribute {
                Attribute::TypeOf {
                    word: TypeWord::Known { kind, size },
                    parts,
                    ..
                } => {
                    variable.kind = Some(*kind);
                    variable.range = Some(Range::of(*kind, *size));
                    let listed = enumerators_of(parts);
                    variable.enumerators = listed.iter().map(|one| one.value.value).collect();
                    variable.enumerators.sort_unstable();
                    variable.enumerators.dedup();
                    variable.add_texts(&listed);
                }
                Attribute::Handling(_, Cond::Value(handling)) => {
                    variable.is_read_only = *handling == Handling::Read;
                    variable.is_write_only = *handling == Handling::Write;
                }
                _ => {}
            }
        }
        variable
    }

    fn add_limits(&mut self) {
        for part in number_parts(self.parts()).filter(|part| is_total(part.value)) {
            let values = values_in(part.value);
            let numbers: Option<Vec<_>> = values.map(|one| number_of(one.value)).collect();
            let numbers = numbers.into_iter().flatten();
            match part.which {
                NumberOption::MinValue => self.least = numbers.min(),
                NumberOption::MaxValue => self.greatest = numbers.max(),
                NumberOption::DefaultValue => {}
            }
        }
    }

    // Of two that say the same the last one counts.
    fn add_texts(&mut self, listed: &[Listed<'i, Enumerator>]) {
        let said = listed.iter().filter_map(|one| {
            let words = first_words(quoted(&one.value.text)?);
            (!words.is_empty()).then_some((one.value.value, words))
        });
        self.words.extend(said);
        self.numbers
            .extend(self.words.iter().map(|(number, words)| (*words, *number)));
        self.words.sort_by_key(|(number, _)| *number);
        self.numbers.sort_by_key(|(words, _)| *words);
    }

    /// What the text of an enumerator says.
    pub(crate) fn words_of(&self, number: i64) -> Option<&'i str> {
        let end = self.words.partition_point(|(one, _)| *one <= number);
        let (found, words) = self.words.get(end.checked_sub(1)?)?;
        (*found == number).then_some(*words)
    }

    /// The enumerator whose text says something.
    pub(crate) fn enumerator_of(&self, text: &str) -> Option<i64> {
        let end = self.numbers.partition_point(|(words, _)| *words <= text);
        let (found, number) = self.numbers.get(end.checked_sub(1)?)?;
        (*found == text).then_some(*number)
    }

    /// What the texts of its enumerators say.
    pub(crate) fn all_words(&self) -> impl Iterator<Item = &'i str> {
        self.words.iter().map(|(_, words)| *words)
    }

    /// Its unit, where it always is the same one.
    pub(crate) fn unit(&self) -> Option<Unit> {
        let first = self.units.first().copied()?;
        self.units
            .iter()
            .all(|unit| *unit == first)
            .then_some(first)
    }

    /// Whether a number is one of its enumerators.
    pub(crate) fn has_enumerator(&self, number: i64) -> bool {
        self.enumerators.binary_search(&number).is_ok()
    }

    pub(crate) fn name(&self) -> &'i str {
        self.item.name()
    }

    /// All bits that its enumerators name, if it is one of bits and has some.
    pub(crate) fn named_bits(&self) -> Option<i64> {
        let is_of_bits = self.kind == Some(VarType::BitEnumerated);
        let has_names = is_of_bits && !self.enumerators.is_empty();
        has_names.then(|| self.enumerators.iter().fold(0, |bits, one| bits | one))
    }

    /// What is in the braces of its type.
    pub(crate) fn parts(&self) -> &'i [TypePart<Target>] {
        let mut types = self.item.attributes.iter();
        let parts = types.find_map(|attribute| match attribute {
            Attribute::TypeOf { parts, .. } => Some(&**parts),
            _ => None,
        });
        parts.unwrap_or_default()
    }

    /// Whether the variable is one of enumerators, of which a number is none.
    pub(crate) fn lacks(&self, number: i64) -> bool {
        self.kind == Some(VarType::Enumerated)
            && !self.enumerators.is_empty()
            && !self.has_enumerator(number)
    }
}

impl Command {
    fn add(&mut self, attributes: &[Attribute<Target>]) {
        for attribute in attributes {
            match attribute {
                Attribute::Transaction { number, .. } => {
                    self.are_numbered &= number.is_some();
                    self.count = self.count.saturating_add(1);
                    self.transactions.extend(number);
                }
                Attribute::ResponseCodes(_, codes) => {
                    self.codes.extend(codes.iter().map(|code| code.number));
                }
                _ => {}
            }
        }
    }
}

fn command_number(command: &Item<Target>) -> Option<(TokenIndex, u32)> {
    command
        .attributes
        .iter()
        .find_map(|attribute| match attribute {
            Attribute::Number(at, number) => Some((index(*at), *number)),
            _ => None,
        })
}

fn names_of(items: &[Item<Target>]) -> HashMap<&[u8], usize> {
    let names = items.iter().map(|item| item.name().as_bytes());
    names.zip(0..).collect()
}

impl<'i> Instrument<'i> {
    /// What is known of items and of the elements of their arrays.
    pub(crate) fn of(items: &'i [Item<Target>], elements: &[Element]) -> Instrument<'i> {
        let mut instrument = Instrument {
            items,
            by_kind: Vec::new(),
            variables: Vec::new(),
            elements: elements
                .iter()
                .map(|element| ((element.array.0, element.number), element.var.0))
                .collect(),
            arrays: elements.iter().map(|element| element.array.0).collect(),
            element_ranges: HashMap::new(),
            commands: HashMap::new(),
            exchanges: Vec::new(),
            names: names_of(items),
        };
        for (number, item) in items.iter().enumerate() {
            instrument.add_place(item, number);
            match item.sort {
                ItemKind::Variable => {
                    let variable = Variable::of(item, instrument.variables.len());
                    instrument.variables.push(variable);
                }
                ItemKind::Command => instrument.add_command(item),
                _ => {}
            }
        }
        instrument.add_element_ranges(elements);
        instrument
    }

    fn add_place(&mut self, item: &Item<Target>, place: usize) {
        let kind = usize::from(item.kind().number());
        if self.by_kind.len() <= kind {
            self.by_kind.resize_with(kind.saturating_add(1), Vec::new);
        }
        if let Some(places) = self.by_kind.get_mut(kind) {
            places.push(place);
        }
    }

    fn add_element_ranges(&mut self, elements: &[Element]) {
        for element in elements {
            let Some(range) = self.range(element.var.0) else {
                continue;
            };
            let known = self.element_ranges.entry(element.array.0).or_insert(range);
            known.low = known.low.min(range.low);
            known.high = known.high.max(range.high);
        }
    }

    /// What an element of an array can hold, whichever it is.
    pub(crate) fn element_range(&self, array: u16) -> Option<Range> {
        self.element_ranges.get(&array).copied()
    }

    /// What the transaction of a command carries. Without a number the command has to have one alone.
    pub(crate) fn exchange(&self, command: i64, transaction: Option<i64>) -> Option<&Exchange> {
        let number = u32::try_from(command).ok()?;
        let places = self.commands.get(&number)?.places.iter();
        let all = places.flat_map(|place| self.exchanges(*place));
        let is_wanted = |one: &&Exchange| {
            transaction.is_none_or(|wanted| one.number.map(i64::from) == Some(wanted))
        };
        let mut found = all.filter(is_wanted);
        found.next().filter(|_| found.next().is_none())
    }

    /// Whether a command of a number has a transaction of another one.
    pub(crate) fn has_transaction(&self, command: i64, transaction: i64) -> bool {
        let number = u32::try_from(command).ok();
        let command = number.and_then(|number| self.commands.get(&number));
        command.is_some_and(|command| {
            u32::try_from(transaction).is_ok_and(|number| command.transactions.contains(&number))
        })
    }

    fn add_command(&mut self, command: &Item<Target>) {
        if let Some((at, number)) = command_number(command) {
            let known = self.commands.entry(number).or_insert_with(|| Command {
                at,
                ..Command::default()
            });
            // Of two commands with one number the one whose transactions all have numbers counts.
            let mut own = Command {
                are_numbered: true,
                ..Command::default()
            };
            own.add(&command.attributes);
            known.are_numbered |= own.are_numbered;
            known.count = known.count.saturating_add(own.count);
            known.transactions.extend(own.transactions);
            known.codes.extend(own.codes);
            known.places.push(self.exchanges.len());
        }
        self.exchanges.push(exchanges_of(command));
    }

    /// What the transactions of the command carry that is so many behind the first one.
    pub(crate) fn exchanges(&self, command: usize) -> &[Exchange] {
        self.exchanges.get(command).map_or(&[], Vec::as_slice)
    }

    /// The index of an item among all items.
    pub(crate) fn place_of(&self, item: ItemNo) -> Option<usize> {
        let kind = self.by_kind.get(usize::from(item.kind().number()))?;
        kind.get(usize::from(item.index())).copied()
    }

    /// What is known of the variables, in their order.
    pub(crate) fn variables(&self) -> &[Variable<'i>] {
        &self.variables
    }

    /// What is known of the variable of a number.
    pub(crate) fn variable(&self, variable: u16) -> Option<&Variable<'i>> {
        self.variables.get(usize::from(variable))
    }

    /// The name of the variable of a number.
    pub(crate) fn name_of(&self, variable: u16) -> String {
        let known = self.variable(variable);
        known.map_or_else(String::new, |variable| variable.name().to_owned())
    }

    /// What the variable of a number can hold.
    pub(crate) fn range(&self, variable: u16) -> Option<Range> {
        self.variable(variable)?.range
    }

    /// Whether an item has a name.
    pub(crate) fn has_name(&self, name: &str) -> bool {
        self.names.contains_key(name.as_bytes())
    }

    /// The index of the item of a name among all items.
    pub(crate) fn place_named(&self, name: &[u8]) -> Option<usize> {
        self.names.get(name).copied()
    }

    /// The item of a name.
    pub(crate) fn item_named(&self, name: &str) -> Option<&'i Item<Target>> {
        self.items.get(self.place_named(name.as_bytes())?)
    }

    /// The variable of a name.
    pub(crate) fn variable_named(&self, name: &str) -> Option<u16> {
        let place = self.place_named(name.as_bytes())?;
        let item = self.items.get(place)?;
        let numbers = self.by_kind.get(usize::from(item.kind().number()))?;
        let number = numbers.binary_search(&place).ok()?;
        let is_variable = item.sort == ItemKind::Variable;
        u16::try_from(number).ok().filter(|_| is_variable)
    }

    /// The variable that an element of an array is.
    pub(crate) fn element(&self, array: u16, number: i64) -> Option<u16> {
        let number = u32::try_from(number).ok()?;
        self.elements.get(&(array, number)).copied()
    }

    /// The variable that an element is whose index is a constant.
    pub(crate) fn element_at(
        &self,
        array: Target,
        index: &Expr<Target>,
        sort: Sort,
    ) -> Option<Target> {
        let Target::Item(ItemNo::Array(array)) = array else {
            return None;
        };
        let number = evaluate(index, sort).number()?;
        let variable = self.element(array.0, number)?;
        Some(Target::Item(ItemNo::Variable(VarNo(variable))))
    }

    /// Whether an array has an element of a number.
    pub(crate) fn has_element(&self, array: u16, number: i64) -> bool {
        u32::try_from(number).is_ok_and(|number| self.elements.contains_key(&(array, number)))
    }

    /// Whether an array has an element.
    pub(crate) fn has_elements(&self, array: u16) -> bool {
        self.arrays.contains(&array)
    }

    /// Where the number of a command is first.
    pub(crate) fn first_command(&self, number: u32) -> Option<TokenIndex> {
        Some(self.commands.get(&number)?.at)
    }

    /// Whether there are commands, of which none has a number.
    pub(crate) fn lacks_command(&self, command: i64) -> bool {
        let has = u32::try_from(command).is_ok_and(|command| self.commands.contains_key(&command));
        !has && !self.commands.is_empty()
    }

    /// Whether a command lists response codes, of which none is this one.
    pub(crate) fn lacks_code(&self, command: i64, code: i64) -> bool {
        let number = u32::try_from(command).ok();
        let command = number.and_then(|number| self.commands.get(&number));
        command.is_some_and(|command| {
            let has = u32::try_from(code).is_ok_and(|code| command.codes.contains(&code));
            !has && !command.codes.is_empty()
        })
    }

    /// Whether the command of a number is one of the description, none of whose transactions has this
    /// number. Those without a number may count by their order.
    pub(crate) fn lacks_transaction(&self, command: i64, transaction: i64) -> bool {
        let number = u32::try_from(command).ok();
        let command = number.and_then(|number| self.commands.get(&number));
        command.is_some_and(|command| {
            let has = u32::try_from(transaction)
                .is_ok_and(|transaction| command.transactions.contains(&transaction));
            !has && (command.are_numbered || command.count <= transaction)
        })
    }
}
