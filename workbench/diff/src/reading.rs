//! Decompiles the code of an attribute: which records it emits under which conditions.
//!
//! The compiler writes conditionals and expressions as nested regions. A forward jump leads to the end
//! of each. One pass with a stack of open regions finds them. Valid code from elsewhere can have
//! another form, and is not read.

use crate::expression::Expression;
use edd_dump::Sections;
use edd_instructions::{Instruction, decode};
use edd_syntax::numbers::ItemNo;
use edd_syntax::operators::Comparison;

/// The index of the empty condition: what stands under it is always emitted.
pub(crate) const ALWAYS: usize = 0;

/// The records that the code of an attribute emits, in the order of the code.
pub(crate) struct Reading {
    /// In source order. The first is `ALWAYS`.
    conditions: Vec<Condition>,
    pub(crate) emitted: Vec<Emitted>,
}

/// A test, and the condition that it is nested in.
struct Condition {
    /// The index of the enclosing condition.
    around: usize,
    /// The test as an operand, with `!` where it must not hold.
    test: String,
    /// The test without parentheses, where it must hold.
    alone: Option<String>,
}

/// A record. `End` stands for a condition under which nothing is emitted.
pub(crate) struct Emitted {
    /// The index of its condition.
    pub(crate) condition: usize,
    pub(crate) instruction: Instruction,
    /// The number of a `Number` record.
    pub(crate) value: Option<Expression>,
}

impl Reading {
    /// Reads the code of an attribute. Returns None for code that the compiler does not write.
    pub(crate) fn read(sections: &Sections<'_>, code: &[u8]) -> Option<Reading> {
        let always = Condition {
            around: ALWAYS,
            test: String::new(),
            alone: None,
        };
        let mut reader = Reader {
            sections,
            stack: Vec::new(),
            open: Vec::new(),
            condition: ALWAYS,
            is_duplicated: false,
            is_dropped: false,
            reading: Reading {
                conditions: vec![always],
                emitted: Vec::new(),
            },
        };
        reader.read_code(code)?;
        Some(reader.reading)
    }

    /// Whether the code has any condition.
    pub(crate) fn has_conditions(&self) -> bool {
        self.conditions.len() > 1
    }

    /// A condition with its enclosing ones, as an expression. `ALWAYS` is empty.
    pub(crate) fn condition(&self, number: usize) -> String {
        let mut chain = Vec::new();
        let mut at = number;
        while let Some(condition) = self.conditions.get(at).filter(|_| at != ALWAYS) {
            chain.push(condition);
            at = condition.around;
        }
        if let [
            Condition {
                alone: Some(alone), ..
            },
        ] = chain.as_slice()
        {
            return alone.clone();
        }
        let tests: Vec<_> = chain.iter().rev().map(|it| it.test.as_str()).collect();
        tests.join(" && ")
    }
}

/// A piece of code with its own end.
enum Region {
    /// The right side of `&&` or `||`.
    Right {
        left: Expression,
        sign: &'static str,
    },
    /// The branch for a test that is not 0.
    Then { test: Expression },
    /// The branch for a test that is 0. `first` is the value that the other branch left.
    Otherwise {
        test: Expression,
        first: Option<Expression>,
    },
    /// The cases after one whose body has the condition `body`. The selector is on the stack, and
    /// `select` is the condition around the whole SELECT.
    Rest { body: usize, select: usize },
    /// The body of a case.
    Body,
}

/// A region whose end is not reached yet.
struct Open {
    region: Region,
    /// The place of its end.
    end: usize,
    /// The height of the stack before it.
    height: usize,
    /// How many records were emitted before it.
    emitted: usize,
    /// The condition around it.
    around: usize,
}

/// Reads one attribute. Its methods return None for code that the compiler does not write.
struct Reader<'s, 'i> {
    sections: &'s Sections<'i>,
    stack: Vec<Expression>,
    open: Vec<Open>,
    condition: usize,
    /// The previous instruction was `Duplicate`, which only `&&` and `||` use.
    is_duplicated: bool,
    /// The next `Pop` drops the duplicated value, which this stack never had.
    is_dropped: bool,
    reading: Reading,
}

impl Reader<'_, '_> {
    fn read_code(&mut self, code: &[u8]) -> Option<()> {
        let mut place = 0;
        while place < code.len() {
            let (instruction, next) = decode(code, place)?;
            self.close_at(place)?;
            if instruction == Instruction::End && next < code.len() {
                return None;
            }
            self.step(instruction, next)?;
            place = next;
        }
        (self.open.is_empty() && self.stack.is_empty()).then_some(())
    }

    /// Interprets one instruction; `next` is the place of the one after it.
    fn step(&mut self, instruction: Instruction, next: usize) -> Option<()> {
        match instruction {
            Instruction::Duplicate => self.is_duplicated = true,
            Instruction::Pop if self.is_dropped => self.is_dropped = false,
            Instruction::Pop => drop(self.stack.pop()?),
            Instruction::Jump(target) => self.switch(next, target)?,
            Instruction::JumpIfZero(target) => self.test(target, "&&")?,
            Instruction::JumpIfNotZero(target) => self.test(target, "||")?,
            Instruction::Case { label, target } => self.case(label, target)?,
            Instruction::End => {}
            Instruction::Number => {
                let value = self.stack.pop()?;
                self.emit(instruction, Some(value));
            }
            other => self.compute(other)?,
        }
        Some(())
    }

    /// Pushes the value of an instruction. One without a value emits a record.
    fn compute(&mut self, instruction: Instruction) -> Option<()> {
        let value = match instruction {
            Instruction::Push(number) => Expression::number(i64::from(number)),
            Instruction::Variable(variable) => {
                Expression::operand(self.name(ItemNo::Variable(variable))?)
            }
            Instruction::ReadElement(array) => {
                let index = self.stack.pop()?;
                let array = self.name(ItemNo::Array(array))?;
                Expression::operand(format!("{array}[{}]", index.text))
            }
            Instruction::Operate(operator) => {
                let (left, right) = self.pop_two()?;
                Expression::operation(operator, &left, &right)
            }
            Instruction::Compare(comparison) => {
                let (left, right) = self.pop_two()?;
                Expression::comparison(comparison, &left, &right)
            }
            Instruction::Negate => Expression::negated(&self.stack.pop()?),
            Instruction::Not => Expression::not(&self.stack.pop()?),
            Instruction::Complement => Expression::complement(&self.stack.pop()?),
            record => {
                self.emit(record, None);
                return Some(());
            }
        };
        self.stack.push(value);
        Some(())
    }

    fn pop_two(&mut self) -> Option<(Expression, Expression)> {
        let right = self.stack.pop()?;
        Some((self.stack.pop()?, right))
    }

    /// The name of an item. A valid image names only items that exist.
    fn name(&self, item: ItemNo) -> Option<&str> {
        self.sections.name(item)
    }

    fn emit(&mut self, instruction: Instruction, value: Option<Expression>) {
        self.reading.emitted.push(Emitted {
            condition: self.condition,
            instruction,
            value,
        });
    }

    /// Adds a condition nested in another one, and returns its index.
    fn under(&mut self, around: usize, test: &Expression, is_negated: bool) -> usize {
        let number = self.reading.conditions.len();
        let operand = test.as_operand();
        self.reading.conditions.push(if is_negated {
            Condition {
                around,
                test: format!("!{operand}"),
                alone: None,
            }
        } else {
            Condition {
                around,
                test: operand.into_owned(),
                alone: Some(test.text.clone()),
            }
        });
        number
    }

    fn enter(&mut self, region: Region, end: u32, around: usize) -> Option<()> {
        self.open.push(Open {
            region,
            end: usize::try_from(end).ok()?,
            height: self.stack.len(),
            emitted: self.reading.emitted.len(),
            around,
        });
        Some(())
    }

    /// A conditional jump: the left side of `&&` or `||`, or the test of a conditional.
    fn test(&mut self, target: u32, sign: &'static str) -> Option<()> {
        let test = self.stack.pop()?;
        let around = self.condition;
        if self.is_duplicated {
            self.is_duplicated = false;
            self.is_dropped = true;
            let left = test.without_truth();
            return self.enter(Region::Right { left, sign }, target, around);
        }
        if sign == "||" {
            return None;
        }
        self.condition = self.under(around, &test, false);
        self.enter(Region::Then { test }, target, around)
    }

    /// Compares the selector on top of the stack with a label. It stays for the cases after this.
    fn case(&mut self, label: i64, target: u32) -> Option<()> {
        let on = self.stack.pop()?;
        let select = self.around_cases(self.stack.len());
        let around = self.condition;
        let test = Expression::comparison(Comparison::Equal, &on, &Expression::number(label));
        let body = self.under(select, &test, false);
        self.condition = self.under(around, &test, true);
        self.enter(Region::Rest { body, select }, target, around)?;
        self.stack.push(on);
        Some(())
    }

    /// The condition around the SELECT that the next case belongs to.
    fn around_cases(&self, height: usize) -> usize {
        match self.open.last() {
            Some(Open {
                region: Region::Rest { select, .. },
                height: before,
                ..
            }) if *before == height => *select,
            _ => self.condition,
        }
    }

    /// A jump ends the first branch of a region. The second one follows it.
    fn switch(&mut self, next: usize, target: u32) -> Option<()> {
        let open = self.open.pop().filter(|open| open.end == next)?;
        let first = self.end_branch(open.height, open.emitted)?;
        match open.region {
            Region::Then { test } => {
                self.condition = self.under(open.around, &test, true);
                self.enter(Region::Otherwise { test, first }, target, open.around)
            }
            Region::Rest { body, .. } if first.is_none() => {
                self.condition = body;
                self.enter(Region::Body, target, open.around)
            }
            _ => None,
        }
    }

    /// Closes all regions that end at a place.
    fn close_at(&mut self, place: usize) -> Option<()> {
        while let Some(open) = self.open.pop_if(|open| open.end == place) {
            self.close(open)?;
        }
        Some(())
    }

    fn close(&mut self, open: Open) -> Option<()> {
        let last = self.end_branch(open.height, open.emitted)?;
        self.condition = open.around;
        match (open.region, last) {
            (Region::Right { left, sign }, Some(right)) => {
                let right = right.without_truth();
                self.stack.push(Expression::infix(sign, &left, &right));
            }
            (
                Region::Otherwise {
                    test,
                    first: Some(first),
                },
                Some(second),
            ) => {
                self.stack.push(Expression::choice(&test, &first, &second));
            }
            (Region::Otherwise { first: None, .. } | Region::Body, None) => {}
            _ => return None,
        }
        Some(())
    }

    /// Returns the value that a branch left, if it left one. A branch that emitted nothing either is
    /// recorded as such.
    fn end_branch(&mut self, height: usize, emitted: usize) -> Option<Option<Expression>> {
        if self.stack.len() == height {
            if self.reading.emitted.len() == emitted {
                self.emit(Instruction::End, None);
            }
            return Some(None);
        }
        let value = self.stack.pop()?;
        (self.stack.len() == height).then_some(Some(value))
    }
}
