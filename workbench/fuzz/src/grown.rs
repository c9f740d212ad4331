//! Grown descriptions: texts that keep every rule of the language, so that each has to be accepted.
use crate::dice::Dice;
use std::fmt::Write;

/// The deepest expression or statement that is grown.
const DEEP: usize = 4;

const LANGUAGES: &[&str] = &["de", "fr", "it", "ja"];

const BINARY: &[&str] = &[
    "+", "-", "*", "/", "%", "<<", ">>", "&", "|", "^", "==", "!=", "<", "<=", ">", ">=", "&&",
    "||",
];

/// A description while it grows. Its variables are there before what names them.
struct Growing<'d> {
    dice: &'d mut Dice,
    text: String,
    variables: usize,
    /// Whether there are an array `a` and a collection `k` of variables.
    has_groups: bool,
    methods: usize,
}

/// A text with a few items of each kind.
pub fn text(dice: &mut Dice) -> Vec<u8> {
    let variables = 1 + dice.below(6);
    let head = "MANUFACTURER 1, DEVICE_TYPE 2, DEVICE_REVISION 3, DD_REVISION 4\n".to_owned();
    let (has_groups, methods) = (dice.one_in(2), dice.below(3));
    let mut growing = Growing {
        dice,
        text: head,
        variables,
        has_groups,
        methods,
    };
    for number in 0..variables {
        growing.variable(number);
    }
    if has_groups {
        growing.groups();
    }
    for number in 0..growing.dice.below(3) {
        growing.menu(number);
    }
    for number in 0..growing.dice.below(3) {
        growing.command(number);
    }
    for number in 0..methods {
        growing.method(number);
    }
    growing.text.into_bytes()
}

impl Growing<'_> {
    fn add(&mut self, text: std::fmt::Arguments<'_>) {
        self.text.write_fmt(text).expect("a text takes all");
    }

    /// What names a variable: its name, a member, or an element that may not be there.
    fn any_variable(&mut self) -> String {
        match self.dice.below(if self.has_groups { 4 } else { 1 }) {
            0 | 1 => self.name(),
            2 => self.dice.of(&["k.first", "k.second"]).to_owned(),
            _ => format!("a[{}]", self.name()),
        }
    }

    fn name(&mut self) -> String {
        format!("v{}", self.dice.below(self.variables))
    }

    fn label(&mut self) -> String {
        match self.dice.below(4) {
            0 => format!("\"Text {}\"", self.dice.below(9)),
            1 => "[a_key]".to_owned(),
            2 => {
                let language = self.dice.of(LANGUAGES);
                format!("\"|en|Text|{language}|Wort {}\"", self.dice.below(9))
            }
            _ => "\"Two \" \"parts\"".to_owned(),
        }
    }

    fn expression(&mut self, depth: usize) -> String {
        if depth == 0 || self.dice.one_in(3) {
            return match self.dice.below(3) {
                0 => self.dice.below(1000).to_string(),
                1 => format!("0x{:X}", self.dice.below(65536)),
                _ => self.any_variable(),
            };
        }
        let first = self.expression(depth - 1);
        match self.dice.below(6) {
            0 => format!("(-{first})"),
            1 => format!("(~{first})"),
            2 => format!("(!{first})"),
            _ => {
                let operator = self.dice.of(BINARY);
                let second = self.expression(depth - 1);
                format!("({first} {operator} {second})")
            }
        }
    }

    /// One value, or values under conditions.
    fn condition(&mut self, value: fn(&mut Self) -> String, depth: usize) -> String {
        match self.dice.below(if depth == 0 { 1 } else { 4 }) {
            0 | 1 => value(self),
            2 => {
                let (test, yes, no) = (
                    self.expression(2),
                    self.condition(value, depth - 1),
                    self.condition(value, depth - 1),
                );
                format!("IF ({test}) {{ {yes} }} ELSE {{ {no} }}")
            }
            _ => {
                let (test, one, rest) = (
                    self.expression(2),
                    self.condition(value, depth - 1),
                    self.condition(value, depth - 1),
                );
                format!("SELECT ({test}) {{ CASE 1: {one} CASE 2: {one} DEFAULT: {rest} }}")
            }
        }
    }

    fn variable(&mut self, number: usize) {
        let label = self.condition(|it| format!("{};", it.label()), 2);
        let validity = self.condition(|it| it.dice.of(&["TRUE;", "FALSE;"]).to_owned(), 2);
        let handling = self.condition(
            |it| it.dice.of(&["READ;", "WRITE;", "READ & WRITE;"]).to_owned(),
            1,
        );
        let kind = self.kind();
        self.add(format_args!(
            "VARIABLE v{number} {{ LABEL {label} HANDLING {handling} VALIDITY {validity} TYPE {kind} }}\n"
        ));
    }

    fn kind(&mut self) -> String {
        let size = 1 + self.dice.below(4);
        match self.dice.below(4) {
            0 => format!("INTEGER ({size});"),
            1 => format!("UNSIGNED_INTEGER ({size});"),
            2 => {
                let most = self.expression(DEEP);
                format!("INTEGER ({size}) {{ DEFAULT_VALUE 7; MAX_VALUE {most}; }}")
            }
            _ => {
                let (one, two) = (self.label(), self.label());
                let test = self.expression(2);
                format!(
                    "ENUMERATED ({size}) {{ {{ 1, {one} }}, IF ({test}) {{ {{ 2, {two} }} }} }}"
                )
            }
        }
    }

    fn menu(&mut self, number: usize) {
        let (label, one, two) = (self.label(), self.name(), self.name());
        let test = self.expression(2);
        self.add(format_args!(
            "MENU m{number} {{ LABEL {label}; ITEMS {{ {one}, \"A text\", IF ({test}) {{ {two} (READ_ONLY) }} }} }}\n"
        ));
    }

    fn command(&mut self, number: usize) {
        let (one, two) = (self.name(), self.name());
        let test = self.expression(2);
        let code = 1 + self.dice.below(100);
        self.add(format_args!(
            "COMMAND c{number} {{ NUMBER {number}; OPERATION READ; TRANSACTION {{ REQUEST {{ {code}, {one} }} \
             REPLY {{ {two}, IF ({test}) {{ 3, {one} <0x0F> }} }} }} \
             RESPONSE_CODES {{ 0, SUCCESS, \"Done\"; {code}, MISC_ERROR, \"Failed\"; }} }}\n"
        ));
    }

    fn groups(&mut self) {
        let (one, two, label) = (self.name(), self.name(), self.label());
        self.add(format_args!(
            "COLLECTION OF VARIABLE k {{ LABEL {label}; MEMBERS {{ first, {one}; second, {two}, \"Two\"; }} }}\n\
             ARRAY OF VARIABLE a {{ LABEL {label}; ELEMENTS {{ 0, {two}; 1, {one}, \"One\"; 7, v0; }} }}\n"
        ));
    }

    fn method(&mut self, number: usize) {
        let label = self.label();
        self.add(format_args!(
            "METHOD p{number} {{ LABEL {label}; DEFINITION {{ int i; int n = 3;\n"
        ));
        for _ in 0..1 + self.dice.below(5) {
            self.statement(DEEP);
        }
        self.text.push_str("} }\n");
    }

    fn statement(&mut self, depth: usize) {
        let test = self.expression(2);
        // An element of an array can be read, and not set.
        let is_member = self.has_groups && self.dice.one_in(3);
        let variable = if is_member {
            "k.second".to_owned()
        } else {
            self.name()
        };
        let choices = if depth == 0 { 7 } else { 11 };
        match self.dice.below(choices) {
            0 => self.add(format_args!("{variable} = {test};\n")),
            1 => self.add(format_args!("n += {test}; i = n++;\n")),
            2 => self.add(format_args!("if (send_command({}) != 0) n = 1;\n", depth)),
            3 => self.text.push_str("ACKNOWLEDGE(\"Go on\");\n"),
            4 => self.add(format_args!(
                "GET_DEV_VAR_VALUE(\"Which value\", {variable});\n"
            )),
            5 => self.text.push_str("save_values();\n"),
            6 => {
                let method = self.dice.below(self.methods);
                let rest =
                    self.dice
                        .of(&["", "if (n > 20) abort();", "if (i == 3) process_abort();"]);
                self.add(format_args!("add_abort_method(p{method}); {rest}\n"));
            }
            7 => self.block(&format!("if ({test})"), depth),
            8 => self.block("for (i = 0; i < 5; i++)", depth),
            9 => {
                self.text.push_str("do ");
                self.block("", depth);
                self.add(format_args!("while ({test} && n++ < 9);\n"));
            }
            _ => {
                self.add(format_args!("switch ({test}) {{ case 1:\n"));
                self.statement(depth - 1);
                self.text.push_str("break; default:\n");
                self.statement(depth - 1);
                self.text.push_str("}\n");
            }
        }
    }

    fn block(&mut self, head: &str, depth: usize) {
        self.add(format_args!("{head} {{\n"));
        for _ in 0..=self.dice.below(3) {
            self.statement(depth - 1);
        }
        self.text.push_str("}\n");
    }
}
