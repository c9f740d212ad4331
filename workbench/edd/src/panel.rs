//! A communicator over an image.

use crate::memory::{Global, made};
use crate::{Answer, AnswerFault, EditFault, Opened, Screen, Sheet, StartFault, Values, Words};
use core_std::vec::Vec as CoreVec;
use edd_instructions::Request;
use edd_port::Turn;
use edd_syntax::answer::Trap;
use edd_syntax::numbers::{CollNo, MenuNo, MethNo, VarNo};
use legacy_panel_lines::{TextSink, prompt_of, push_view};
use std::fmt;

/// A communicator over an image: where its user is, the values of the device, and the method that
/// runs.
///
/// A user's commands change it ([`Panel::perform`]), and so does the program, which lets a method
/// go on ([`Panel::advance`]) and answers for the device ([`Panel::answer`]). What is shown is read
/// of it.
///
/// ```
/// use edd::{Command, EditFault, Happened, Panel, VarNo};
///
/// let image = edd::compile(
///     b"MANUFACTURER 1, DEVICE_TYPE 2, DEVICE_REVISION 3, DD_REVISION 4
///       VARIABLE p { LABEL \"Pressure\"; TYPE INTEGER (2) { MAX_VALUE 100; } }",
/// )?;
/// let opened = image.open();
/// let mut panel = Panel::open(&opened, "en", image.start_values())?;
/// assert_eq!(panel.lines(), "Top\n  1 Pressure  0\n");
/// assert_eq!(panel.perform(Command::Number(1)), Happened::Moved);
/// assert_eq!(panel.perform(Command::Number(101)), Happened::Refused(EditFault::OutOfLimits));
/// assert_eq!(panel.perform(Command::Number(100)), Happened::Edited(VarNo(0), 100));
/// # Ok::<(), Box<dyn std::error::Error>>(())
/// ```
pub struct Panel<'i, 'b> {
    opened: &'i Opened<'b>,
    core: edd_panel::Panel<'i, 'b>,
}

/// A panel is not opened, because the values are those of another image. It has the values.
#[derive(Clone, Debug, PartialEq, Eq)]
pub struct WrongValues(pub Values);

impl fmt::Display for WrongValues {
    fn fmt(&self, f: &mut fmt::Formatter<'_>) -> fmt::Result {
        StartFault::WrongValues.fmt(f)
    }
}

impl std::error::Error for WrongValues {}

/// What a user asks for.
#[derive(Clone, Copy, Debug, PartialEq, Eq)]
pub enum Command {
    /// Acknowledges, or goes on.
    Enter,
    /// Leaves a variable or a menu.
    Back,
    /// The entry of a menu, the value of a variable, a choice or a code, as the place has it.
    Number(i64),
    /// Aborts the method that asks.
    Abort,
}

impl Command {
    fn to_core(self) -> edd_panel::Command {
        match self {
            Command::Enter => edd_panel::Command::Enter,
            Command::Back => edd_panel::Command::Back,
            Command::Number(number) => edd_panel::Command::Number(number),
            Command::Abort => edd_panel::Command::Abort,
        }
    }

    fn from_core(command: edd_panel::Command) -> Command {
        match command {
            edd_panel::Command::Enter => Command::Enter,
            edd_panel::Command::Back => Command::Back,
            edd_panel::Command::Number(number) => Command::Number(number),
            edd_panel::Command::Abort => Command::Abort,
        }
    }
}

/// What a command did.
#[derive(Clone, Debug, PartialEq, Eq)]
pub enum Happened {
    /// Nothing changed.
    Shown,
    /// The user is at another place.
    Moved,
    /// The variable was set to the number.
    Edited(VarNo, i64),
    /// The number was refused, and nothing changed.
    Refused(EditFault),
    /// A method runs from its start.
    Started(MethNo),
    /// The method has no body.
    NotStarted(StartFault),
    /// The pending request got this answer.
    Answered(Answer),
    /// There is no such entry.
    NoEntry,
    /// The VALIDITY of the entry traps.
    Trapped(Trap),
    /// The command means nothing at this place.
    Unknown,
}

impl Happened {
    fn from_core(happened: edd_panel::Happened) -> Happened {
        match happened {
            edd_panel::Happened::Shown => Happened::Shown,
            edd_panel::Happened::Moved => Happened::Moved,
            edd_panel::Happened::Edited(variable, number) => Happened::Edited(variable, number),
            edd_panel::Happened::Refused(fault) => Happened::Refused(EditFault::from_core(fault)),
            edd_panel::Happened::Started(method) => Happened::Started(method),
            edd_panel::Happened::NotStarted(fault) => {
                Happened::NotStarted(StartFault::from_core(fault))
            }
            edd_panel::Happened::Answered(answer) => Happened::Answered(Answer::from_core(answer)),
            edd_panel::Happened::NoEntry => Happened::NoEntry,
            edd_panel::Happened::Trapped(trap) => Happened::Trapped(trap),
            edd_panel::Happened::Unknown => Happened::Unknown,
        }
    }
}

/// What has a screen of entries.
#[derive(Clone, Copy, Debug, PartialEq, Eq)]
pub enum Place {
    /// The menus that no other menu names, or all variables and methods where there is no menu.
    Top,
    /// A menu.
    Menu(MenuNo),
    /// A collection.
    Collection(CollNo),
}

/// A variable that is open.
#[derive(Clone, Copy, Debug, PartialEq, Eq)]
pub struct Field {
    /// The variable.
    pub variable: VarNo,
    /// Whether its entry is READ_ONLY.
    pub read_only: bool,
}

/// What a typed line asks for.
#[derive(Clone, Copy, Debug, PartialEq, Eq)]
pub enum Line {
    /// A command.
    Command(Command),
    /// The help of an entry, or of the variable that is open.
    Help(Option<i64>),
    /// Which commands there are.
    Commands,
    /// To quit.
    Quit,
    /// It means nothing here.
    Unknown,
}

impl<'i, 'b> Panel<'i, 'b> {
    /// A panel at its top screen, with texts in the language of this code.
    ///
    /// # Errors
    ///
    /// The values are those of another image.
    pub fn open(
        opened: &'i Opened<'b>,
        language: &'i str,
        values: Values,
    ) -> Result<Panel<'i, 'b>, WrongValues> {
        if !values.are_of(opened.image()) {
            return Err(WrongValues(values));
        }
        let kept = values.clone();
        let core = edd_panel::Panel::open(Global, opened.core(), language, values.into_core());
        match core {
            Some(core) => Ok(Panel { opened, core }),
            None => Err(WrongValues(kept)),
        }
    }

    /// Performs a command. A method that runs takes it, else the variable that is open, else the
    /// menu.
    pub fn perform(&mut self, command: Command) -> Happened {
        Happened::from_core(made(self.core.take(Global, command.to_core())))
    }

    /// Answers the pending request, as a device does.
    ///
    /// # Errors
    ///
    /// No method asks, or the answer sets what cannot be set. Then nothing changes.
    pub fn answer(&mut self, answer: &Answer) -> Result<(), AnswerFault> {
        let answered = self.core.answer(&answer.to_core());
        answered.map_err(AnswerFault::from_core)
    }

    /// Executes at most so many instructions of the method that runs, and returns where it is then.
    /// Where it is over, its values are those of the device.
    pub fn advance(&mut self, budget: u32) -> Option<Turn> {
        self.core.advance(budget)
    }

    /// Where the method is that runs, if one does.
    pub fn turn(&self) -> Option<Turn> {
        self.core.turn()
    }

    /// The value of a variable as the user sees it: in the method that runs, or of the device.
    pub fn value(&self, variable: VarNo) -> Option<i64> {
        self.core.values().get(variable)
    }

    /// A copy of the values as the user sees them.
    pub fn values(&self) -> Values {
        let numbers = self.core.values().numbers.as_slice().to_vec();
        let numbers = CoreVec::from_real(numbers);
        Values::from_core(self.opened.image(), edd_machine::Values { numbers })
    }

    /// The image that it shows.
    pub fn opened(&self) -> &'i Opened<'b> {
        self.opened
    }

    /// The code of the language of its texts.
    pub fn language(&self) -> &'i str {
        self.core.language()
    }

    /// How many levels the user is below the top.
    pub fn depth(&self) -> usize {
        self.core.depth()
    }

    /// Where the user is, apart from the variable that is open.
    pub fn place(&self) -> Place {
        match self.core.level().place {
            edd_panel::Place::Top => Place::Top,
            edd_panel::Place::Menu(menu) => Place::Menu(menu),
            edd_panel::Place::Collection(collection) => Place::Collection(collection),
        }
    }

    /// The variable that is open, if one is.
    pub fn field(&self) -> Option<Field> {
        let field = self.core.field()?;
        Some(Field {
            variable: field.variable,
            read_only: field.read_only,
        })
    }

    /// The screen of the menu where the user is.
    pub fn screen(&self) -> Screen<'b> {
        Screen::from_core(made(legacy_screens::screen_of(Global, &self.core)))
    }

    /// What is shown of the variable that a method asks for, or else of the one that is open.
    pub fn sheet(&self) -> Option<Sheet<'b>> {
        let (field, is_asked) = match (self.core.turn(), self.core.field()) {
            (Some(Turn::Asks(Request::GetDevVarValue(_, variable))), _) => (asked(variable), true),
            (None, Some(field)) => (field, false),
            _ => return None,
        };
        let sheet = made(legacy_screens::sheet_of(
            Global, &self.core, field, is_asked,
        ));
        Some(Sheet::from_core(sheet))
    }

    /// The help of the entry of a number, or else of the variable that is open.
    pub fn help(&self, number: Option<i64>) -> Option<Words<'b>> {
        made(legacy_screens::help_of(Global, &self.core, number)).map(Words::from_core)
    }

    /// What a line that the user types asks for here. docs/OPEN.md lists the lines.
    pub fn line(&self, line: &str) -> Line {
        match made(legacy_screens::line_of(Global, &self.core, line)) {
            legacy_screens::Line::Command(command) => Line::Command(Command::from_core(command)),
            legacy_screens::Line::Help(number) => Line::Help(number),
            legacy_screens::Line::Commands => Line::Commands,
            legacy_screens::Line::Quit => Line::Quit,
            legacy_screens::Line::Unknown => Line::Unknown,
        }
    }

    /// What is shown, as lines of text: the request of the method, the variable that is open, or
    /// the menu.
    pub fn lines(&self) -> String {
        let mut lines = TextSink::new(Global);
        push_view(&mut lines, &self.core);
        made(lines.finish()).as_str().to_owned()
    }

    /// What the user is asked for, as `entry?`.
    pub fn prompt(&self) -> &'static str {
        prompt_of(&self.core)
    }
}

// A method may set what its user cannot write.
fn asked(variable: VarNo) -> edd_panel::Field {
    edd_panel::Field {
        variable,
        read_only: false,
    }
}

impl fmt::Debug for Panel<'_, '_> {
    fn fmt(&self, f: &mut fmt::Formatter<'_>) -> fmt::Result {
        f.debug_struct("Panel")
            .field("place", &self.place())
            .field("field", &self.field())
            .field("turn", &self.turn())
            .finish_non_exhaustive()
    }
}
