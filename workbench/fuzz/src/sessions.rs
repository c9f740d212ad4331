//! What has to hold of each run of a method: where it is cut makes no difference, and a refused answer
//! changes nothing.
use crate::counts::Counts;
use crate::dice::Dice;
use edd_loader::Image;
use edd_machine::{Values, set_fault};
use edd_plain_std::alloc::Global;
use edd_plain_std::vec::Vec as List;
use edd_port::{Session, Turn};
use edd_syntax::answer::Answer;
use edd_syntax::numbers::{MethNo, VarNo};

/// How many instructions a run may execute, and how many answers there are.
const STEPS: u32 = 400;

const ANSWERS: usize = 12;

/// An answer, as numbers: nothing where the host aborts.
type Given = Option<(i32, Vec<(u16, i64)>)>;

pub fn tried(
    image: &Image<'_>,
    numbers: &[i64],
    dice: &mut Dice,
    counts: &mut Counts,
) -> Result<(), String> {
    let methods = image.counts().methods;
    if methods == 0 {
        return Ok(());
    }
    let method = MethNo(dice.below(usize::from(methods)) as u16);
    let answers: Vec<Given> = (0..ANSWERS).map(|_| given(image, dice)).collect();
    let whole = run(image, method, numbers, &answers, dice, false)?;
    let cut = run(image, method, numbers, &answers, dice, true)?;
    counts.sessions += 1;
    if whole == cut {
        Ok(())
    } else {
        Err(format!("method {method:?} cut: {cut:?}, whole: {whole:?}"))
    }
}

fn given(image: &Image<'_>, dice: &mut Dice) -> Given {
    if dice.one_in(12) {
        return None;
    }
    let count = image.counts().variables;
    let mut sets = Vec::new();
    for _ in 0..dice.below(3) {
        if count > 0 {
            let variable = dice.below(usize::from(count)) as u16;
            let value = dice.below(200) as i64;
            if set_fault(image, VarNo(variable), value).is_none() {
                sets.push((variable, value));
            }
        }
    }
    Some((dice.below(4) as i32, sets))
}

fn answer_of(given: &Given) -> Answer {
    let Some((code, sets)) = given else {
        return Answer::Abort;
    };
    let sets = sets
        .iter()
        .map(|(variable, value)| (VarNo(*variable), *value))
        .collect();
    Answer::Go {
        code: *code,
        sets: List::from_real(sets),
    }
}

/// What can be seen of a session.
fn seen(session: &Session<'_, '_>) -> String {
    format!(
        "{:?} {:?} {}",
        session.turn(),
        session.values(),
        session.taken()
    )
}

/// A run under these answers: its requests, and what is seen at its end; nothing where it can't start.
fn run(
    image: &Image<'_>,
    method: MethNo,
    numbers: &[i64],
    answers: &[Given],
    dice: &mut Dice,
    is_cut: bool,
) -> Result<Vec<String>, String> {
    let values = Values::new(Global, image, numbers).map_err(|fault| format!("{fault}"))?;
    let mut session = match Session::start(image, method, values) {
        Ok(session) => session,
        Err((fault, _)) => return Ok(vec![format!("{fault}")]),
    };
    let (mut left, mut said, mut answers) = (STEPS, Vec::new(), answers.iter());
    loop {
        let before = session.taken();
        let budget = if is_cut {
            left.min(1 + dice.below(7) as u32)
        } else {
            left
        };
        let turn = session.advance(budget);
        let taken = u32::try_from(session.taken() - before).map_err(|_| "too many instructions")?;
        if taken > budget {
            return Err(format!("{taken} instructions under a budget of {budget}"));
        }
        left -= taken;
        refuse(&mut session, &turn)?;
        match (turn, answers.as_slice().first()) {
            (Turn::Asks(request), Some(given)) => {
                said.push(format!("{request:?}"));
                session
                    .answer(&answer_of(given))
                    .map_err(|fault| format!("an answer is refused: {fault}"))?;
                answers.next();
            }
            (Turn::Spent, _) if left > 0 => {}
            _ => break,
        }
    }
    said.push(seen(&session));
    Ok(said)
}

/// Gives an answer that has to be refused: it sets no variable, or nothing was asked.
fn refuse(session: &mut Session<'_, '_>, turn: &Turn) -> Result<(), String> {
    let before = seen(session);
    let sets = if matches!(turn, Turn::Asks(_)) {
        vec![(u16::MAX, 0)]
    } else {
        Vec::new()
    };
    if session.answer(&answer_of(&Some((0, sets)))).is_ok() {
        return Err("an answer is taken that fits nothing".into());
    }
    if seen(session) == before {
        Ok(())
    } else {
        Err("a refused answer changes something".into())
    }
}
