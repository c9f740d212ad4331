//! The words of a document that an editor was told of, so that it can be told what has changed.

use crate::answers::{SemanticTokens, SemanticTokensDelta, SemanticTokensEdit};
use std::cell::RefCell;

/// So many numbers stand for a word.
const NUMBERS: usize = 5;

/// An answer with all words of a document.
#[derive(Debug, Default)]
struct Sent {
    /// By this the editor names the answer: answers are counted, so that each has another number.
    number: u64,
    data: Vec<usize>,
}

/// The last answer with the words of a document; an editor asks for changes of that one alone.
#[derive(Debug, Default)]
pub(crate) struct SentTokens(RefCell<Sent>);

impl SentTokens {
    /// The last answer, for the next version of the document.
    pub(crate) fn take(&self) -> SentTokens {
        SentTokens(RefCell::new(self.0.take()))
    }

    /// All words.
    pub(crate) fn send_all(&self, data: Vec<usize>) -> SemanticTokens {
        let number = self.0.take().number.saturating_add(1);
        let answer = SemanticTokens {
            result_id: number.to_string(),
            data: data.clone(),
        };
        self.0.replace(Sent { number, data });
        answer
    }

    /// What has changed since the answer of this name; none where the last one has another name.
    pub(crate) fn send_changes(&self, name: &str, data: &[usize]) -> Option<SemanticTokensDelta> {
        let sent = self.0.take();
        if sent.number == 0 || sent.number.to_string() != name {
            self.0.replace(sent);
            return None;
        }
        let edit = change_of(&sent.data, data);
        let number = sent.number.saturating_add(1);
        let data = data.to_vec();
        self.0.replace(Sent { number, data });
        Some(SemanticTokensDelta {
            result_id: number.to_string(),
            edits: edit.into_iter().collect(),
        })
    }
}

/// The edit that makes the new words of the old ones; none where they are the same.
fn change_of(old: &[usize], new: &[usize]) -> Option<SemanticTokensEdit> {
    if old == new {
        return None;
    }
    let begin_alike = |(old, new): &(&[usize], &[usize])| old == new;
    let (olds, news) = (old.chunks(NUMBERS), new.chunks(NUMBERS));
    let first = olds.zip(news).take_while(begin_alike).count();
    let start = first.saturating_mul(NUMBERS);
    let old = old.get(start..).unwrap_or_default();
    let new = new.get(start..).unwrap_or_default();
    let (olds, news) = (old.rchunks(NUMBERS), new.rchunks(NUMBERS));
    let last = olds.zip(news).take_while(begin_alike).count();
    let kept = last.saturating_mul(NUMBERS);
    let changed = new.len().saturating_sub(kept);
    Some(SemanticTokensEdit {
        start,
        delete_count: old.len().saturating_sub(kept),
        data: new.get(..changed).unwrap_or_default().to_vec(),
    })
}

#[cfg(test)]
#[allow(clippy::expect_used, reason = "a test fails by a panic")]
mod tests {
    use super::*;

    fn words(numbers: &[usize]) -> Vec<usize> {
        let words = numbers.iter().map(|number| [*number; NUMBERS]);
        words.flatten().collect()
    }

    #[test]
    fn what_has_changed_is_one_edit() {
        // The words before and behind the change are kept, each once.
        let cases: [[&[usize]; 3]; 6] = [
            [&[1, 2, 3], &[1, 4, 3], &[4]],
            [&[1, 3], &[1, 2, 3], &[2]],
            [&[1, 2, 3], &[1, 3], &[]],
            [&[], &[1], &[1]],
            [&[1, 1], &[1], &[]],
            [&[1], &[1, 1], &[1]],
        ];
        let places = [(5, 5), (5, 0), (5, 5), (0, 0), (5, 5), (5, 0)];
        for ([old, new, data], (start, delete_count)) in cases.into_iter().zip(places) {
            let edit = change_of(&words(old), &words(new)).expect("a change");
            let data = words(data);
            let wanted = SemanticTokensEdit {
                start,
                delete_count,
                data,
            };
            assert_eq!(edit, wanted, "{old:?} {new:?}");
        }
        assert_eq!(change_of(&words(&[1]), &words(&[1])), None);
    }

    #[test]
    fn changes_are_told_of_the_last_answer_alone() {
        let sent = SentTokens::default();
        assert!(sent.send_changes("0", &[]).is_none());
        assert_eq!(sent.send_all(words(&[1])).result_id, "1");
        let changed = sent.send_changes("1", &words(&[2])).expect("changes");
        assert_eq!((changed.result_id.as_str(), changed.edits.len()), ("2", 1));
        assert!(sent.send_changes("1", &words(&[2])).is_none());
        let later = sent.take();
        let same = later.send_changes("2", &words(&[2])).expect("changes");
        assert_eq!((same.result_id.as_str(), same.edits.len()), ("3", 0));
    }
}
