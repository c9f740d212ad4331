//! What leads back to itself.

/// How far a walk has come with a node.
#[derive(Clone, Copy, PartialEq, Eq)]
enum State {
    New,
    /// The walk is inside.
    Open,
    /// The same, and that the node leads back to itself is found.
    Found,
    Done,
}

/// A node that leads back to itself, and the one that leads to it at the end of that way.
#[derive(Clone, Copy, Debug, PartialEq, Eq)]
pub(crate) struct Cycle {
    pub(crate) node: usize,
    pub(crate) by: usize,
}

struct Walk {
    states: Vec<State>,
    open: Vec<usize>,
    found: Vec<Cycle>,
}

impl Walk {
    fn enter(&mut self, by: usize, node: usize) {
        let Some(state) = self.states.get_mut(node) else {
            return;
        };
        match *state {
            State::New => {
                *state = State::Open;
                self.open.push(node);
            }
            State::Open => {
                *state = State::Found;
                self.found.push(Cycle { node, by });
            }
            State::Found | State::Done => {}
        }
    }

    fn leave(&mut self, node: usize) {
        self.open.pop();
        if let Some(state) = self.states.get_mut(node) {
            *state = State::Done;
        }
    }
}

/// Finds cycles of a graph, given by the nodes to which each node leads. Of each circle one node is
/// found; each node and each way is passed once.
pub(crate) fn find_cycles(mut next: Vec<Vec<usize>>) -> Vec<Cycle> {
    let mut walk = Walk {
        states: vec![State::New; next.len()],
        open: Vec::new(),
        found: Vec::new(),
    };
    for nodes in &mut next {
        // They are taken from the end.
        nodes.reverse();
    }
    for start in 0..next.len() {
        if walk.states.get(start) == Some(&State::New) {
            walk.enter(start, start);
        }
        while let Some(node) = walk.open.last().copied() {
            match next.get_mut(node).and_then(Vec::pop) {
                Some(to) => walk.enter(node, to),
                None => walk.leave(node),
            }
        }
    }
    walk.found
}

#[cfg(test)]
mod tests {
    use super::{Cycle, find_cycles};

    #[test]
    fn a_circle_is_found_once_and_a_chain_never() {
        let cycle = |node, by| Cycle { node, by };
        assert_eq!(find_cycles(vec![vec![1], vec![2], vec![]]), []);
        assert_eq!(find_cycles(vec![vec![0]]), [cycle(0, 0)]);
        assert_eq!(
            find_cycles(vec![vec![1], vec![2], vec![1, 0]]),
            [cycle(1, 2), cycle(0, 2)]
        );
    }
}
