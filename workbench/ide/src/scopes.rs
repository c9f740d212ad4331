//! The locals of a method while its body is read.

/// A local, by the token that opened its braces, its name and its declaration.
#[derive(Clone, Copy, Debug)]
struct Local {
    open: usize,
    name: usize,
    declaration: usize,
}

/// A local that can be used, and what its name meant before.
#[derive(Clone, Copy, Debug)]
struct Hidden {
    local: Local,
    before: Option<usize>,
}

/// The locals that can be used at a place.
pub(crate) struct Scopes {
    /// The innermost local of each name, by the numbers of names.
    visible: Vec<Option<usize>>,
    hidden: Vec<Hidden>,
    /// The local whose declarator is being read.
    waiting: Option<Local>,
}

impl Scopes {
    /// No locals, of so many names.
    pub(crate) fn new(names: usize) -> Scopes {
        Scopes {
            visible: vec![None; names],
            hidden: Vec::new(),
            waiting: None,
        }
    }

    /// The innermost local of a name.
    pub(crate) fn local(&self, name: usize) -> Option<usize> {
        *self.visible.get(name)?
    }

    pub(crate) fn is_empty(&self) -> bool {
        self.hidden.is_empty() && self.waiting.is_none()
    }

    /// Declares a local in the braces of a token; it can be used after its declarator.
    pub(crate) fn declare(&mut self, open: usize, name: usize, declaration: usize) {
        self.waiting = Some(Local {
            open,
            name,
            declaration,
        });
    }

    /// What a name means from now on.
    fn set_visible(&mut self, name: usize, declaration: Option<usize>) {
        if let Some(place) = self.visible.get_mut(name) {
            *place = declaration;
        }
    }

    /// Ends a declarator, and gives its local.
    pub(crate) fn end_declarator(&mut self) -> Option<usize> {
        let local = self.waiting.take()?;
        let before = self.local(local.name);
        self.hidden.push(Hidden { local, before });
        self.set_visible(local.name, Some(local.declaration));
        Some(local.declaration)
    }

    /// Takes back the last local, if it was declared in the braces of this token, or in any where
    /// there is none.
    pub(crate) fn take_back(&mut self, open: Option<usize>) -> Option<usize> {
        let Hidden { local, before } = self.hidden.last().copied()?;
        if open.is_some_and(|open| open != local.open) {
            return None;
        }
        self.hidden.pop();
        self.set_visible(local.name, before);
        Some(local.declaration)
    }

    /// How many locals can be used or are hidden.
    pub(crate) fn len(&self) -> usize {
        self.hidden.len()
    }
}
