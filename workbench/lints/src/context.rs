//! What all lints look at.

use crate::exchanged::States;
use crate::instrument::Instrument;
use crate::labels::Labels;
use crate::names::Names;
use crate::places::Places;
use crate::source::Source;
use crate::usage::Usage;
use std::sync::OnceLock;

/// What all lints look at.
pub(crate) struct Context<'d> {
    pub(crate) source: Source<'d>,
    pub(crate) places: Places,
    pub(crate) instrument: Instrument<'d>,
    pub(crate) usage: Usage,
    pub(crate) names: Names,
    labels: OnceLock<Labels>,
    states: OnceLock<States>,
}

impl<'d> Context<'d> {
    pub(crate) fn new(
        source: Source<'d>,
        places: Places,
        instrument: Instrument<'d>,
        usage: Usage,
    ) -> Context<'d> {
        Context {
            source,
            places,
            names: Names::of(&instrument),
            labels: OnceLock::new(),
            states: OnceLock::new(),
            instrument,
            usage,
        }
    }

    /// The variables by their labels. Few descriptions ask for them.
    pub(crate) fn labels(&self) -> &Labels {
        self.labels.get_or_init(|| Labels::of(&self.instrument))
    }

    /// The variables by the texts of their enumerators. Few descriptions ask for them.
    pub(crate) fn states(&self) -> &States {
        self.states.get_or_init(|| States::of(&self.instrument))
    }
}
