//! Sets of states.

use crate::codes::{State, UnknownCode};
use std::fmt;

/// The set of states that a pair can be in.
///
/// ```
/// use korehyumo::{State, StateSet};
///
/// let set: StateSet = [State::SC, State::I].into_iter().collect();
/// assert!(set.contains(State::SC) && !set.contains(State::SD));
/// assert_eq!(set.to_string(), "I SC");
/// assert_eq!(set.bits(), 33);
/// assert_eq!(StateSet::try_from(33), Ok(set));
/// assert!(StateSet::try_from(128).is_err());
/// ```
#[derive(Clone, Copy, Default, PartialEq, Eq, Hash)]
pub struct StateSet(u8);

impl StateSet {
    /// The empty set: the pair is lost.
    pub const EMPTY: StateSet = StateSet(0);
    /// The set of all seven states: nothing is known of the pair.
    pub const ALL: StateSet = StateSet(127);

    /// The set of one state.
    pub const fn only(state: State) -> StateSet {
        StateSet(1 << state.code())
    }

    /// The set of a byte that the library gave, which is never above 127.
    pub(crate) const fn given(byte: u8) -> StateSet {
        StateSet(byte)
    }

    /// Its byte, in which state n has weight 2 to the n.
    pub const fn bits(self) -> u8 {
        self.0
    }

    /// Whether a state is in it.
    pub const fn contains(self, state: State) -> bool {
        self.0 & StateSet::only(state).0 != 0
    }

    /// Whether no state is in it.
    pub const fn is_empty(self) -> bool {
        self.0 == 0
    }

    /// How many states are in it.
    pub const fn len(self) -> usize {
        self.0.count_ones() as usize
    }

    /// Whether a Dirty state is in it.
    pub fn holds_dirty(self) -> bool {
        self.iter().any(State::is_dirty)
    }

    /// Its states, in the order of their codes.
    pub fn iter(self) -> impl Iterator<Item = State> + Clone {
        State::ALL
            .into_iter()
            .filter(move |state| self.contains(*state))
    }
}

impl From<State> for StateSet {
    fn from(state: State) -> StateSet {
        StateSet::only(state)
    }
}

impl FromIterator<State> for StateSet {
    fn from_iter<States: IntoIterator<Item = State>>(states: States) -> StateSet {
        let both = |set: u8, state: State| set | StateSet::only(state).0;
        StateSet(states.into_iter().fold(0, both))
    }
}

impl TryFrom<u8> for StateSet {
    type Error = UnknownCode;

    fn try_from(byte: u8) -> Result<StateSet, UnknownCode> {
        if byte <= StateSet::ALL.0 {
            Ok(StateSet(byte))
        } else {
            Err(UnknownCode {
                kind: "StateSet",
                code: byte,
            })
        }
    }
}

impl fmt::Display for StateSet {
    /// Writes the names of its states with spaces between them, as on the bench sheet; nothing for the empty set.
    fn fmt(&self, f: &mut fmt::Formatter<'_>) -> fmt::Result {
        let names: Vec<&str> = self.iter().map(State::name).collect();
        f.pad(&names.join(" "))
    }
}

impl fmt::Debug for StateSet {
    fn fmt(&self, f: &mut fmt::Formatter<'_>) -> fmt::Result {
        f.debug_set().entries(self.iter()).finish()
    }
}
