/// One step of a marking.
#[derive(Clone, Copy, PartialEq, Eq, Debug)]
pub struct State {
    pub done: bool,
    pub due: bool,
    pub included: bool,
}

/// What happens to one step: for each of its eight states the state afterwards, or none where that state is not allowed.
#[derive(Clone, Copy, PartialEq, Eq, Debug)]
pub struct Cell([Option<State>; 8]);

impl State {
    /// All eight, each at its own index.
    pub fn all() -> [State; 8] {
        [0, 1, 2, 3, 4, 5, 6, 7].map(|i| State { done: i & 1 != 0, due: i & 2 != 0, included: i & 4 != 0 })
    }

    fn index(self) -> usize {
        usize::from(self.done) + 2 * usize::from(self.due) + 4 * usize::from(self.included)
    }
}

impl Cell {
    pub fn new(rule: impl Fn(State) -> Option<State>) -> Self {
        Cell(State::all().map(rule))
    }

    /// Nothing is needed and nothing changes.
    pub fn idle() -> Self {
        Cell::new(Some)
    }

    /// No state is allowed.
    pub fn never() -> Self {
        Cell::new(|_| None)
    }

    pub fn of(&self, state: State) -> Option<State> {
        self.0[state.index()]
    }

    /// This, and the other one then.
    pub fn then(&self, other: &Cell) -> Cell {
        Cell::new(|state| self.of(state).and_then(|middle| other.of(middle)))
    }

    /// Is some state allowed that is like this?
    pub fn allows(&self, like: impl Fn(State) -> bool) -> bool {
        State::all().into_iter().any(|state| like(state) && self.of(state).is_some())
    }

    /// Does some state that is allowed change like this, from before to after?
    pub fn changes(&self, like: impl Fn(State, State) -> bool) -> bool {
        State::all().into_iter().any(|state| self.of(state).is_some_and(|after| like(state, after)))
    }
}
