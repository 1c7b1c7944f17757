//! The state of the box, and the plain arrays in which a state is passed from program to program.

use super::plan::{Lie, Plan, MOST_SIGNALS, MOST_TRACKS};

/// A state as it is passed around: nothing keeps it from being nonsense.
#[derive(Clone, Debug, PartialEq, Eq)]
#[repr(C)]
pub struct Arrays {
    /// 0 is no train.
    pub trains: [u8; MOST_TRACKS],
    /// 0 is normal, 1 reverse.
    pub lies: [u8; MOST_TRACKS],
    /// For each track the routes that hold it: bit r is route r.
    pub holds: [u64; MOST_TRACKS],
    /// 0 is red, r + 1 green for route r.
    pub signals: [u8; MOST_SIGNALS],
}

impl Arrays {
    /// No trains, all normal, nothing held, all red: the fresh state of every plan.
    pub fn fresh() -> Self {
        Arrays {
            trains: [0; MOST_TRACKS],
            lies: [0; MOST_TRACKS],
            holds: [0; MOST_TRACKS],
            signals: [0; MOST_SIGNALS],
        }
    }
}

/// The bits of the first routes, up to all 64.
pub fn first_routes(count: usize) -> u64 {
    1u64.checked_shl(count as u32)
        .map_or(u64::MAX, |next| next - 1)
}

/// A set of routes.
#[derive(Clone, Copy, Debug, PartialEq, Eq, Default)]
pub struct RouteSet(u64);

impl RouteSet {
    pub fn insert(&mut self, route: usize) {
        self.0 |= 1 << route;
    }

    pub fn remove(&mut self, route: usize) {
        self.0 &= !(1 << route);
    }

    pub fn contains(&self, route: usize) -> bool {
        self.0 >> route & 1 == 1
    }

    pub fn is_empty(&self) -> bool {
        self.0 == 0
    }

    pub fn len(&self) -> usize {
        self.0.count_ones() as usize
    }

    /// The routes of the set, rising.
    pub fn routes(self) -> impl DoubleEndedIterator<Item = usize> {
        (0..u64::BITS as usize).filter(move |&route| self.contains(route))
    }

    pub fn bits(self) -> u64 {
        self.0
    }

    pub fn of_bits(bits: u64) -> Self {
        RouteSet(bits)
    }
}

/// A well-formed state of a plan: what the document calls not well formed cannot be built by
/// [`State::from_arrays`] nor reached by an event.
#[derive(Clone, Debug, PartialEq, Eq)]
pub struct State {
    /// For each track.
    pub trains: Vec<Option<u8>>,
    /// For each track; normal wherever there is no point.
    pub lies: Vec<Lie>,
    /// For each track; empty wherever there is no point.
    pub holds: Vec<RouteSet>,
    /// For each signal the route it is green for.
    pub signals: Vec<Option<usize>>,
}

impl State {
    pub fn fresh(plan: &Plan) -> Self {
        State {
            trains: vec![None; plan.tracks.len()],
            lies: vec![Lie::Normal; plan.tracks.len()],
            holds: vec![RouteSet::default(); plan.tracks.len()],
            signals: vec![None; plan.homes.len()],
        }
    }

    pub fn track_of(&self, train: u8) -> Option<usize> {
        self.trains
            .iter()
            .position(|&on_track| on_track == Some(train))
    }

    /// The lowest track of a rising list that has a train, and the train on this very track.
    pub fn first_train_on(&self, rising: &[usize]) -> Option<(usize, u8)> {
        let mut tracks = rising.iter();
        tracks.find_map(|&track| Some((track, self.trains[track]?)))
    }

    /// The state that the arrays show, or nothing if it is not well formed.
    pub fn from_arrays(plan: &Plan, arrays: &Arrays) -> Option<Self> {
        let mut state = State::fresh(plan);
        state.load(plan, arrays).then_some(state)
    }

    /// Becomes what the arrays show. False if that is not well formed; the state is then of no
    /// use until the next load.
    pub fn load(&mut self, plan: &Plan, arrays: &Arrays) -> bool {
        load_trains(&mut self.trains, arrays)
            && load_lies(&mut self.lies, arrays, plan)
            && load_holds(&mut self.holds, arrays, plan)
            && load_signals(&mut self.signals, arrays, plan)
    }

    pub fn to_arrays(&self) -> Arrays {
        let mut arrays = Arrays::fresh();
        self.store(&mut arrays);
        arrays
    }

    /// Writes the cells of the plan and leaves those beyond alone.
    pub fn store(&self, arrays: &mut Arrays) {
        for (cell, train) in arrays.trains.iter_mut().zip(&self.trains) {
            *cell = train.unwrap_or(0);
        }
        for (cell, lie) in arrays.lies.iter_mut().zip(&self.lies) {
            *cell = u8::from(*lie == Lie::Reverse);
        }
        for (cell, routes) in arrays.holds.iter_mut().zip(&self.holds) {
            *cell = routes.0;
        }
        for (cell, green) in arrays.signals.iter_mut().zip(&self.signals) {
            *cell = green.map_or(0, |route| route as u8 + 1);
        }
    }
}

/// True if every cell beyond the plan's count is empty.
fn empty_beyond<T: Default + PartialEq>(cells: &[T], count: usize) -> bool {
    cells[count..].iter().all(|cell| *cell == T::default())
}

/// No train appears twice.
fn load_trains(trains: &mut [Option<u8>], arrays: &Arrays) -> bool {
    let mut met = [false; 256];
    for (train, &cell) in trains.iter_mut().zip(&arrays.trains) {
        *train = (cell != 0).then_some(cell);
        if cell != 0 && std::mem::replace(&mut met[usize::from(cell)], true) {
            return false;
        }
    }
    empty_beyond(&arrays.trains, trains.len())
}

/// Only points are reverse.
fn load_lies(lies: &mut [Lie], arrays: &Arrays, plan: &Plan) -> bool {
    for ((lie, &cell), track) in lies.iter_mut().zip(&arrays.lies).zip(&plan.tracks) {
        *lie = match cell {
            0 => Lie::Normal,
            1 if track.is_point() => Lie::Reverse,
            _ => return false,
        };
    }
    empty_beyond(&arrays.lies, lies.len())
}

/// Only points are held, and only by routes of the plan.
fn load_holds(holds: &mut [RouteSet], arrays: &Arrays, plan: &Plan) -> bool {
    for ((routes, &cell), track) in holds.iter_mut().zip(&arrays.holds).zip(&plan.tracks) {
        let allowed = if track.is_point() {
            plan.routes.len()
        } else {
            0
        };
        if cell & !first_routes(allowed) != 0 {
            return false;
        }
        *routes = RouteSet(cell);
    }
    empty_beyond(&arrays.holds, holds.len())
}

/// A green names a route starting at that signal.
fn load_signals(signals: &mut [Option<usize>], arrays: &Arrays, plan: &Plan) -> bool {
    for (signal, (green, &cell)) in signals.iter_mut().zip(&arrays.signals).enumerate() {
        *green = usize::from(cell).checked_sub(1);
        let starts_here = |route: usize| {
            let route = plan.routes.get(route);
            route.is_some_and(|route| route.start == signal)
        };
        if !green.is_none_or(starts_here) {
            return false;
        }
    }
    empty_beyond(&arrays.signals, signals.len())
}
