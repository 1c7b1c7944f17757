//! What is left alone in the midst of the traffic.

use super::quiet::TRAIN;
use crate::generate::events::{self, Event};
use crate::model::plan::Plan;
use crate::model::state::State;
use crate::model::step::step;
use crate::random::Random;
use crate::subject::EVENT;

/// A train that enters at the start and is left where it is, or a route that is granted at the
/// start and left so, or both, while others go on about them.
#[derive(Clone, Debug, Default)]
pub struct Sleepers {
    first: Vec<Event>,
    entry: Option<usize>,
    route: Option<usize>,
}

impl Sleepers {
    pub fn choose(random: &mut Random, plan: &Plan) -> Self {
        let mut sleepers = Sleepers::default();
        let mut state = State::fresh(plan);
        let which = random.below(3);
        let entry = random.below(plan.entries.len());
        if which != 0 && sleepers.begin(plan, &mut state, [3, entry as u8, TRAIN]) {
            sleepers.entry = Some(entry);
        }
        let route = random.below(plan.routes.len());
        if which != 1 && sleepers.begin(plan, &mut state, [1, route as u8, 0]) {
            sleepers.route = Some(route);
        }
        sleepers
    }

    pub fn is_any(&self) -> bool {
        !self.first.is_empty()
    }

    /// True if the event is carried out, which makes it one of the first.
    fn begin(&mut self, plan: &Plan, state: &mut State, event: Event) -> bool {
        let is_done = step(plan, state, &event).is_carried_out();
        if is_done {
            self.first.push(event);
        }
        is_done
    }

    /// True if the event lets them sleep: the train is not moved, the route not cancelled, and no
    /// train goes by its green. Nor are they asked for, which would bring them back if they were
    /// lost.
    fn let_sleep(&self, plan: &Plan, state: &State, event: &Event) -> bool {
        let home = self.route.map(|route| plan.home_of(&plan.routes[route]));
        match *event {
            [1 | 2, route, _] => self.route != Some(usize::from(route)),
            [3, _, TRAIN] | [4, TRAIN, _] => false,
            [3, entry, _] => {
                let entry = plan.entries.get(usize::from(entry));
                home.is_none() || entry.map(|entry| entry.track) != home
            }
            [4, train, _] => home.is_none() || state.track_of(train) != home,
            _ => true,
        }
    }

    /// The first events and so many that go on around the sleepers, with the state after them.
    pub fn around(&self, random: &mut Random, plan: &Plan, count: usize) -> (Vec<u8>, State) {
        let mut state = State::fresh(plan);
        for event in &self.first {
            step(plan, &mut state, event);
        }
        let mut all = self.first.concat();
        all.extend(events::wanted(
            random,
            plan,
            &mut state,
            count,
            |state, event| self.let_sleep(plan, state, event),
        ));
        (all, state)
    }

    /// How many of some events around them are carried out.
    pub fn deeds_around(&self, plan: &Plan) -> usize {
        let (events, _) = self.around(&mut Random::new(1), plan, 300);
        let mut state = State::fresh(plan);
        let is_deed = |event: &&[u8]| step(plan, &mut state, event).is_carried_out();
        events.chunks_exact(EVENT).filter(is_deed).count()
    }

    /// They are woken: each is asked for what it was told not to do.
    pub fn questions(&self, plan: &Plan) -> Vec<Event> {
        let mut questions = vec![[4, TRAIN, 0]];
        if let Some(entry) = self.entry {
            questions.push([3, entry as u8, TRAIN]);
            let signal = plan.signal_at(plan.entries[entry].track);
            let starts_there = |route: &usize| Some(plan.routes[*route].start) == signal;
            let onward = (0..plan.routes.len()).find(starts_there);
            questions.extend(onward.map(|route| [1, route as u8, 0]));
            questions.extend([[4, TRAIN, 0]; 3]);
        }
        if let Some(route) = self.route.map(|route| route as u8) {
            questions.extend([[1, route, 0], [2, route, 0], [2, route, 0], [1, route, 0]]);
        }
        questions
    }
}
