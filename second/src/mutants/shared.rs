//! Wrong tests for 14: by what else than a hold and the lie a grant would leave, by which holders, and
//! of which points.

use super::{Slip, Wrong};
use crate::model::answer::{Answer, Refusal};
use crate::model::plan::{Lie, Plan, Route};
use crate::model::state::{RouteSet, State};
use crate::model::step::{grant, is_held, lie_in_the_end, lowest_derailed, step, would_turn};

/// A listed point that a request asks for.
#[derive(Clone, Copy)]
pub struct Asked<'a> {
    plan: &'a Plan,
    state: &'a State,
    route: &'a Route,
    /// The number of the asking route.
    number: usize,
    point: usize,
}

impl Asked<'_> {
    fn holders(&self) -> RouteSet {
        self.state.holds[self.point]
    }

    fn is_held(&self) -> bool {
        is_held(self.state, self.point)
    }

    fn turns(&self) -> bool {
        would_turn(self.state, self.route, self.point)
    }

    fn lie(&self) -> Lie {
        self.state.lies[self.point]
    }

    fn in_normal(&self) -> bool {
        self.route.normal.contains(&self.point)
    }

    fn in_reverse(&self) -> bool {
        self.route.reverse.contains(&self.point)
    }

    fn has_train(&self) -> bool {
        self.state.trains[self.point].is_some()
    }

    /// In the way, if only these holders count.
    fn held_by(&self, counts: impl Fn(usize) -> bool) -> bool {
        self.holders().routes().any(counts) && self.turns()
    }

    /// In the way, if so many holders are needed.
    fn held_by_so_many(&self, is_enough: impl Fn(usize) -> bool) -> bool {
        is_enough(self.holders().len()) && self.turns()
    }

    /// Whether a route's grant would leave the point otherwise than the asking route's.
    fn is_wanted_otherwise(&self, holder: usize) -> bool {
        let holder = &self.plan.routes[holder];
        lie_in_the_end(holder, self.point) != lie_in_the_end(self.route, self.point)
    }

    fn is_green(&self, holder: usize) -> bool {
        let start = self.plan.routes[holder].start;
        self.state.signals[start] == Some(holder)
    }
}

/// Which of the listed points are in the way.
type Hit = fn(Asked) -> bool;

/// Which of them is named, of the listed points, rising and once each.
type Choice = fn(&[Asked]) -> Option<usize>;

/// A request whose 14 is for these points, and names the lowest.
macro_rules! hits {
    ($hit:expr) => {
        Wrong::Step(|plan, state, event| {
            tested(plan, state, event, |asked| {
                let hit: Hit = $hit;
                asked
                    .iter()
                    .find(|asked| hit(**asked))
                    .map(|asked| asked.point)
            })
        })
    };
}

/// A request whose 14 names this point.
macro_rules! names {
    ($choice:expr) => {
        Wrong::Step(|plan, state, event| {
            let choice: Choice = $choice;
            tested(plan, state, event, choice)
        })
    };
}

/// 14 for another reason than the document's.
pub const REASONS: &[Slip] = &[
    (
        "14 for a held point, as it was before No. 4",
        hits!(|one| one.is_held()),
    ),
    (
        "14 by the lie for reverse points alone",
        hits!(|one| one.is_held() && (one.turns() || !one.in_reverse())),
    ),
    (
        "14 by the lie for normal points alone",
        hits!(|one| one.is_held() && (one.turns() || one.in_reverse())),
    ),
    (
        "14 for a point that would turn, held or not",
        hits!(|one| one.turns()),
    ),
    (
        "14 for a point that is held or would turn",
        hits!(|one| one.is_held() || one.turns()),
    ),
    (
        "14 for a held point that lies right",
        hits!(|one| one.is_held() && !one.turns()),
    ),
    (
        "14 for a held point that lies reverse",
        hits!(|one| one.is_held() && one.lie() == Lie::Reverse),
    ),
    (
        "14 for a held point that lies normal",
        hits!(|one| one.is_held() && one.lie() == Lie::Normal),
    ),
    (
        "14 for a held point that is listed reverse",
        hits!(|one| one.is_held() && one.in_reverse()),
    ),
    (
        "14 for a held point that is listed normal",
        hits!(|one| one.is_held() && one.in_normal()),
    ),
    (
        "14 by the lie as if normal won",
        hits!(|one| one.is_held() && (one.lie() == Lie::Normal) != one.in_normal()),
    ),
    (
        "14 for a held point of both lists however it lies",
        hits!(|one| one.is_held() && (one.turns() || one.in_normal() && one.in_reverse())),
    ),
    (
        "14 passes points of both lists",
        hits!(|one| one.is_held() && one.turns() && !(one.in_normal() && one.in_reverse())),
    ),
    (
        "14 for a held point that has no train",
        hits!(|one| one.is_held() && one.turns() && !one.has_train()),
    ),
    (
        "14 for a held point that has a train",
        hits!(|one| one.is_held() && one.turns() && one.has_train()),
    ),
    (
        "14 for a held point with a train, however it lies",
        hits!(|one| one.is_held() && (one.turns() || one.has_train())),
    ),
    (
        "14 for a held point of the path alone",
        hits!(|one| one.is_held() && one.turns() && one.route.path.contains(&one.point)),
    ),
    (
        "14 for a held point off the path however it lies",
        hits!(|one| one.is_held() && (one.turns() || !one.route.path.contains(&one.point))),
    ),
];

/// 14 by some of the holders, or by how many there are.
pub const HOLDERS: &[Slip] = &[
    (
        "14 by the route's own hold alone",
        hits!(|one| one.held_by(|route| route == one.number)),
    ),
    (
        "14 by routes of lower numbers",
        hits!(|one| one.held_by(|route| route < one.number)),
    ),
    (
        "14 by routes of higher numbers",
        hits!(|one| one.held_by(|route| route > one.number)),
    ),
    (
        "14 by no lower route",
        hits!(|one| one.held_by(|route| route >= one.number)),
    ),
    (
        "14 by no higher route",
        hits!(|one| one.held_by(|route| route <= one.number)),
    ),
    (
        "14 where one route holds the point, not several",
        hits!(|one| one.held_by_so_many(|count| count == 1)),
    ),
    (
        "14 where several routes hold the point, not one",
        hits!(|one| one.held_by_so_many(|count| count > 1)),
    ),
    (
        "14 where one or two routes hold the point, not more",
        hits!(|one| one.held_by_so_many(|count| count == 1 || count == 2)),
    ),
    (
        "14 where an odd number of routes hold the point",
        hits!(|one| one.held_by_so_many(|count| count % 2 == 1)),
    ),
    (
        "14 where an even number of routes hold the point",
        hits!(|one| one.held_by_so_many(|count| count % 2 == 0 && count > 0)),
    ),
    (
        "14 for a point that lies right too, if several routes hold it",
        hits!(|one| one.is_held() && (one.turns() || one.holders().len() > 1)),
    ),
    (
        "14 for a point that lies right too, if three routes hold it",
        hits!(|one| one.is_held() && (one.turns() || one.holders().len() > 2)),
    ),
    (
        "14 for a point that lies right too, if the route holds it itself",
        hits!(|one| one.is_held() && (one.turns() || one.holders().contains(one.number))),
    ),
    (
        "14 where a holder wants the point otherwise, however it lies",
        hits!(|one| one
            .holders()
            .routes()
            .any(|route| one.is_wanted_otherwise(route))),
    ),
    (
        "14 where all holders want the point otherwise, however it lies",
        hits!(|one| {
            one.is_held()
                && one
                    .holders()
                    .routes()
                    .all(|route| one.is_wanted_otherwise(route))
        }),
    ),
    (
        "14 where a holder wants the point otherwise and it would turn",
        hits!(|one| one.held_by(|route| one.is_wanted_otherwise(route))),
    ),
    (
        "14 by routes whose signal is green",
        hits!(|one| one.held_by(|route| one.is_green(route))),
    ),
    (
        "14 by routes whose signal is no more green",
        hits!(|one| one.held_by(|route| !one.is_green(route))),
    ),
    (
        "14 by routes from other signals",
        hits!(|one| one.held_by(|route| one.plan.routes[route].start != one.route.start)),
    ),
    (
        "14 by routes from the same signal",
        hits!(|one| one.held_by(|route| one.plan.routes[route].start == one.route.start)),
    ),
    (
        "14 by routes that go over the point",
        hits!(|one| one.held_by(|route| one.plan.routes[route].path.contains(&one.point))),
    ),
    (
        "14 by every route but route 0",
        hits!(|one| one.held_by(|route| route != 0)),
    ),
    (
        "14 by the first 15 routes",
        hits!(|one| one.held_by(|route| route < 15)),
    ),
    (
        "14 by the first 16 routes",
        hits!(|one| one.held_by(|route| route < 16)),
    ),
    (
        "14 by the first 31 routes",
        hits!(|one| one.held_by(|route| route < 31)),
    ),
    (
        "14 by the first 32 routes",
        hits!(|one| one.held_by(|route| route < 32)),
    ),
    (
        "14 by the first 47 routes",
        hits!(|one| one.held_by(|route| route < 47)),
    ),
    (
        "14 by the lowest holder, if it is another",
        hits!(|one| {
            let lowest = one.holders().routes().next();
            lowest.is_some_and(|route| route != one.number) && one.turns()
        }),
    ),
    (
        "14 by the highest holder, if it is another",
        hits!(|one| {
            let highest = one.holders().routes().next_back();
            highest.is_some_and(|route| route != one.number) && one.turns()
        }),
    ),
];

/// 14 that looks at one point too few, or names another.
pub const POINTS: &[Slip] = &[
    (
        "14 names the lowest held point",
        names!(|all| named(all, |one| one.is_held())),
    ),
    (
        "14 names the lowest point that would turn",
        names!(|all| named(all, |one| one.turns())),
    ),
    (
        "14 names the lowest listed point",
        names!(|all| named(all, |_| true)),
    ),
    (
        "14 looks at the lowest held point alone",
        names!(|all| alone(all.iter(), |one| one.is_held())),
    ),
    (
        "14 looks at the highest held point alone",
        names!(|all| alone(all.iter().rev(), |one| one.is_held())),
    ),
    (
        "14 looks at the lowest point that would turn alone",
        names!(|all| alone(all.iter(), |one| one.turns())),
    ),
    (
        "14 looks at the highest point that would turn alone",
        names!(|all| alone(all.iter().rev(), |one| one.turns())),
    ),
    (
        "14 looks at the lowest held point of each list alone",
        names!(|all| {
            let normal = alone(all.iter().filter(|one| one.in_normal()), |one| {
                one.is_held()
            });
            let reverse = alone(all.iter().filter(|one| one.in_reverse()), |one| {
                one.is_held()
            });
            normal.into_iter().chain(reverse).min()
        }),
    ),
    (
        "14 ends at the first point that lies right",
        names!(|all| first(all.iter().take_while(|one| one.turns()))),
    ),
    (
        "14 ends at the first point that is not held",
        names!(|all| first(all.iter().take_while(|one| one.is_held()))),
    ),
    (
        "14 ends at the first point that is not held and would turn",
        names!(|all| first(all.iter().take_while(|one| one.is_held() || !one.turns()))),
    ),
    (
        "14 ends at the first point that is held and lies right",
        names!(|all| first(all.iter().take_while(|one| !one.is_held() || one.turns()))),
    ),
    (
        "14: normal points are walked to the first that is held and lies right",
        names!(|all| in_each(all, [|one| !one.is_held() || one.turns(), |_| true])),
    ),
    (
        "14: reverse points are walked to the first that is held and lies right",
        names!(|all| in_each(all, [|_| true, |one| !one.is_held() || one.turns()])),
    ),
    (
        "14: normal points are walked to the first that would turn and is not held",
        names!(|all| in_each(all, [|one| one.is_held() || !one.turns(), |_| true])),
    ),
    (
        "14: reverse points are walked to the first that would turn and is not held",
        names!(|all| in_each(all, [|_| true, |one| one.is_held() || !one.turns()])),
    ),
    (
        "14: normal points are walked to the first that is not held",
        names!(|all| in_each(all, [|one| one.is_held(), |_| true])),
    ),
    (
        "14: reverse points are walked to the first that is not held",
        names!(|all| in_each(all, [|_| true, |one| one.is_held()])),
    ),
    (
        "14 only if every held point would turn",
        names!(|all| {
            let is_so = all.iter().all(|one| !one.is_held() || one.turns());
            first(all.iter()).filter(|_| is_so)
        }),
    ),
    (
        "14 only if every point that would turn is held",
        names!(|all| {
            let is_so = all.iter().all(|one| one.is_held() || !one.turns());
            first(all.iter()).filter(|_| is_so)
        }),
    ),
    (
        "14 only if all listed points are held",
        names!(|all| first(all.iter()).filter(|_| all.iter().all(|one| one.is_held()))),
    ),
    (
        "14 where one point is held and another would turn, the held one named",
        names!(|all| {
            let held = all.iter().find(|one| one.is_held());
            held.filter(|_| all.iter().any(|one| one.turns()))
                .map(|one| one.point)
        }),
    ),
    (
        "14 where one point is held and another would turn, the latter named",
        names!(|all| {
            let turned = all.iter().find(|one| one.turns());
            turned
                .filter(|_| all.iter().any(|one| one.is_held()))
                .map(|one| one.point)
        }),
    ),
    (
        "14 names the point with the most holders",
        names!(|all| {
            let hits = all.iter().filter(|one| is_hit(one)).rev();
            hits.max_by_key(|one| one.holders().len())
                .map(|one| one.point)
        }),
    ),
    (
        "14 names the point with the lowest holder",
        names!(|all| {
            let hits = all.iter().filter(|one| is_hit(one));
            hits.min_by_key(|one| one.holders().routes().next())
                .map(|one| one.point)
        }),
    ),
];

fn is_hit(asked: &Asked) -> bool {
    asked.is_held() && asked.turns()
}

/// The lowest of these, right as long as nothing is left out.
fn first<'a>(mut asked: impl Iterator<Item = &'a Asked<'a>>) -> Option<usize> {
    asked.find(|one| is_hit(one)).map(|one| one.point)
}

/// Each list as long as this is so.
fn in_each(asked: &[Asked], goes_on: [fn(&Asked) -> bool; 2]) -> Option<usize> {
    let [normal, reverse] = goes_on;
    let listed_normal = asked.iter().filter(|one| one.in_normal());
    let listed_reverse = asked.iter().filter(|one| one.in_reverse());
    let normal = first(listed_normal.take_while(|one| normal(one)));
    let reverse = first(listed_reverse.take_while(|one| reverse(one)));
    normal.into_iter().chain(reverse).min()
}

/// 14 applies as it must, and this is named.
fn named(asked: &[Asked], is_named: fn(&Asked) -> bool) -> Option<usize> {
    first(asked.iter())?;
    asked.iter().find(|one| is_named(one)).map(|one| one.point)
}

/// Nothing but the first of these is looked at.
fn alone<'a>(
    mut asked: impl Iterator<Item = &'a Asked<'a>>,
    is_looked_at: fn(&Asked) -> bool,
) -> Option<usize> {
    let one = asked.find(|one| is_looked_at(one))?;
    is_hit(one).then_some(one.point)
}

/// The step with another test for 14; what comes before it and after it is right.
fn tested(
    plan: &Plan,
    state: &mut State,
    event: &[u8],
    held: impl Fn(&[Asked]) -> Option<usize>,
) -> Answer {
    let number = match *event {
        [1, number, 0] if usize::from(number) < plan.routes.len() => usize::from(number),
        _ => return step(plan, state, event),
    };
    let route = &plan.routes[number];
    let is_red = state.signals[route.start].is_none();
    if !is_red || state.first_train_on(&route.clear).is_some() {
        return step(plan, state, event);
    }
    let mut listed: Vec<usize> = route.listed().collect();
    listed.sort_unstable();
    listed.dedup();
    let asked: Vec<Asked> = listed
        .into_iter()
        .map(|point| Asked {
            plan,
            state,
            route,
            number,
            point,
        })
        .collect();
    if let Some(point) = held(&asked) {
        return Answer::Refused(Refusal::PointHeld { point });
    }
    if let Some(point) = lowest_derailed(state, route) {
        return Answer::Accident(crate::model::answer::Accident::Derailment { point });
    }
    grant(state, route, number);
    Answer::Granted { route: number }
}
