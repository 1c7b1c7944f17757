//! Each rule broken on the bench plan or a slightly larger one.

use second::document::BENCH_PLAN;
use second::model::plan::{Entry, Plan, Release, Track};
use second::model::reading::read;
use second::model::rules::{check, Broken};

/// The bench plan with a second junction behind the exit's place: track 3 is a home and leads to a
/// facing point 4, which leads to the exits 5 and 6. Routes 2 and 3 go there.
fn plan() -> Plan {
    let mut plan = read(&BENCH_PLAN).expect("the bench plan can be read");
    plan.tracks[3] = Track::Plain { next: 4 };
    plan.tracks.extend([
        Track::Facing {
            normal: 5,
            reverse: 6,
        },
        Track::Exit,
        Track::Exit,
    ]);
    plan.homes.push(3);
    for (exit, is_normal) in [(5, true), (6, false)] {
        let mut route = plan.routes[0].clone();
        route.start = 2;
        route.path = vec![4, exit];
        route.clear = vec![2, 4, exit];
        // Point 2 is flank protection.
        route.normal = if is_normal { vec![2, 4] } else { vec![2] };
        route.reverse = if is_normal { vec![] } else { vec![4] };
        let release = |point| Release { track: exit, point };
        route.releases = vec![release(2), release(4)];
        plan.routes.push(route);
    }
    plan
}

/// What the rules say after a change.
fn after(change: impl FnOnce(&mut Plan)) -> Option<(usize, usize)> {
    let mut plan = plan();
    change(&mut plan);
    check(&plan).map(|Broken { rule, row }| (rule, row))
}

#[test]
fn the_plan_itself_is_accepted() {
    assert_eq!(after(|_| ()), None);
}

#[test]
fn rule_1() {
    let same_ways = Track::Facing {
        normal: 5,
        reverse: 5,
    };
    assert_eq!(after(|plan| plan.tracks[4] = same_ways), Some((1, 4)));
    let same_legs = Track::Trailing {
        next: 3,
        normal_leg: 0,
        reverse_leg: 0,
    };
    assert_eq!(after(|plan| plan.tracks[2] = same_legs), Some((1, 2)));
}

#[test]
fn rule_2() {
    for (normal_leg, reverse_leg) in [(0, 4), (4, 0)] {
        let stranger = Track::Trailing {
            next: 3,
            normal_leg,
            reverse_leg,
        };
        assert_eq!(after(|plan| plan.tracks[2] = stranger), Some((2, 2)));
    }
}

#[test]
fn rule_3() {
    assert_eq!(
        after(|plan| plan.tracks[5] = Track::Plain { next: 6 }),
        Some((3, 6))
    );
    assert_eq!(
        after(|plan| plan.tracks[5] = Track::Plain { next: 2 }),
        Some((3, 2))
    );
}

#[test]
fn rule_4() {
    assert_eq!(after(|plan| plan.homes.push(4)), Some((4, 3)));
    assert_eq!(after(|plan| plan.homes.push(6)), Some((4, 3)));
}

#[test]
fn rule_5() {
    let entry = |track| Entry {
        track,
        clear: vec![track],
    };
    assert_eq!(after(|plan| plan.entries.push(entry(3))), Some((5, 2)));
    assert_eq!(after(|plan| plan.entries.push(entry(5))), Some((5, 2)));
    assert_eq!(after(|plan| plan.entries[0] = entry(0)), None);
    let no_home = after(|plan| {
        plan.homes.remove(1);
        plan.routes.retain(|route| route.start != 1);
        plan.routes[1].start = 1;
        plan.routes[2].start = 1;
    });
    assert_eq!(no_home, Some((5, 1)));
}

#[test]
fn rule_6() {
    assert_eq!(after(|plan| plan.routes[3].path = vec![6]), Some((6, 3)));
    assert_eq!(after(|plan| plan.routes[1].path = vec![2, 4]), Some((6, 1)));
    let comes_back = after(|plan| {
        plan.tracks[5] = Track::Plain { next: 1 };
        plan.entries.clear();
        plan.routes[1].path = vec![2, 3, 4, 5, 1];
    });
    assert_eq!(comes_back, Some((6, 1)));
}

#[test]
fn rule_7() {
    assert_eq!(after(|plan| plan.routes[1].path = vec![2]), Some((7, 1)));
    assert_eq!(
        after(|plan| plan.routes[0].path = vec![2, 3, 4, 5]),
        Some((7, 0))
    );
}

#[test]
fn rule_8() {
    assert_eq!(
        after(|plan| plan.routes[3].clear = vec![2, 4]),
        Some((8, 3))
    );
    assert_eq!(after(|plan| plan.routes[1].clear = vec![]), Some((8, 1)));
}

#[test]
fn rule_9() {
    assert_eq!(after(|plan| plan.routes[3].reverse = vec![]), Some((9, 3)));
    assert_eq!(after(|plan| plan.routes[1].normal = vec![2]), Some((9, 1)));
    assert_eq!(after(|plan| plan.routes[2].reverse = vec![2]), Some((9, 2)));
    let wrong_leg = after(|plan| {
        plan.routes[0].normal = vec![];
        plan.routes[0].reverse = vec![2];
    });
    assert_eq!(wrong_leg, Some((9, 0)));
}

#[test]
fn rule_10() {
    assert_eq!(
        after(|plan| plan.routes[3].clear = vec![4, 6]),
        Some((10, 3))
    );
}

#[test]
fn rule_11() {
    let release = |track, point| Release { track, point };
    let with = |route: usize, releases: Vec<Release>| {
        after(move |plan| plan.routes[route].releases = releases)
    };
    assert_eq!(with(2, vec![release(5, 4)]), Some((11, 2)));
    assert_eq!(with(0, vec![release(3, 2), release(3, 4)]), Some((11, 0)));
    assert_eq!(with(3, vec![release(3, 2), release(6, 4)]), Some((11, 3)));
    assert_eq!(with(3, vec![release(6, 2), release(4, 4)]), Some((11, 3)));
    assert_eq!(with(3, vec![release(4, 2), release(6, 4)]), None);
}

#[test]
fn rule_12() {
    assert_eq!(after(|plan| plan.entries[1].clear = vec![]), Some((12, 1)));
    assert_eq!(
        after(|plan| plan.entries[0].clear = vec![1, 2]),
        Some((12, 0))
    );
}
