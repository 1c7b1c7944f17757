//! Wrong readings of the bytes of a plan: limits, kinds, the order of numbers, unused bytes, lists.

use super::{played, Definition};
use crate::compare::counts::is_three_before_four;
use crate::model::plan::{Lie, Plan, Track};
use crate::model::reading::{limits, read, read_by, read_within, Fault, Form, Needs, Place, NEEDS};
use crate::model::state::State;
use crate::writing::write_with_places;

type Reading = Result<Plan, Fault>;

pub fn all() -> Vec<Definition> {
    let mut all = other_limits();
    all.extend(exchanged_kinds());
    all.extend(other_bytes());
    all.extend(unused_bytes());
    all.extend(lists_that_need_not_rise());
    all.extend(numbers());
    all.extend(whole_plans());
    all
}

/// Every count, as the document's sentences have it.
const COUNTS: [(Place, &str); 10] = [
    (Place::TrackCount, "tracks"),
    (Place::SignalCount, "signals"),
    (Place::RouteCount, "routes"),
    (Place::PathCount, "tracks of a path"),
    (Place::ClearCount, "tracks of a route's clear list"),
    (Place::NormalCount, "normal points"),
    (Place::ReverseCount, "reverse points"),
    (Place::ReleaseCount, "releases"),
    (Place::EntryCount, "entries"),
    (Place::EntryClearCount, "tracks of an entry's clear list"),
];

/// Each limit of each count one higher and one lower.
fn other_limits() -> Vec<Definition> {
    let mut all = Vec::new();
    for (place, things) in COUNTS {
        let (least, most) = limits(place).into_inner();
        let mut others = vec![(least, most + 1), (least, most - 1), (least + 1, most)];
        others.extend(least.checked_sub(1).map(|less| (less, most)));
        for (low, high) in others {
            let name = format!("{things}, {low} to {high}, not {least} to {most}");
            all.push(Definition::reads(name, move |file| {
                read_within(file, |at| if at == place { low..=high } else { limits(at) })
            }));
        }
        all.push(too_much_is_three(place, things));
    }
    all
}

/// Form 3 in place of 2 at one count.
fn too_much_is_three(place: Place, things: &str) -> Definition {
    let name = format!("{things} beyond the limits is form 3, not 2");
    Definition::reads(name, move |file| {
        read(file).map_err(|mut fault| {
            if fault.place == place && fault.form.number == 2 {
                fault.form.number = 3;
            }
            fault
        })
    })
}

/// A file with each row of its tracks changed, as far as the rows are there.
fn with_rows(file: &[u8], change: impl Fn(&mut [u8])) -> Vec<u8> {
    let mut changed = file.to_vec();
    if let Some((count, rows)) = changed.split_first_mut() {
        rows.chunks_exact_mut(4)
            .take(usize::from(*count))
            .for_each(change);
    }
    changed
}

const KINDS: [&str; 4] = ["plain", "facing point", "trailing point", "exit"];

fn exchanged_kinds() -> Vec<Definition> {
    let mut all = Vec::new();
    for one in 0..4u8 {
        for other in one + 1..4 {
            let (first, second) = (KINDS[usize::from(other)], KINDS[usize::from(one)]);
            let name = format!("kind {one} is {first} and kind {other} is {second}");
            all.push(Definition::reads(name, move |file| {
                read(&with_rows(file, |row| {
                    row[0] = match row[0] {
                        kind if kind == one => other,
                        kind if kind == other => one,
                        kind => kind,
                    }
                }))
            }));
        }
    }
    all
}

/// A row of one kind in which the document's first, second and third number stand at other places.
fn ordered(kind: u8, name: &str, order: [usize; 3]) -> Definition {
    Definition::reads(name, move |file| {
        read(&with_rows(file, |row| {
            if row[0] == kind {
                let numbers = [row[1], row[2], row[3]];
                row[1..].copy_from_slice(&order.map(|place| numbers[place - 1]));
            }
        }))
    })
}

fn other_bytes() -> Vec<Definition> {
    vec![
        ordered(0, "plain: 0, next, 0", [2, 1, 3]),
        ordered(0, "plain: 0, 0, next", [3, 1, 2]),
        ordered(
            1,
            "facing point: reverse way out, normal way out, 0",
            [2, 1, 3],
        ),
        ordered(
            1,
            "facing point: 0, normal way out, reverse way out",
            [2, 3, 1],
        ),
        ordered(
            1,
            "facing point: 0, reverse way out, normal way out",
            [3, 2, 1],
        ),
        ordered(
            1,
            "facing point: normal way out, 0, reverse way out",
            [1, 3, 2],
        ),
        ordered(
            1,
            "facing point: reverse way out, 0, normal way out",
            [3, 1, 2],
        ),
        ordered(
            2,
            "trailing point: next, reverse leg, normal leg",
            [1, 3, 2],
        ),
        ordered(
            2,
            "trailing point: normal leg, next, reverse leg",
            [2, 1, 3],
        ),
        ordered(
            2,
            "trailing point: normal leg, reverse leg, next",
            [3, 1, 2],
        ),
        ordered(
            2,
            "trailing point: reverse leg, next, normal leg",
            [2, 3, 1],
        ),
        ordered(
            2,
            "trailing point: reverse leg, normal leg, next",
            [3, 2, 1],
        ),
    ]
}

/// Reads on over each unused byte that passes, given the kind of its track, its place in the row
/// and its value.
fn unused_if(file: &[u8], passes: impl Fn(u8, usize, u8) -> bool) -> Reading {
    let mut file = file.to_vec();
    loop {
        match read(&file) {
            Err(fault) if fault.form.number == 3 && fault.place == Place::UnusedByte => {
                let offset = fault.form.offset;
                let place = (offset - 1) % 4;
                if !passes(file[offset - place], place, file[offset]) {
                    return Err(fault);
                }
                file[offset] = 0;
            }
            other => return other,
        }
    }
}

fn unused_bytes() -> Vec<Definition> {
    let mut all = vec![
        Definition::reads("an unused byte is refused only if it is 1", |file| {
            unused_if(file, |_, _, byte| byte != 1)
        }),
        Definition::reads("an unused byte is refused only if it is not 1", |file| {
            unused_if(file, |_, _, byte| byte == 1)
        }),
        Definition::reads("an unused byte is refused only if it is 255", |file| {
            unused_if(file, |_, _, byte| byte != 255)
        }),
        Definition::reads("an unused byte is refused only below 255", |file| {
            unused_if(file, |_, _, byte| byte == 255)
        }),
        Definition::reads("an unused byte is refused only if it is odd", |file| {
            unused_if(file, |_, _, byte| byte % 2 == 0)
        }),
    ];
    for (kind, unused) in [(0, 2..=3), (1, 3..=3), (3, 1..=3)] {
        let name = KINDS[usize::from(kind)];
        all.push(Definition::reads(
            format!("{name}: an unused byte is refused only if it is 1"),
            move |file| unused_if(file, |of, _, byte| of == kind && byte != 1),
        ));
        for number in unused {
            all.push(Definition::reads(
                format!("{name}: number {number} is unused and may be anything"),
                move |file| unused_if(file, |of, place, _| of == kind && place == number),
            ));
            all.push(Definition::reads(
                format!("{name}: number {number} is unused and may name a track"),
                move |file| {
                    let tracks = tracks_of(file);
                    unused_if(file, |of, place, byte| {
                        of == kind && place == number && byte < tracks
                    })
                },
            ));
            all.push(Definition::reads(
                format!("{name}: number {number} is unused and may be what names no track"),
                move |file| {
                    let tracks = tracks_of(file);
                    unused_if(file, |of, place, byte| {
                        of == kind && place == number && byte >= tracks
                    })
                },
            ));
            for passes in [1, 2, 255] {
                all.push(Definition::reads(
                    format!("{name}: number {number} is unused and may be {passes}"),
                    move |file| {
                        unused_if(file, |of, place, byte| {
                            of == kind && place == number && byte == passes
                        })
                    },
                ));
            }
        }
    }
    all
}

/// Every list that must rise.
const RISING: [(Place, &str); 7] = [
    (Place::Home, "homes"),
    (Place::Clear, "a route's clear list"),
    (Place::Normal, "a normal list"),
    (Place::Reverse, "a reverse list"),
    (Place::ReleasePoint, "releases by point"),
    (Place::EntryTrack, "entry tracks"),
    (Place::EntryClear, "an entry's clear list"),
];

/// Whether a number may follow those before it, in the list at one place.
fn rising_in(
    list: Place,
    name: String,
    passes: impl Fn(&[usize], usize) -> bool + 'static,
) -> Definition {
    Definition::reads(name, move |file| {
        let rises = |place, before: &[usize], number| match place == list {
            true => passes(before, number),
            false => (NEEDS.rises)(place, before, number),
        };
        let rises = &rises;
        read_by(file, Needs { rises, ..NEEDS })
    })
}

fn lists_that_need_not_rise() -> Vec<Definition> {
    let mut all = Vec::new();
    for (place, list) in RISING {
        all.push(rising_in(place, format!("{list} need not rise"), |_, _| {
            true
        }));
        all.push(rising_in(
            place,
            format!("{list}: a number may stand twice"),
            |before, number| before.last().is_none_or(|&forerunner| forerunner <= number),
        ));
        all.push(rising_in(
            place,
            format!("{list}: a number may be lower than its forerunner"),
            |before, number| before.last() != Some(&number),
        ));
        all.push(rising_in(
            place,
            format!("{list}: a number need only be above the first"),
            |before, number| before.first().is_none_or(|&first| first < number),
        ));
    }
    all.push(Definition::reads("lists fall strictly", |file| {
        let rises = |_, before: &[usize], number| {
            before.last().is_none_or(|&forerunner| forerunner > number)
        };
        let rises = &rises;
        read_by(file, Needs { rises, ..NEEDS })
    }));
    all
}

/// Reads on over each byte that form 3 stands at and that passes, as if it were this one instead.
fn number_if(file: &[u8], instead: impl Fn(Place, u8) -> Option<u8>) -> Reading {
    let mut file = file.to_vec();
    loop {
        match read(&file) {
            Err(fault) if fault.form.number == 3 => {
                let byte = &mut file[fault.form.offset];
                match instead(fault.place, *byte) {
                    Some(other) if other != *byte => *byte = other,
                    _ => return Err(fault),
                }
            }
            other => return other,
        }
    }
}

fn numbers() -> Vec<Definition> {
    let mut all = kinds();
    all.extend(numbers_of_a_track());
    all.extend(numbers_that_name_nothing());
    all.extend(points());
    all.push(Definition::reads(
        "release pairs: point, track",
        releases_turned,
    ));
    all
}

fn kinds() -> Vec<Definition> {
    let mut all = Vec::new();
    for (kind, name) in (0..).zip(["plain", "a facing point", "a trailing point", "an exit"]) {
        all.push(Definition::reads(
            format!("a kind above 3 is {name}"),
            move |file| number_if(file, |place, _| (place == Place::TrackKind).then_some(kind)),
        ));
    }
    for (strange, kind, name) in [
        (4, 0, "plain"),
        (5, 3, "an exit"),
        (255, 2, "a trailing point"),
    ] {
        all.push(Definition::reads(
            format!("kind {strange} is {name} too"),
            move |file| {
                number_if(file, |place, byte| {
                    (place == Place::TrackKind && byte == strange).then_some(kind)
                })
            },
        ));
    }
    let refused_only = |name: &str, is_refused: fn(u8) -> bool| {
        let name = format!("a kind above 3 is refused only if it is {name}");
        Definition::reads(name, move |file| kind_if(file, |kind| !is_refused(kind)))
    };
    all.push(refused_only("4", |kind| kind == 4));
    all.push(refused_only("5", |kind| kind == 5));
    all.push(refused_only("255", |kind| kind == 255));
    all.push(refused_only("below 255", |kind| kind < 255));
    all.push(refused_only("even", |kind| kind % 2 == 0));
    all
}

/// Reads on over each kind that passes, as if it were one that fits its row.
fn kind_if(file: &[u8], passes: impl Fn(u8) -> bool) -> Reading {
    let mut file = file.to_vec();
    loop {
        match read(&file) {
            Err(fault) if fault.form.number == 3 && fault.place == Place::TrackKind => {
                let offset = fault.form.offset;
                if !passes(file[offset]) {
                    return Err(fault);
                }
                let fits = |kind: &u8| {
                    let mut other = file.clone();
                    other[offset] = *kind;
                    let fault = read(&other).err();
                    fault.is_none_or(|fault| fault.form.offset > offset + 3)
                };
                file[offset] = (0..4).find(fits).unwrap_or(0);
            }
            other => return other,
        }
    }
}

/// How many tracks a file says that it has.
fn tracks_of(file: &[u8]) -> u8 {
    file.first().copied().unwrap_or(0)
}

/// Each number of a track's row that names a track, by the kind and the place in the row.
const NUMBERS: [(u8, usize, &str); 6] = [
    (0, 1, "the next of a plain track"),
    (1, 1, "a normal way out"),
    (1, 2, "a reverse way out"),
    (2, 1, "the next of a trailing point"),
    (2, 2, "a normal leg"),
    (2, 3, "a reverse leg"),
];

fn numbers_of_a_track() -> Vec<Definition> {
    let mut all = vec![
        Definition::reads("a track may have the number of tracks", |file| {
            let tracks = tracks_of(file);
            number_if(file, |place, byte| {
                (place == Place::TrackNumber && byte == tracks).then(|| byte - 1)
            })
        }),
        Definition::reads("only the number of tracks itself is no track", |file| {
            let tracks = tracks_of(file);
            number_if(file, |place, byte| {
                (place == Place::TrackNumber && byte > tracks).then(|| tracks - 1)
            })
        }),
    ];
    for (kind, number, name) in NUMBERS {
        let name = format!("{name} may be a track that doesn't exist");
        all.push(Definition::reads(name, move |file| {
            let mut file = file.to_vec();
            loop {
                match read(&file) {
                    Err(fault) if fault.form.number == 3 && fault.place == Place::TrackNumber => {
                        let offset = fault.form.offset;
                        let place = (offset - 1) % 4;
                        if (file[offset - place], place) != (kind, number) {
                            return Err(fault);
                        }
                        file[offset] = tracks_of(&file) - 1;
                    }
                    other => return other,
                }
            }
        }));
    }
    all
}

/// What a byte past the tracks must name, and one that is none can't.
const NAMING_TRACKS: [(Place, &str); 6] = [
    (Place::Home, "a home"),
    (Place::Path, "a track of a path"),
    (Place::Clear, "a track of a route's clear list"),
    (Place::ReleaseTrack, "a release track"),
    (Place::EntryTrack, "an entry track"),
    (Place::EntryClear, "a track of an entry's clear list"),
];

/// The last track is taken for one that there is not.
fn numbers_that_name_nothing() -> Vec<Definition> {
    let mut all = vec![Definition::reads(
        "a route may start at any signal",
        |file| {
            number_if(file, |place, byte| {
                (place == Place::Start).then(|| byte.saturating_sub(1))
            })
        },
    )];
    for (named, name) in NAMING_TRACKS {
        let name = format!("{name} may be one that doesn't exist");
        all.push(Definition::reads(name, move |file| {
            let last = tracks_of(file).saturating_sub(1);
            number_if(file, |place, _| (place == named).then_some(last))
        }));
    }
    all
}

const POINTS: [(Place, &str); 3] = [
    (Place::Normal, "a normal point"),
    (Place::Reverse, "a reverse point"),
    (Place::ReleasePoint, "a release point"),
];

fn points() -> Vec<Definition> {
    let mut all = Vec::new();
    for (list, name) in POINTS {
        all.push(no_points(
            list,
            format!("{name} may be of any kind"),
            |_| true,
        ));
        all.push(no_points(list, format!("{name} may be plain"), |kind| {
            kind == Some(0)
        }));
        all.push(no_points(list, format!("{name} may be an exit"), |kind| {
            kind == Some(3)
        }));
        let name = format!("{name} may be a track that doesn't exist");
        all.push(no_points(list, name, |kind| kind.is_none()));
    }
    for (list, name) in POINTS {
        let name = format!("4 before 3 at the byte of {name}");
        all.push(Definition::reads(name, move |file| {
            read(file).map_err(|mut fault| {
                if fault.place == list && is_three_before_four(file, fault) {
                    fault.form.number = 4;
                }
                fault
            })
        }));
    }
    all
}

/// The bad point of one list is taken for the first point of the plan, if its kind passes; none
/// where it doesn't exist.
fn no_points(list: Place, name: String, passes: fn(Option<u8>) -> bool) -> Definition {
    Definition::reads(name, move |file| {
        let tracks = usize::from(tracks_of(file));
        let rows = file.get(1..).unwrap_or_default().chunks(4).take(tracks);
        let kinds: Vec<u8> = rows.map(|row| row[0]).collect();
        let point = kinds.iter().position(|kind| matches!(kind, 1 | 2));
        number_if(file, |place, byte| {
            let is_passed = place == list && passes(kinds.get(usize::from(byte)).copied());
            let point = point.filter(|_| is_passed)?;
            u8::try_from(point).ok()
        })
    })
}

/// Of each pair the first number is the point. The first that is none is bad.
fn releases_turned(file: &[u8]) -> Reading {
    let mut plan = read(file)?;
    let places = write_with_places(&plan).places;
    let is_point: Vec<bool> = plan.tracks.iter().map(Track::is_point).collect();
    let first_numbers = places.iter().enumerate();
    let mut first_numbers = first_numbers.filter(|(_, place)| **place == Place::ReleaseTrack);
    if let Some((offset, &place)) = first_numbers.find(|(at, _)| !is_point[usize::from(file[*at])])
    {
        let form = Form { number: 3, offset };
        return Err(Fault { form, place });
    }
    for release in plan.routes.iter_mut().flat_map(|route| &mut route.releases) {
        std::mem::swap(&mut release.track, &mut release.point);
    }
    Ok(plan)
}

fn whole_plans() -> Vec<Definition> {
    vec![
        Definition::reads("the normal and the reverse list exchanged", |file| {
            let mut plan = read(file)?;
            for route in &mut plan.routes {
                std::mem::swap(&mut route.normal, &mut route.reverse);
            }
            Ok(plan)
        }),
        Definition::reads("a route starts at the signal after the one named", |file| {
            let mut plan = read(file)?;
            let signals = plan.homes.len();
            for route in &mut plan.routes {
                route.start = (route.start + 1) % signals;
            }
            Ok(plan)
        }),
        starts("fresh: all points reverse", |plan, state| {
            for (lie, track) in state.lies.iter_mut().zip(&plan.tracks) {
                if track.is_point() {
                    *lie = Lie::Reverse;
                }
            }
        }),
        starts("fresh: every signal green for a route", |plan, state| {
            for (signal, green) in state.signals.iter_mut().enumerate() {
                *green = plan.routes.iter().position(|route| route.start == signal);
            }
        }),
    ]
}

/// The model, but a session does not start with the fresh state.
fn starts(name: &str, change: fn(&Plan, &mut State)) -> Definition {
    Definition::new(name, move |file, events| match read(file) {
        Ok(plan) => {
            let mut state = State::fresh(&plan);
            change(&plan, &mut state);
            played(&plan, state, events)
        }
        Err(fault) => format!("{}\n", fault.form).into_bytes(),
    })
}
