//! The plan in memory: where each thing stands, which images are a plan's, and how they are written:
//! readings 35 to 42.

use second::book::MODEL;
use second::compare::causes::{self, *};
use second::document::BENCH_PLAN;
use second::generate::broken::broken;
use second::generate::case::case;
use second::generate::images::Change;
use second::generate::largest::largest;
use second::limits;
use second::model::image::{self, Image, Unwritten, IMAGE_SIZE};
use second::model::plan::{Plan, LARGEST_FILE};
use second::model::reading::{read, Form};
use second::model::rules::check;
use second::random::Random;
use second::subject::{is_any, mark, Fenced, Memory, Reason, Subject, HIGHEST};
use second::writing::{by_counts, write};
use std::collections::BTreeSet;

/// One exit and nothing else.
const LEAST_PLAN: [u8; 8] = [1, 3, 0, 0, 0, 0, 0, 0];

/// A facing point and the two exits that it leads to.
const FACING_PLAN: [u8; 16] = [3, 1, 1, 2, 0, 3, 0, 0, 0, 3, 0, 0, 0, 0, 0, 0];

fn image_of(file: &[u8]) -> Image {
    let mut lent = Fenced::marked(1);
    assert_eq!(MODEL.load(file, &mut lent), Ok(()));
    assert!(lent.is_whole());
    lent.image
}

fn changed(image: &Image, changes: &[Change]) -> Image {
    let mut changed = *image;
    for &(at, byte) in changes {
        changed[at] = byte;
    }
    changed
}

/// What is said of an image, with a buffer that is long enough for any.
fn said(image: &Image) -> Result<usize, Unwritten> {
    image::write(image, &mut [0; LARGEST_FILE])
}

#[test]
fn each_thing_has_its_offset() {
    let sizes = limits::all();
    let is_named = |name: &str, size: usize| sizes.contains(&(name.to_string(), size));
    let due = [
        ("image", 10_852),
        ("signals-at", 257),
        ("routes-at", 290),
        ("entries-at", 9_795),
        ("route-size", 198),
        ("entry-size", 66),
        ("path-at", 1),
        ("clear-at", 34),
        ("normal-at", 99),
        ("reverse-at", 116),
        ("releases-at", 133),
        ("entry-clear-at", 1),
    ];
    for (name, size) in due {
        assert!(is_named(name, size), "{name}");
    }
    assert_eq!(IMAGE_SIZE, LARGEST_FILE);
}

#[test]
fn the_image_of_the_bench_plan() {
    let image = image_of(&BENCH_PLAN);
    let parts: [(usize, &[u8]); 17] = [
        (0, &[4, 0, 2, 0, 0, 0, 2, 0, 0, 2, 3, 0, 1, 3, 0, 0, 0]),
        (257, &[2, 0, 1]),
        (290, &[2]),
        // Route 0: start, path, clear, normal, reverse, releases.
        (291, &[0]),
        (292, &[2, 2, 3]),
        (325, &[2, 2, 3]),
        (390, &[1, 2]),
        (407, &[0]),
        (424, &[1, 3, 2]),
        // Route 1.
        (489, &[1, 2, 2, 3]),
        (523, &[2, 2, 3]),
        (588, &[0]),
        (605, &[1, 2]),
        (622, &[1, 3, 2]),
        (9_795, &[2]),
        (9_796, &[0, 1, 0]),
        (9_862, &[1, 1, 1]),
    ];
    let mut due = [0; IMAGE_SIZE];
    for (at, bytes) in parts {
        due[at..at + bytes.len()].copy_from_slice(bytes);
    }
    assert!(image == due);
    assert_eq!(by_counts(&image), BENCH_PLAN);
    assert_eq!(image::plan(&image), read(&BENCH_PLAN).ok());
}

#[test]
fn the_image_of_the_least_plan_has_two_bytes_that_are_not_0() {
    let image = image_of(&LEAST_PLAN);
    let due = changed(&[0; IMAGE_SIZE], &[(0, 1), (1, 3)]);
    assert!(image == due);
    assert_eq!(said(&image), Ok(8));
}

#[test]
fn the_image_of_a_largest_plan_is_its_file() {
    let file = write(&largest(&mut Random::new(1)));
    let image = image_of(&file);
    assert!(image == file[..]);
    let mut out = [0; LARGEST_FILE];
    assert_eq!(image::write(&image, &mut out), Ok(LARGEST_FILE));
    assert!(out == file[..]);
    assert_eq!(image::write(&image, &mut out[1..]), Err(Unwritten::NoRoom));
}

/// Bytes of an image that are changed, and for what it is no plan's then.
type Example = (&'static [Change], [&'static str; 2]);

const OF_BENCH: &[Example] = &[
    (&[(0, 65)], [ABOVE, TRACKS]),
    (&[(257, 33)], [ABOVE, SIGNALS]),
    (&[(290, 49)], [ABOVE, ROUTES]),
    (&[(292, 33)], [ABOVE, PATH]),
    (&[(325, 65)], [ABOVE, CLEAR]),
    (&[(390, 17)], [ABOVE, NORMAL]),
    (&[(407, 17)], [ABOVE, REVERSE]),
    (&[(424, 33)], [ABOVE, RELEASES]),
    (&[(9_795, 17)], [ABOVE, ENTRIES]),
    (&[(9_797, 65)], [ABOVE, ENTRY_CLEAR]),
    (&[(0, 0)], [BELOW, TRACKS]),
    (&[(292, 0)], [BELOW, PATH]),
    (&[(1, 4)], [NOTHING, KIND]),
    (&[(2, 4)], [NOTHING, TRACK_NUMBER]),
    (&[(259, 4)], [NOTHING, SIGNALS]),
    (&[(291, 2)], [NOTHING, START]),
    (&[(293, 4)], [NOTHING, PATH]),
    (&[(327, 4)], [NOTHING, CLEAR]),
    (&[(391, 4)], [NOTHING, NORMAL]),
    (&[(606, 4)], [NOTHING, REVERSE]),
    (&[(425, 4)], [NOTHING, RELEASE_TRACK]),
    (&[(426, 4)], [NOTHING, RELEASES]),
    (&[(9_862, 4)], [NOTHING, ENTRY_TRACK]),
    (&[(9_798, 4)], [NOTHING, ENTRY_CLEAR]),
    (&[(391, 3)], [NO_POINT, NORMAL]),
    (&[(606, 0)], [NO_POINT, REVERSE]),
    (&[(426, 3)], [NO_POINT, RELEASES]),
    (&[(3, 1)], [UNUSED, PLAIN]),
    (&[(14, 1)], [UNUSED, EXIT]),
    (&[(259, 0)], [FALLS, SIGNALS]),
    (&[(327, 2)], [FALLS, CLEAR]),
    // The one point twice.
    (&[(390, 2), (392, 2)], [FALLS, NORMAL]),
    (&[(605, 2), (607, 2)], [FALLS, REVERSE]),
    (&[(424, 2), (427, 3), (428, 2)], [FALLS, RELEASES]),
    (&[(9_862, 0)], [FALLS, ENTRY_TRACK]),
    (&[(9_797, 2)], [FALLS, ENTRY_CLEAR]),
    (&[(17, 1)], [JUST_PAST, TRACKS]),
    (&[(260, 1)], [JUST_PAST, SIGNALS]),
    (&[(687, 1)], [JUST_PAST, ROUTES]),
    (&[(295, 1)], [JUST_PAST, PATH]),
    (&[(328, 1)], [JUST_PAST, CLEAR]),
    (&[(392, 1)], [JUST_PAST, NORMAL]),
    (&[(408, 1)], [JUST_PAST, REVERSE]),
    (&[(427, 1)], [JUST_PAST, RELEASES]),
    (&[(9_928, 1)], [JUST_PAST, ENTRIES]),
    (&[(9_799, 1)], [JUST_PAST, ENTRY_CLEAR]),
    (&[(40, 1)], [FURTHER, TRACKS]),
    (&[(270, 1)], [FURTHER, SIGNALS]),
    (&[(2_000, 1)], [FURTHER, ROUTES]),
    (&[(300, 1)], [FURTHER, PATH]),
    (&[(340, 1)], [FURTHER, CLEAR]),
    (&[(400, 1)], [FURTHER, NORMAL]),
    (&[(415, 1)], [FURTHER, REVERSE]),
    (&[(440, 1)], [FURTHER, RELEASES]),
    (&[(10_000, 1)], [FURTHER, ENTRIES]),
    (&[(9_820, 1)], [FURTHER, ENTRY_CLEAR]),
    (&[(256, 1)], [AT_LAST, TRACKS]),
    (&[(289, 1)], [AT_LAST, SIGNALS]),
    (&[(9_794, 1)], [AT_LAST, ROUTES]),
    (&[(324, 1)], [AT_LAST, PATH]),
    (&[(389, 1)], [AT_LAST, CLEAR]),
    (&[(406, 1)], [AT_LAST, NORMAL]),
    (&[(423, 1)], [AT_LAST, REVERSE]),
    (&[(488, 1)], [AT_LAST, RELEASES]),
    // The last byte of all.
    (&[(10_851, 1)], [AT_LAST, ENTRIES]),
    (&[(9_861, 1)], [AT_LAST, ENTRY_CLEAR]),
];

const OF_FACING: &[Example] = &[(&[(4, 1)], [UNUSED, FACING])];

#[test]
fn every_cause_of_7_by_an_example() {
    let mut met = BTreeSet::new();
    for (file, examples) in [(&BENCH_PLAN[..], OF_BENCH), (&FACING_PLAN, OF_FACING)] {
        let right = image_of(file);
        assert_eq!(said(&right), Ok(file.len()));
        for (changes, cause) in examples {
            let image = changed(&right, changes);
            assert_eq!(said(&image), Err(Unwritten::NoPlan), "{changes:?}");
            let found = causes::only(&causes::all(&image));
            assert_eq!(found, Some(*cause), "{changes:?}");
            met.insert(*cause);
        }
    }
    assert!(met
        .iter()
        .eq(&causes::names().into_iter().collect::<BTreeSet<_>>()));
}

/// Bytes that may be others, and how long the file is then.
#[test]
fn an_image_with_bytes_changed_may_be_a_plans() {
    let right = image_of(&BENCH_PLAN);
    let examples: [(&[Change], usize); 6] = [
        // Another row of tracks, which is 0: plain, and it leads to track 0.
        (&[(0, 5)], 58),
        (&[(0, 64)], 54 + 60 * 4),
        // A path that comes to a track twice, or goes on to track 0.
        (&[(294, 2)], 54),
        (&[(292, 3)], 55),
        // Clear lists that are empty.
        (&[(325, 0), (326, 0), (327, 0)], 52),
        (&[(9_797, 0)], 53),
    ];
    for (changes, length) in examples {
        let image = changed(&right, changes);
        assert_eq!(said(&image), Ok(length), "{changes:?}");
        assert_eq!(image_of(&by_counts(&image)), image);
    }
}

/// By its definition: the one file that an image can be reads, and reads as it.
fn is_plan(image: &Image) -> bool {
    let mut shown = [0; IMAGE_SIZE];
    let shows = |plan: Plan| {
        image::show(&plan, &mut shown);
        shown == *image
    };
    read(&by_counts(image)).is_ok_and(shows)
}

/// Judged where it stands, by its definition and by its causes.
fn is_judged_alike(image: &Image) -> bool {
    let is_plan = is_plan(image);
    let is_written = said(image).is_ok();
    is_written == is_plan && causes::all(image).is_empty() == is_plan
}

#[test]
fn every_byte_of_the_bench_image_changed() {
    let right = image_of(&BENCH_PLAN);
    let mut plans = 0;
    for at in 0..IMAGE_SIZE {
        for byte in [0, 1, 2, 3, 4, 255] {
            let image = changed(&right, &[(at, byte)]);
            assert!(is_judged_alike(&image), "byte {at} made {byte}");
            plans += usize::from(right[at] != byte && said(&image).is_ok());
        }
    }
    assert!(plans > 50, "only {plans} are a plan's");
}

#[test]
fn the_images_of_cases_are_judged_alike() {
    let mut plans = [0; 2];
    for seed in 0..600 {
        let case = case(seed);
        let mut own = Fenced::of(&[0; IMAGE_SIZE]);
        // Without a plan it stays empty.
        let _ = MODEL.load(&case.plan, &mut own);
        for writing in &case.writings {
            let mut image = [0; IMAGE_SIZE];
            writing.show(&own.image, &mut image);
            assert!(is_judged_alike(&image), "seed {seed}: {writing:?}");
            plans[usize::from(is_plan(&image))] += 1;
        }
    }
    assert!(plans.iter().all(|&count| count > 300), "{plans:?}");
}

#[test]
fn a_plan_that_breaks_a_rule_is_written() {
    let mut bad = 0;
    for seed in 0..200 {
        let plan = broken(&mut Random::new(seed));
        let file = write(&plan);
        let mut out = vec![0; file.len()];
        let image = image_of(&file);
        assert_eq!(image::write(&image, &mut out), Ok(file.len()));
        assert_eq!(out, file, "seed {seed}");
        bad += usize::from(check(&plan).is_some());
    }
    assert!(bad > 150, "only {bad} break a rule");
}

#[test]
fn seven_comes_before_6_and_both_leave_the_buffer() {
    let bench = image_of(&BENCH_PLAN);
    let bad = changed(&bench, &[(IMAGE_SIZE - 1, 1)]);
    for room in 0..60 {
        let untouched = Memory::marked(room, 7);
        let mut memory = untouched.clone();
        assert_eq!((MODEL.write)(&bad, &mut memory), Err(Reason::NoPlan));
        assert_eq!(memory.first_difference(&untouched), None);
        let said = (MODEL.write)(&bench, &mut memory);
        if room < BENCH_PLAN.len() {
            assert_eq!(said, Err(Reason::NoRoom));
            assert_eq!(memory.first_difference(&untouched), None);
        } else {
            assert_eq!(said, Ok(BENCH_PLAN.len()));
            let mut due = untouched.clone();
            due.put(0, &BENCH_PLAN);
            assert_eq!(memory.first_difference(&due), None);
        }
    }
}

#[test]
fn a_file_that_is_no_plan_leaves_the_image() {
    let files: [(&[u8], u8, usize); 3] = [
        (&[], 1, 0),
        (&BENCH_PLAN[..53], 1, 53),
        (&[1, 3, 0, 0, 0, 0, 0, 0, 0], 5, 8),
    ];
    for (file, number, offset) in files {
        let mut lent = Fenced::marked(200);
        let said = MODEL.load(file, &mut lent);
        assert_eq!(said, Err(Reason::Unreadable(Form { number, offset })));
        assert!(lent == Fenced::marked(200));
    }
}

#[test]
fn marks_are_no_bytes_of_a_plan_or_all_there_are() {
    let file = write(&largest(&mut Random::new(2)));
    assert_eq!(file.iter().max(), Some(&HIGHEST));
    for fill in 0..=255 {
        let marks = Fenced::marked(fill).image;
        let met: BTreeSet<u8> = marks.into_iter().collect();
        match is_any(fill) {
            true => assert!(met.into_iter().eq(0..=255), "fill {fill}"),
            false => assert!(met.first() > Some(&HIGHEST), "fill {fill}"),
        }
    }
    let fills_of_any = (0..=255).filter(|&fill| is_any(fill));
    assert_eq!(fills_of_any.count(), 64);
    assert!(Fenced::marked(1).image != Fenced::marked(2).image);
}

/// At each place every bit is set in the marks of some fills and not in those of others, and with each
/// fill it is so within a few places.
#[test]
fn no_bit_of_a_mark_can_be_set_or_cleared_unseen() {
    let all_and_any = |marks: &mut dyn Iterator<Item = u8>| {
        marks.fold((255, 0), |(all, any), mark| (all & mark, any | mark))
    };
    for at in 0..1000 {
        let mut marks = (0..=255).map(|fill| mark(fill, at));
        assert_eq!(all_and_any(&mut marks), (0, 255), "byte {at}");
    }
    for fill in 0..=255 {
        let mut marks = (0..256).map(|at| mark(fill, at));
        assert_eq!(all_and_any(&mut marks), (0, 255), "fill {fill}");
        let is_high = |at: usize| mark(fill, at) > 127;
        assert!((0..1000).all(|at| is_high(at) != is_high(at + 1)));
    }
}
