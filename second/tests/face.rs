//! The calls of the box's face that do all or nothing, by hand: readings 27 to 34.

use second::book::MODEL;
use second::boxed::answer;
use second::document::BENCH_PLAN;
use second::generate::case::case;
use second::generate::pieces::memory;
use second::model::answer::{Answer, Refusal};
use second::model::reading::Form;
use second::model::state::Arrays;
use second::random::Random;
use second::subject::{Kept, Lent, Prepared, Reason, Subject, EVENT, LINE};

const UNREADABLE: Reason = Reason::Unreadable(Form {
    number: 1,
    offset: 53,
});

/// Train 1 enters, route 0 is granted.
const TWO_EVENTS: [u8; 6] = [3, 0, 1, 1, 0, 0];
const TWO_LINES: &str = "entered 1 track 0\ngranted 0\n";

fn bench() -> Box<dyn Prepared + 'static> {
    MODEL.prepare(&BENCH_PLAN)
}

fn text(lines: &Lent<u8>) -> String {
    String::from_utf8(lines.written().collect()).expect("lines are text")
}

/// Arrays that are not well formed on any plan.
fn spoilt() -> Kept {
    let mut kept = Kept::fresh();
    kept.state.lies[2] = 2;
    kept
}

/// Tries a call from what is kept: it must do nothing, for this reason.
fn refuses<T: Copy>(from: &Kept, reason: Reason, call: impl FnOnce(&mut Kept) -> Lent<T>) {
    let mut kept = from.clone();
    let outcome = call(&mut kept);
    assert_eq!((outcome.reason, outcome.count), (Some(reason), 0));
    assert!(outcome.cells.iter().all(Option::is_none));
    assert_eq!(&kept, from);
}

#[test]
fn a_run_answers_every_event_or_none() {
    let events = [&TWO_EVENTS[..], &[4, 1]].concat();
    let mut kept = Kept::fresh();
    let answers = bench().run(&mut kept, &events, 3);
    let incomplete = Answer::Refused(Refusal::BadEvent);
    let expected = [
        Answer::Entered { train: 1, track: 0 },
        Answer::Granted { route: 0 },
        incomplete,
    ];
    assert!(answers.written().eq(expected));
    assert_eq!(answers.reason, None);
    assert_eq!(kept.state.trains[0], 1);
    refuses(&Kept::fresh(), Reason::NoRoom, |kept| {
        bench().run(kept, &events, 2)
    });
    let none = bench().run(&mut kept, &[], 0);
    assert_eq!((none.reason, none.count), (None, 0));
}

#[test]
fn reasons_come_in_their_order() {
    let mut none = MODEL.prepare(&BENCH_PLAN[..53]);
    let mut many = Kept::of(Arrays::fresh());
    many.unfinished = [3, 0, 0];
    for from in [&Kept::fresh(), &spoilt(), &many] {
        refuses(from, UNREADABLE, |kept| none.run(kept, &TWO_EVENTS, 0));
        refuses(from, UNREADABLE, |kept| none.feed(kept, &TWO_EVENTS, 0));
        refuses(from, UNREADABLE, |kept| none.finish(kept, 0));
    }
    let ten = Reason::NotWellFormed;
    refuses(&spoilt(), ten, |kept| bench().run(kept, &TWO_EVENTS, 0));
    for from in [&spoilt(), &many] {
        refuses(from, ten, |kept| bench().feed(kept, &TWO_EVENTS, 0));
        refuses(from, ten, |kept| bench().feed(kept, &[], LINE));
        refuses(from, ten, |kept| bench().finish(kept, LINE));
    }
    // A run knows of no unfinished event.
    let mut kept = many.clone();
    assert_eq!(bench().run(&mut kept, &TWO_EVENTS, 2).reason, None);
    assert_eq!(kept.unfinished, [3, 0, 0]);
}

#[test]
fn a_feed_needs_a_line_for_each_whole_event() {
    let events = [&TWO_EVENTS[..], &[4, 1]].concat();
    refuses(&Kept::fresh(), Reason::NoRoom, |kept| {
        bench().feed(kept, &events, 2 * LINE - 1)
    });
    let mut kept = Kept::fresh();
    let lines = bench().feed(&mut kept, &events, 2 * LINE);
    assert_eq!((text(&lines).as_str(), lines.reason), (TWO_LINES, None));
    assert_eq!(kept.unfinished, [2, 4, 1]);
    // The bytes begun before make an event whole, which has a line.
    refuses(&kept, Reason::NoRoom, |kept| {
        bench().feed(kept, &[0], LINE - 1)
    });
    // Bytes that make no event whole need no room, and no bytes are no harm.
    let nothing = bench().feed(&mut kept, &[], 0);
    assert_eq!((nothing.reason, nothing.count), (None, 0));
    assert_eq!(kept.unfinished, [2, 4, 1]);
    let line = bench().feed(&mut kept, &[0, 4], LINE);
    assert_eq!(text(&line), "moved 1 from 0 to 2\n");
    assert_eq!(kept.unfinished, [1, 4, 0]);
}

#[test]
fn what_stands_past_the_bytes_that_count_is_not_looked_at() {
    let mut kept = Kept::fresh();
    kept.unfinished = [1, 3, 99];
    let line = bench().feed(&mut kept, &[0, 1], LINE);
    assert_eq!(text(&line), "entered 1 track 0\n");
    kept.unfinished = [0, 88, 99];
    assert_eq!(bench().finish(&mut kept, 0).reason, None);
    assert_eq!(kept.unfinished, [0; EVENT]);
}

#[test]
fn the_end_answers_an_unfinished_event_and_nothing_else() {
    for bytes in [[1, 4, 0], [2, 4, 1]] {
        let mut kept = Kept::fresh();
        kept.unfinished = bytes;
        refuses(&kept, Reason::NoRoom, |kept| bench().finish(kept, LINE - 1));
        let line = bench().finish(&mut kept, LINE);
        assert_eq!(text(&line), "refused 11\n");
        assert_eq!(kept, Kept::fresh());
        let nothing = bench().finish(&mut kept, 0);
        assert_eq!((nothing.reason, nothing.count), (None, 0));
    }
}

#[test]
fn the_line_for_the_plan_needs_a_lines_room() {
    for plan in [&BENCH_PLAN[..], &BENCH_PLAN[..53]] {
        let mut ready = MODEL.prepare(plan);
        refuses(&Kept::fresh(), Reason::NoRoom, |_| ready.open(LINE - 1));
        let line = ready.open(LINE);
        assert_eq!(text(&line), format!("{}\n", ready.check()));
    }
}

#[test]
fn a_session_starts_fresh_whatever_the_memory_held() {
    let mut kept = memory(&mut Random::new(1));
    MODEL.fresh(&mut kept);
    assert_eq!(kept, Kept::fresh());
}

#[test]
fn however_the_input_is_cut_the_lines_are_those_of_the_program() {
    let mut cuts = 0;
    for seed in 0..300 {
        let case = case(seed);
        let mut ready = MODEL.prepare(&case.plan);
        let Some(session) = case.pieces.get(1) else {
            continue;
        };
        let mut lines: Vec<u8> = ready.open(LINE).written().collect();
        let mut kept = Kept::fresh();
        for piece in &session.pieces {
            let room = (piece.bytes.len() + 2) / EVENT * LINE;
            lines.extend(ready.feed(&mut kept, &piece.bytes, room).written());
        }
        lines.extend(ready.finish(&mut kept, LINE).written());
        assert_eq!(lines, MODEL.run(&case.plan, &case.events), "seed {seed}");
        cuts += session.pieces.len();
    }
    assert!(cuts > 1000, "only {cuts} pieces");
}

/// The train of 13 stands above its track, and nothing above the train.
#[test]
fn the_code_of_13_has_a_track_and_a_train() {
    assert_eq!(answer(0x01_02_0D), Answer::in_the_way((2, 1)));
    assert_eq!(answer(0xFF_3F_0D), Answer::in_the_way((63, 255)));
    // As an earlier box has it.
    assert_eq!(answer(0x02_0D), Answer::in_the_way((2, 0)));
    for above in [24, 32, 63] {
        let strange = answer(0x01_02_0D | 1 << above);
        assert!(matches!(strange, Answer::Unreadable(_)), "{strange}");
    }
    for other in [14, 16, 19, 40, 41, 42] {
        let strange = answer(0x01_02_00 | other);
        assert!(matches!(strange, Answer::Unreadable(_)), "{strange}");
    }
}

/// The longest line, with numbers of 20 digits.
#[test]
fn a_line_has_room_for_13_with_the_longest_numbers() {
    let number = "0".repeat(20);
    let longest = format!("refused {number} track {number} train {number}\n");
    assert_eq!(longest.len(), LINE);
}

#[test]
fn a_step_plays_the_first_three_bytes() {
    let bad_event = Answer::Refused(Refusal::BadEvent);
    for bytes in [&[][..], &[3], &[3, 0]] {
        assert_eq!(bench().step(&mut Arrays::fresh(), bytes), bad_event);
    }
    let mut state = Arrays::fresh();
    let entered = Answer::Entered { train: 1, track: 0 };
    assert_eq!(bench().step(&mut state, &TWO_EVENTS), entered);
    assert_eq!(state.signals, Arrays::fresh().signals);
}
