//! Files with one bad number each: a kind that there is not, a track, signal or point that there is
//! not, a list that does not rise.
//!
//! Most are the bench plan with other bytes. The offsets are written out by hand.

use crate::document::{bench_with, Session};
use crate::forms::{first, form, points};
use crate::junctions::PARTING_PLAN;

pub fn sessions() -> Vec<Session> {
    let mut sessions = kinds();
    sessions.extend(numbers_of_a_track());
    sessions.extend(numbers_that_name_nothing());
    sessions.extend(points_that_are_none());
    sessions.extend(three_before_four());
    sessions.extend(lists_that_repeat());
    sessions.extend(lists_that_fall());
    sessions
}

fn kinds() -> Vec<Session> {
    vec![
        form(
            "exit-of-kind-5",
            "The bench plan, but its last track, the exit, has kind 5, and there are only 0 to 3. \
             All else about it is as it is for an exit.",
            bench_with(13..14, &[5]),
            "form 3 at 13",
        ),
        form(
            "point-of-kind-255",
            "The bench plan, but point 2 has kind 255, and there are only 0 to 3. All else about \
             it is as it is for a trailing point.",
            bench_with(9..10, &[255]),
            "form 3 at 9",
        ),
    ]
}

/// The plan that parts, with another byte in the row of its facing point, which stands at 9 to 12.
fn parting_with(offset: usize, byte: u8) -> Vec<u8> {
    let mut plan = PARTING_PLAN.concat();
    plan[offset] = byte;
    plan
}

fn numbers_of_a_track() -> Vec<Session> {
    vec![
        form(
            "no-such-next-of-a-plain-track",
            "The bench plan, but track 0 leads to track 255, and there are only 0 to 3.",
            bench_with(2..3, &[255]),
            "form 3 at 2",
        ),
        form(
            "no-such-normal-way-out",
            "A facing point, 2, whose normal way out is track 6, and there are only 0 to 5.",
            parting_with(10, 6),
            "form 3 at 10",
        ),
        form(
            "no-such-reverse-way-out",
            "A facing point, 2, whose reverse way out is track 6, and there are only 0 to 5.",
            parting_with(11, 6),
            "form 3 at 11",
        ),
        form(
            "no-such-next-of-a-trailing-point",
            "The bench plan, but point 2 leads to track 4, and there are only 0 to 3.",
            bench_with(10..11, &[4]),
            "form 3 at 10",
        ),
        form(
            "no-such-normal-leg",
            "The bench plan, but the normal leg of point 2 is track 4, and there are only 0 to 3.",
            bench_with(11..12, &[4]),
            "form 3 at 11",
        ),
        form(
            "no-such-track",
            "The bench plan, but the reverse leg of point 2 is track 4, and there are only 0 to 3.",
            bench_with(12..13, &[4]),
            "form 3 at 12",
        ),
    ]
}

fn numbers_that_name_nothing() -> Vec<Session> {
    vec![
        form(
            "no-such-home",
            "The bench plan, but the home of signal 1 is track 4, and there are only 0 to 3.",
            bench_with(19..20, &[4]),
            "form 3 at 19",
        ),
        form(
            "no-such-signal",
            "The bench plan, but route 0 starts at signal 2, and there are only 0 and 1.",
            bench_with(21..22, &[2]),
            "form 3 at 21",
        ),
        form(
            "no-such-track-in-a-path",
            "The bench plan, but the path of route 0 ends at track 4, and there are only 0 to 3.",
            bench_with(24..25, &[4]),
            "form 3 at 24",
        ),
        form(
            "no-such-track-in-a-clear-list",
            "The bench plan, but route 0's clear list ends with track 4, and there are only 0 to 3.",
            bench_with(27..28, &[4]),
            "form 3 at 27",
        ),
        form(
            "no-such-normal-point",
            "The bench plan, but route 0's normal list names track 4, and there are only 0 to 3.",
            bench_with(29..30, &[4]),
            "form 3 at 29",
        ),
        form(
            "no-such-reverse-point",
            "The bench plan, but route 1's reverse list names track 4, and there are only 0 to 3.",
            bench_with(43..44, &[4]),
            "form 3 at 43",
        ),
        form(
            "no-such-release-track",
            "The bench plan, but route 0 gives point 2 back when a train arrives on track 4, and \
             there are only 0 to 3.",
            bench_with(32..33, &[4]),
            "form 3 at 32",
        ),
        form(
            "no-such-release-point",
            "The bench plan, but route 0's release is of track 4, and there are only 0 to 3.",
            bench_with(33..34, &[4]),
            "form 3 at 33",
        ),
        form(
            "no-such-entry-track",
            "The bench plan, but entry 1 is at track 4, and there are only 0 to 3.",
            bench_with(51..52, &[4]),
            "form 3 at 51",
        ),
        form(
            "no-such-track-in-an-entry",
            "The bench plan, but entry 1's clear list names track 4, and there are only 0 to 3.",
            bench_with(53..54, &[4]),
            "form 3 at 53",
        ),
    ]
}

/// That a normal point may not be plain is a slip of the document's own.
fn points_that_are_none() -> Vec<Session> {
    vec![
        form(
            "normal-point-that-is-an-exit",
            "The bench plan, but route 0's normal list names track 3, an exit.",
            bench_with(29..30, &[3]),
            "form 3 at 29",
        ),
        form(
            "reverse-point-that-is-plain",
            "The bench plan, but route 1's reverse list names track 0, which is plain.",
            bench_with(43..44, &[0]),
            "form 3 at 43",
        ),
        form(
            "reverse-point-that-is-an-exit",
            "The bench plan, but route 1's reverse list names track 3, an exit.",
            bench_with(43..44, &[3]),
            "form 3 at 43",
        ),
        form(
            "release-point-that-is-plain",
            "The bench plan, but route 0's release is of track 0, which is plain, when a train \
             arrives on track 3.",
            bench_with(33..34, &[0]),
            "form 3 at 33",
        ),
        form(
            "release-point-that-is-an-exit",
            "The bench plan, but route 0's release is of track 3, an exit, when a train arrives on \
             track 3.",
            bench_with(33..34, &[3]),
            "form 3 at 33",
        ),
    ]
}

/// In the other lists a number that names nothing is above every forerunner.
fn three_before_four() -> Vec<Session> {
    vec![
        form(
            "normal-point-plain-and-not-rising",
            "The bench plan, but route 0's normal list is 2, 0. Track 0 is no point, which is 3, \
             and the list falls, which is 4: at one byte, a lower number comes first.",
            bench_with(28..30, &[2, 2, 0]),
            "form 3 at 30",
        ),
        form(
            "reverse-point-plain-and-not-rising",
            "The bench plan, but route 1's reverse list is 2, 0. Track 0 is no point, which is 3, \
             and the list falls, which is 4: at one byte, a lower number comes first.",
            bench_with(42..44, &[2, 2, 0]),
            "form 3 at 44",
        ),
        form(
            "release-point-plain-and-not-rising",
            "The bench plan, but route 0 has two releases, of point 2 and of track 0. Track 0 is \
             no point, which is 3, and the points fall, which is 4: at one byte, a lower number \
             comes first.",
            bench_with(31..34, &[2, 3, 2, 3, 0]),
            "form 3 at 35",
        ),
    ]
}

/// A plan of three points with one route, whose last three lists are these.
fn three_points(normal: &[u8], reverse: &[u8], releases: &[u8]) -> Vec<u8> {
    let lists = [normal, reverse, releases].concat();
    [points(3), first(1), vec![1, 0, 1, 0, 0], lists, vec![0]].concat()
}

fn lists_that_repeat() -> Vec<Session> {
    vec![
        form(
            "homes-that-do-not-rise",
            "The bench plan, but both signals have track 0 as their home.",
            bench_with(19..20, &[0]),
            "form 4 at 19",
        ),
        form(
            "clear-that-repeats",
            "The bench plan, but route 0's clear list is 2, 3, 3.",
            bench_with(25..28, &[3, 2, 3, 3]),
            "form 4 at 28",
        ),
        form(
            "normal-points-that-do-not-rise",
            "A normal list that names point 1 twice.",
            three_points(&[2, 1, 1], &[0], &[0]),
            "form 4 at 22",
        ),
        form(
            "reverse-points-that-repeat",
            "A reverse list that names point 0, and then point 1 twice.",
            three_points(&[0], &[3, 0, 1, 1], &[0]),
            "form 4 at 24",
        ),
        form(
            "releases-that-repeat",
            "A release of point 0 and two of point 1: when a train arrives on track 0, and when \
             one arrives on track 1.",
            three_points(&[0], &[0], &[3, 0, 0, 0, 1, 1, 1]),
            "form 4 at 28",
        ),
        form(
            "entries-that-do-not-rise",
            "The bench plan, but both entries are at track 0.",
            bench_with(51..52, &[0]),
            "form 4 at 51",
        ),
        form(
            "entry-clear-that-repeats",
            "The bench plan, but entry 0's clear list is 0, 1, 1.",
            bench_with(49..51, &[3, 0, 1, 1]),
            "form 4 at 52",
        ),
    ]
}

/// That a route's clear list may not fall is a slip of the document's own.
fn lists_that_fall() -> Vec<Session> {
    vec![
        form(
            "homes-that-fall",
            "The bench plan with three signals, whose homes are tracks 0, 2 and 1.",
            bench_with(17..20, &[3, 0, 2, 1]),
            "form 4 at 20",
        ),
        form(
            "normal-points-that-fall",
            "A normal list that rises from point 0 to point 2 and falls to point 1.",
            three_points(&[3, 0, 2, 1], &[0], &[0]),
            "form 4 at 23",
        ),
        form(
            "reverse-points-that-do-not-rise",
            "A reverse list that falls from point 2 to point 0.",
            three_points(&[0], &[2, 2, 0], &[0]),
            "form 4 at 23",
        ),
        form(
            "releases-that-do-not-rise",
            "Two releases: of point 2 when a train arrives on track 0, and of point 1 when one \
             arrives on track 1. Releases rise by point, and these fall.",
            three_points(&[0], &[0], &[2, 0, 2, 1, 1]),
            "form 4 at 26",
        ),
        form(
            "entries-that-fall",
            "The bench plan with three entries, at tracks 0, 2 and 1.",
            bench_with(47..54, &[3, 0, 1, 0, 2, 1, 2, 1, 1, 1]),
            "form 4 at 54",
        ),
        form(
            "entry-clear-that-does-not-rise",
            "The bench plan, but entry 0's clear list is 1, 0.",
            bench_with(49..51, &[2, 1, 0]),
            "form 4 at 51",
        ),
    ]
}
