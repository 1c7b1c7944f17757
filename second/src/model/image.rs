//! The plan in memory: its image, in which every list has its full length and what stands past a
//! count is 0, so that each thing has an offset of its own. An image is judged where it stands, and
//! written as the file that it is.

use super::plan::{self, Entry, Plan, Route, Track, MOST_TRACKS};
use super::reading;
use std::ops::RangeInclusive;

/// The bytes of a track: its kind and three numbers.
pub const TRACK_SIZE: usize = 4;

/// Where the lists of a route stand among its bytes, each with its count first. The start is byte 0.
pub const PATH_AT: usize = 1;
pub const CLEAR_AT: usize = PATH_AT + list_size(plan::PATH, 1);
pub const NORMAL_AT: usize = CLEAR_AT + list_size(plan::CLEAR, 1);
pub const REVERSE_AT: usize = NORMAL_AT + list_size(plan::POINTS, 1);
pub const RELEASES_AT: usize = REVERSE_AT + list_size(plan::POINTS, 1);
pub const ROUTE_SIZE: usize = RELEASES_AT + list_size(plan::RELEASES, 2);

/// Where the list of an entry stands among its bytes. The track is byte 0.
pub const ENTRY_CLEAR_AT: usize = 1;
pub const ENTRY_SIZE: usize = ENTRY_CLEAR_AT + list_size(plan::CLEAR, 1);

/// Where the sections stand in the image, each with its count first.
pub const TRACKS_AT: usize = 0;
pub const SIGNALS_AT: usize = TRACKS_AT + list_size(plan::TRACKS, TRACK_SIZE);
pub const ROUTES_AT: usize = SIGNALS_AT + list_size(plan::SIGNALS, 1);
pub const ENTRIES_AT: usize = ROUTES_AT + list_size(plan::ROUTES, ROUTE_SIZE);
pub const IMAGE_SIZE: usize = ENTRIES_AT + list_size(plan::ENTRIES, ENTRY_SIZE);

pub type Image = [u8; IMAGE_SIZE];

/// A count, and room for as many items as there may be.
const fn list_size(limits: RangeInclusive<usize>, item_size: usize) -> usize {
    1 + item_size * *limits.end()
}

/// Makes an image that of a plan, whatever it was.
pub fn show(plan: &Plan, image: &mut Image) {
    image.fill(0);
    let rows = rows_of(
        &mut image[TRACKS_AT..SIGNALS_AT],
        plan.tracks.len(),
        TRACK_SIZE,
    );
    for (row, track) in rows.zip(&plan.tracks) {
        row.copy_from_slice(&track_row(track));
    }
    show_list(&mut image[SIGNALS_AT..ROUTES_AT], &plan.homes);
    let rows = rows_of(
        &mut image[ROUTES_AT..ENTRIES_AT],
        plan.routes.len(),
        ROUTE_SIZE,
    );
    for (row, route) in rows.zip(&plan.routes) {
        show_route(row, route);
    }
    let rows = rows_of(&mut image[ENTRIES_AT..], plan.entries.len(), ENTRY_SIZE);
    for (row, entry) in rows.zip(&plan.entries) {
        show_entry(row, entry);
    }
}

/// The rows of a section, whose count is set.
fn rows_of(section: &mut [u8], count: usize, size: usize) -> impl Iterator<Item = &mut [u8]> {
    section[0] = count as u8;
    section[1..].chunks_exact_mut(size)
}

fn track_row(track: &Track) -> [u8; TRACK_SIZE] {
    let row = match *track {
        Track::Plain { next } => [0, next, 0, 0],
        Track::Facing { normal, reverse } => [1, normal, reverse, 0],
        Track::Trailing {
            next,
            normal_leg,
            reverse_leg,
        } => [2, next, normal_leg, reverse_leg],
        Track::Exit => [3, 0, 0, 0],
    };
    row.map(|number| number as u8)
}

fn show_list(list: &mut [u8], numbers: &[usize]) {
    list[0] = numbers.len() as u8;
    for (place, &number) in list[1..].iter_mut().zip(numbers) {
        *place = number as u8;
    }
}

fn show_route(row: &mut [u8], route: &Route) {
    row[0] = route.start as u8;
    show_list(&mut row[PATH_AT..CLEAR_AT], &route.path);
    show_list(&mut row[CLEAR_AT..NORMAL_AT], &route.clear);
    show_list(&mut row[NORMAL_AT..REVERSE_AT], &route.normal);
    show_list(&mut row[REVERSE_AT..RELEASES_AT], &route.reverse);
    let pairs = rows_of(&mut row[RELEASES_AT..], route.releases.len(), 2);
    for (pair, release) in pairs.zip(&route.releases) {
        pair.copy_from_slice(&[release.track as u8, release.point as u8]);
    }
}

fn show_entry(row: &mut [u8], entry: &Entry) {
    row[0] = entry.track as u8;
    show_list(&mut row[ENTRY_CLEAR_AT..], &entry.clear);
}

/// Why an image is not written: 7 and 6, in this order.
#[derive(Clone, Copy, Debug, PartialEq, Eq)]
pub enum Unwritten {
    NoPlan,
    NoRoom,
}

/// Writes an image as its file and hands back how long that is. What stands past the file stays,
/// and all of it where nothing is written.
pub fn write(image: &Image, out: &mut [u8]) -> Result<usize, Unwritten> {
    judge(image).ok_or(Unwritten::NoPlan)?;
    let mut length = 0;
    for_parts(image, |part| length += part.len());
    let mut rest = out.get_mut(..length).ok_or(Unwritten::NoRoom)?;
    for_parts(image, |part| {
        let (here, behind) = std::mem::take(&mut rest).split_at_mut(part.len());
        here.copy_from_slice(part);
        rest = behind;
    });
    Ok(length)
}

/// The plan that an image is, if it is one's.
pub fn plan(image: &Image) -> Option<Plan> {
    let mut file = [0; IMAGE_SIZE];
    let length = write(image, &mut file).ok()?;
    reading::read(&file[..length]).ok()
}

/// Calls `take` for each part of an image that stands in its file, in the order of the file. All
/// counts must be within their limits.
fn for_parts<'a>(image: &'a Image, mut take: impl FnMut(&'a [u8])) {
    take(in_use(&image[TRACKS_AT..SIGNALS_AT], TRACK_SIZE));
    take(in_use(&image[SIGNALS_AT..ROUTES_AT], 1));
    let (count, routes) = in_use(&image[ROUTES_AT..ENTRIES_AT], ROUTE_SIZE).split_at(1);
    take(count);
    for row in routes.chunks_exact(ROUTE_SIZE) {
        take(&row[..PATH_AT]);
        take(in_use(&row[PATH_AT..CLEAR_AT], 1));
        take(in_use(&row[CLEAR_AT..NORMAL_AT], 1));
        take(in_use(&row[NORMAL_AT..REVERSE_AT], 1));
        take(in_use(&row[REVERSE_AT..RELEASES_AT], 1));
        take(in_use(&row[RELEASES_AT..], 2));
    }
    let (count, entries) = in_use(&image[ENTRIES_AT..], ENTRY_SIZE).split_at(1);
    take(count);
    for row in entries.chunks_exact(ENTRY_SIZE) {
        take(&row[..ENTRY_CLEAR_AT]);
        take(in_use(&row[ENTRY_CLEAR_AT..], 1));
    }
}

/// A list as far as it is in use: its count and so many items.
fn in_use(list: &[u8], item_size: usize) -> &[u8] {
    &list[..1 + item_size * usize::from(list[0])]
}

/// Nothing if no file reads as the image.
fn judge(image: &Image) -> Option<()> {
    let tracks = Tracks::judged(&image[TRACKS_AT..SIGNALS_AT])?;
    let homes = items(&image[SIGNALS_AT..ROUTES_AT], 1, plan::SIGNALS)?;
    let routes = items(&image[ROUTES_AT..ENTRIES_AT], ROUTE_SIZE, plan::ROUTES)?;
    let entries = items(&image[ENTRIES_AT..], ENTRY_SIZE, plan::ENTRIES)?;
    demand(tracks.have_rising(homes))?;
    for row in routes.chunks_exact(ROUTE_SIZE) {
        demand(usize::from(row[0]) < homes.len())?;
        tracks.judge_lists(row)?;
    }
    demand(rises(entries.chunks_exact(ENTRY_SIZE).map(|row| row[0])))?;
    for row in entries.chunks_exact(ENTRY_SIZE) {
        let clear = items(&row[ENTRY_CLEAR_AT..], 1, plan::CLEAR)?;
        demand(tracks.have(row[0]) && tracks.have_rising(clear))?;
    }
    Some(())
}

/// What the tracks of an image say of the numbers in the other sections.
struct Tracks {
    count: usize,
    is_point: [bool; MOST_TRACKS],
}

impl Tracks {
    fn judged(section: &[u8]) -> Option<Self> {
        let rows = items(section, TRACK_SIZE, plan::TRACKS)?;
        let mut tracks = Tracks {
            count: rows.len() / TRACK_SIZE,
            is_point: [false; MOST_TRACKS],
        };
        for (row, is_point) in rows.chunks_exact(TRACK_SIZE).zip(&mut tracks.is_point) {
            let (kind, numbers) = (row[0], &row[1..]);
            let in_use = *[1, 2, 3, 0].get(usize::from(kind))?;
            let (numbers, unused) = numbers.split_at(in_use);
            let is_known = |&number: &u8| usize::from(number) < tracks.count;
            demand(numbers.iter().all(is_known) && is_empty(unused))?;
            *is_point = matches!(kind, 1 | 2);
        }
        Some(tracks)
    }

    fn have(&self, track: u8) -> bool {
        usize::from(track) < self.count
    }

    /// In a list that rises the last is the highest.
    fn have_rising(&self, list: &[u8]) -> bool {
        rises(list.iter().copied()) && list.last().is_none_or(|&track| self.have(track))
    }

    fn have_point(&self, track: u8) -> bool {
        let is_point = self.is_point.get(usize::from(track));
        is_point.is_some_and(|&is_point| is_point)
    }

    fn have_rising_points(&self, mut points: impl Iterator<Item = u8> + Clone) -> bool {
        rises(points.clone()) && points.all(|point| self.have_point(point))
    }

    /// The five lists of a route.
    fn judge_lists(&self, row: &[u8]) -> Option<()> {
        let path = items(&row[PATH_AT..CLEAR_AT], 1, plan::PATH)?;
        let clear = items(&row[CLEAR_AT..NORMAL_AT], 1, plan::CLEAR)?;
        let normal = items(&row[NORMAL_AT..REVERSE_AT], 1, plan::POINTS)?;
        let reverse = items(&row[REVERSE_AT..RELEASES_AT], 1, plan::POINTS)?;
        let releases = items(&row[RELEASES_AT..], 2, plan::RELEASES)?.chunks_exact(2);
        demand(
            path.iter().all(|&track| self.have(track))
                && self.have_rising(clear)
                && self.have_rising_points(normal.iter().copied())
                && self.have_rising_points(reverse.iter().copied())
                && self.have_rising_points(releases.clone().map(|pair| pair[1]))
                && releases.clone().all(|pair| self.have(pair[0])),
        )
    }
}

/// The items of a list. Nothing if there can't be so many, or if anything stands past them.
fn items(list: &[u8], item_size: usize, limits: RangeInclusive<usize>) -> Option<&[u8]> {
    let count = usize::from(list[0]);
    demand(limits.contains(&count))?;
    let (items, past) = list[1..].split_at(item_size * count);
    is_empty(past).then_some(items)
}

/// True if all bytes are 0. Most of an image is looked at here, so there is no way out on the way:
/// many bytes are taken at a time.
fn is_empty(bytes: &[u8]) -> bool {
    bytes.iter().fold(0, |met, byte| met | byte) == 0
}

/// No way out on the way either.
fn rises(numbers: impl Iterator<Item = u8> + Clone) -> bool {
    let followers = numbers.clone().skip(1);
    let pairs = numbers.zip(followers);
    pairs.fold(true, |rises, (number, next)| rises & (number < next))
}

fn demand(holds: bool) -> Option<()> {
    holds.then_some(())
}
