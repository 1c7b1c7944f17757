//! Reading a plan file: the first bad byte in file order gives a form number and an offset.

use super::plan::{self, Entry, Plan, Release, Route, Track};
use std::fmt;
use std::ops::RangeInclusive;

/// What is wrong with an unreadable file, and where.
#[derive(Clone, Copy, Debug, PartialEq, Eq)]
pub struct Form {
    pub number: u8,
    pub offset: usize,
}

impl fmt::Display for Form {
    fn fmt(&self, out: &mut fmt::Formatter) -> fmt::Result {
        write!(out, "form {} at {}", self.number, self.offset)
    }
}

/// The part of the file a byte belongs to; only for counting what the generators have reached.
#[derive(Clone, Copy, Debug, PartialEq, Eq)]
pub enum Place {
    TrackCount,
    TrackKind,
    TrackNumber,
    UnusedByte,
    SignalCount,
    Home,
    RouteCount,
    Start,
    PathCount,
    Path,
    ClearCount,
    Clear,
    NormalCount,
    Normal,
    ReverseCount,
    Reverse,
    ReleaseCount,
    ReleaseTrack,
    ReleasePoint,
    EntryCount,
    EntryTrack,
    EntryClearCount,
    EntryClear,
    End,
}

/// A form number with the part of the file it was found in.
#[derive(Clone, Copy, Debug, PartialEq, Eq)]
pub struct Fault {
    pub form: Form,
    pub place: Place,
}

type Result<T> = std::result::Result<T, Fault>;

/// The limits of the counts, by the place where each count stands.
pub fn limits(count_place: Place) -> RangeInclusive<usize> {
    match count_place {
        Place::TrackCount => plan::TRACKS,
        Place::SignalCount => plan::SIGNALS,
        Place::RouteCount => plan::ROUTES,
        Place::PathCount => plan::PATH,
        Place::ClearCount | Place::EntryClearCount => plan::CLEAR,
        Place::NormalCount | Place::ReverseCount => plan::POINTS,
        Place::ReleaseCount => plan::RELEASES,
        Place::EntryCount => plan::ENTRIES,
        _ => unreachable!("no count stands at {count_place:?}"),
    }
}

/// What is asked of a count, and of a number in a list that must rise.
#[derive(Clone, Copy)]
pub struct Needs<'a> {
    /// The limits of the count at this place.
    pub limits: &'a dyn Fn(Place) -> RangeInclusive<usize>,
    /// Whether a number of the list at this place, the last argument, may follow those before it.
    pub rises: &'a dyn Fn(Place, &[usize], usize) -> bool,
}

/// The document's own.
pub const NEEDS: Needs = Needs {
    limits: &limits,
    rises: &|_, before, number| before.last().is_none_or(|&forerunner| forerunner < number),
};

/// Reads a whole file.
pub fn read(bytes: &[u8]) -> Result<Plan> {
    read_by(bytes, NEEDS)
}

/// Reads a whole file whose counts have these limits.
pub fn read_within(bytes: &[u8], limits: impl Fn(Place) -> RangeInclusive<usize>) -> Result<Plan> {
    let limits = &limits;
    read_by(bytes, Needs { limits, ..NEEDS })
}

/// Reads a whole file of which this is asked.
pub fn read_by(bytes: &[u8], needs: Needs) -> Result<Plan> {
    let mut reader = Reader {
        bytes,
        offset: 0,
        needs,
    };
    let tracks = reader.tracks()?;
    let is_track = |track: usize| track < tracks.len();
    let homes = reader.list(Place::SignalCount, Place::Home, is_track)?;
    let route_count = reader.count(Place::RouteCount)?;
    let mut routes = Vec::with_capacity(route_count);
    for _ in 0..route_count {
        routes.push(reader.route(&tracks, homes.len())?);
    }
    let entries = reader.entries(tracks.len())?;
    reader.end()?;
    Ok(Plan {
        tracks,
        homes,
        routes,
        entries,
    })
}

struct Reader<'a> {
    bytes: &'a [u8],
    /// Of the next byte to be read.
    offset: usize,
    needs: Needs<'a>,
}

impl Reader<'_> {
    fn byte(&mut self, place: Place) -> Result<usize> {
        match self.bytes.get(self.offset) {
            Some(&byte) => {
                self.offset += 1;
                Ok(usize::from(byte))
            }
            None => Err(fault(1, self.bytes.len(), place)),
        }
    }

    /// The fault that stands at the byte just read.
    fn here(&self, number: u8, place: Place) -> Fault {
        fault(number, self.offset - 1, place)
    }

    fn count(&mut self, place: Place) -> Result<usize> {
        let count = self.byte(place)?;
        if (self.needs.limits)(place).contains(&count) {
            Ok(count)
        } else {
            Err(self.here(2, place))
        }
    }

    /// A byte that must be `good`, such as the number of a track that exists.
    fn number(&mut self, place: Place, good: impl Fn(usize) -> bool) -> Result<usize> {
        let number = self.byte(place)?;
        if good(number) {
            Ok(number)
        } else {
            Err(self.here(3, place))
        }
    }

    /// A `good` byte that must also be above its forerunner. Being good is asked first: at one
    /// byte the lower form number wins.
    fn rising(
        &mut self,
        place: Place,
        before: &[usize],
        good: impl Fn(usize) -> bool,
    ) -> Result<usize> {
        let number = self.number(place, good)?;
        if (self.needs.rises)(place, before, number) {
            Ok(number)
        } else {
            Err(self.here(4, place))
        }
    }

    /// A count and then a strictly rising list.
    fn list(
        &mut self,
        count_place: Place,
        place: Place,
        good: impl Fn(usize) -> bool,
    ) -> Result<Vec<usize>> {
        let count = self.count(count_place)?;
        let mut list = Vec::with_capacity(count);
        for _ in 0..count {
            list.push(self.rising(place, &list, &good)?);
        }
        Ok(list)
    }

    fn tracks(&mut self) -> Result<Vec<Track>> {
        let count = self.count(Place::TrackCount)?;
        let mut tracks = Vec::with_capacity(count);
        for _ in 0..count {
            tracks.push(self.track(count)?);
        }
        Ok(tracks)
    }

    fn track(&mut self, count: usize) -> Result<Track> {
        let kind = self.number(Place::TrackKind, |kind| kind <= 3)?;
        // The three numbers after the kind: first all those in use, then the unused ones.
        let in_use = [1, 2, 3, 0][kind];
        let mut numbers = [0; 3];
        for number in &mut numbers[..in_use] {
            *number = self.number(Place::TrackNumber, |track| track < count)?;
        }
        for _ in in_use..3 {
            self.number(Place::UnusedByte, |byte| byte == 0)?;
        }
        let [first, second, third] = numbers;
        Ok(match kind {
            0 => Track::Plain { next: first },
            1 => Track::Facing {
                normal: first,
                reverse: second,
            },
            2 => Track::Trailing {
                next: first,
                normal_leg: second,
                reverse_leg: third,
            },
            _ => Track::Exit,
        })
    }

    fn route(&mut self, tracks: &[Track], signals: usize) -> Result<Route> {
        let is_track = |track: usize| track < tracks.len();
        let is_point = |track: usize| tracks.get(track).is_some_and(Track::is_point);
        let start = self.number(Place::Start, |signal| signal < signals)?;
        let path_count = self.count(Place::PathCount)?;
        let mut path = Vec::with_capacity(path_count);
        for _ in 0..path_count {
            path.push(self.number(Place::Path, is_track)?);
        }
        let clear = self.list(Place::ClearCount, Place::Clear, is_track)?;
        let normal = self.list(Place::NormalCount, Place::Normal, is_point)?;
        let reverse = self.list(Place::ReverseCount, Place::Reverse, is_point)?;
        let release_count = self.count(Place::ReleaseCount)?;
        let mut releases: Vec<Release> = Vec::with_capacity(release_count);
        let mut points = Vec::with_capacity(release_count);
        for _ in 0..release_count {
            let track = self.number(Place::ReleaseTrack, is_track)?;
            let point = self.rising(Place::ReleasePoint, &points, is_point)?;
            releases.push(Release { track, point });
            points.push(point);
        }
        Ok(Route {
            start,
            path,
            clear,
            normal,
            reverse,
            releases,
        })
    }

    fn entries(&mut self, tracks: usize) -> Result<Vec<Entry>> {
        let is_track = |track: usize| track < tracks;
        let count = self.count(Place::EntryCount)?;
        let mut entries: Vec<Entry> = Vec::with_capacity(count);
        let mut tracks = Vec::with_capacity(count);
        for _ in 0..count {
            let track = self.rising(Place::EntryTrack, &tracks, is_track)?;
            let clear = self.list(Place::EntryClearCount, Place::EntryClear, is_track)?;
            entries.push(Entry { track, clear });
            tracks.push(track);
        }
        Ok(entries)
    }

    fn end(&self) -> Result<()> {
        if self.offset < self.bytes.len() {
            Err(fault(5, self.offset, Place::End))
        } else {
            Ok(())
        }
    }
}

fn fault(number: u8, offset: usize, place: Place) -> Fault {
    Fault {
        form: Form { number, offset },
        place,
    }
}
