//! Track layouts drawn piece by piece, so that rules 1 to 5 hold by the way they are drawn.

use crate::model::plan::{self, Track};
use crate::random::Random;

/// A way out that leads nowhere yet.
#[derive(Clone, Copy, Debug)]
pub struct End {
    track: usize,
    reverse: bool,
}

/// A trailing point that still lacks a leg, so that a line can be led back to an earlier track.
#[derive(Clone, Copy, Debug)]
pub struct Gap {
    point: usize,
    leg: usize,
}

/// Stands for a number that is filled in later.
const LATER: usize = usize::MAX;

/// Tracks being drawn, and which of them are homes.
#[derive(Clone, Debug, Default)]
pub struct Sketch {
    tracks: Vec<Track>,
    homes: Vec<usize>,
}

/// Finished tracks with their rising homes.
#[derive(Clone, Debug)]
pub struct Layout {
    pub tracks: Vec<Track>,
    pub homes: Vec<usize>,
}

impl Sketch {
    fn add(&mut self, track: Track) -> usize {
        self.tracks.push(track);
        self.tracks.len() - 1
    }

    fn lead(&mut self, end: End, to: usize) {
        match &mut self.tracks[end.track] {
            Track::Plain { next } | Track::Trailing { next, .. } => *next = to,
            Track::Facing { reverse, .. } if end.reverse => *reverse = to,
            Track::Facing { normal, .. } => *normal = to,
            Track::Exit => unreachable!("an exit has no way out"),
        }
    }

    fn add_after(&mut self, end: End, track: Track) -> End {
        let track = self.add(track);
        self.lead(end, track);
        only_way(track)
    }

    /// A home that nothing leads to: trains may enter there.
    pub fn start(&mut self) -> End {
        let track = self.add(Track::Plain { next: LATER });
        self.homes.push(track);
        only_way(track)
    }

    pub fn plain(&mut self, end: End) -> End {
        self.add_after(end, Track::Plain { next: LATER })
    }

    pub fn home(&mut self, end: End) -> End {
        let end = self.plain(end);
        self.homes.push(end.track);
        end
    }

    pub fn exit(&mut self, end: End) {
        self.add_after(end, Track::Exit);
    }

    pub fn facing(&mut self, end: End) -> (End, End) {
        let point = Track::Facing {
            normal: LATER,
            reverse: LATER,
        };
        let normal = self.add_after(end, point);
        let reverse = End {
            reverse: true,
            ..normal
        };
        (normal, reverse)
    }

    /// A trailing point with its second leg open. The leg must come from another track.
    pub fn gap(&mut self, first: End) -> (Gap, End) {
        let point = Track::Trailing {
            next: LATER,
            normal_leg: first.track,
            reverse_leg: LATER,
        };
        let end = self.add_after(first, point);
        let gap = Gap {
            point: end.track,
            leg: first.track,
        };
        (gap, end)
    }

    pub fn fits(gap: Gap, end: End) -> bool {
        gap.leg != end.track
    }

    pub fn close(&mut self, gap: Gap, second: End) {
        self.lead(second, gap.point);
        if let Track::Trailing { reverse_leg, .. } = &mut self.tracks[gap.point] {
            *reverse_leg = second.track;
        }
    }

    /// A trailing point with both legs at hand; they must come from two tracks.
    pub fn trailing(&mut self, first: End, second: End) -> End {
        let (gap, end) = self.gap(first);
        self.close(gap, second);
        end
    }

    pub fn size(&self) -> usize {
        self.tracks.len()
    }

    /// The finished layout with normal and reverse dealt out by chance, or nothing if it is too
    /// large for a plan.
    pub fn finish(mut self, random: &mut Random) -> Option<Layout> {
        let fits =
            plan::TRACKS.contains(&self.tracks.len()) && plan::SIGNALS.contains(&self.homes.len());
        if !fits {
            return None;
        }
        for track in &mut self.tracks {
            if random.chance(50) {
                swap_lies(track);
            }
        }
        self.homes.sort_unstable();
        Some(Layout {
            tracks: self.tracks,
            homes: self.homes,
        })
    }
}

fn only_way(track: usize) -> End {
    End {
        track,
        reverse: false,
    }
}

fn swap_lies(track: &mut Track) {
    match track {
        Track::Facing { normal, reverse } => std::mem::swap(normal, reverse),
        Track::Trailing {
            normal_leg,
            reverse_leg,
            ..
        } => std::mem::swap(normal_leg, reverse_leg),
        Track::Plain { .. } | Track::Exit => {}
    }
}
