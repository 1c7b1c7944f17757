//! The shapes of junctions that are drawn.

use super::sketch::{End, Gap, Layout, Sketch};
use crate::random::Random;

type Shape = fn(&mut Sketch, &mut Random);

const SHAPES: [Shape; 11] = [
    merge,
    diverge,
    double_junction,
    ladder,
    ring,
    merging_chain,
    diverging_chain,
    yard,
    long_line,
    diamonds,
    net,
];

/// A layout of a random shape that fits into a plan.
pub fn layout(random: &mut Random) -> Layout {
    loop {
        let mut sketch = Sketch::default();
        let shape = SHAPES[random.below(SHAPES.len())];
        shape(&mut sketch, random);
        // Two junctions in one plan now and then: they know nothing of each other.
        if random.chance(15) {
            SHAPES[random.below(SHAPES.len())](&mut sketch, random);
        }
        if let Some(layout) = sketch.finish(random) {
            return layout;
        }
    }
}

/// A few plain tracks and homes.
fn stretch(sketch: &mut Sketch, random: &mut Random, mut end: End, longest: usize) -> End {
    for _ in 0..random.between(0, longest) {
        end = if random.chance(40) {
            sketch.home(end)
        } else {
            sketch.plain(end)
        };
    }
    end
}

fn start(sketch: &mut Sketch, random: &mut Random) -> End {
    let end = sketch.start();
    stretch(sketch, random, end, 2)
}

fn finish(sketch: &mut Sketch, random: &mut Random, end: End) {
    let end = stretch(sketch, random, end, 2);
    sketch.exit(end);
}

/// Two lines become one, like the bench plan.
fn merge(sketch: &mut Sketch, random: &mut Random) {
    let (one, other) = (start(sketch, random), start(sketch, random));
    let end = sketch.trailing(one, other);
    finish(sketch, random, end);
}

/// One line becomes two.
fn diverge(sketch: &mut Sketch, random: &mut Random) {
    let end = start(sketch, random);
    let (one, other) = sketch.facing(end);
    finish(sketch, random, one);
    finish(sketch, random, other);
}

/// Two lines with a crossover from one to the other, or one each way.
fn double_junction(sketch: &mut Sketch, random: &mut Random) {
    let (mut one, mut other) = (start(sketch, random), start(sketch, random));
    for _ in 0..random.between(1, 3) {
        let (straight, crossing) = sketch.facing(one);
        let crossing = stretch(sketch, random, crossing, 1);
        other = sketch.trailing(other, crossing);
        one = stretch(sketch, random, straight, 1);
        if random.chance(50) {
            std::mem::swap(&mut one, &mut other);
        }
    }
    finish(sketch, random, one);
    finish(sketch, random, other);
}

/// A lead with a siding at each of its points.
fn ladder(sketch: &mut Sketch, random: &mut Random) {
    let mut lead = start(sketch, random);
    for _ in 0..random.between(2, 8) {
        let (on, siding) = sketch.facing(lead);
        let siding = sketch.home(siding);
        finish(sketch, random, siding);
        lead = stretch(sketch, random, on, 1);
    }
    finish(sketch, random, lead);
}

/// Trains can go round and round; there are ways in and ways out. Two homes at least, so that
/// no route has to come back to its own home.
fn ring(sketch: &mut Sketch, random: &mut Random) {
    let first = start(sketch, random);
    let (gap, mut end) = sketch.gap(first);
    for _ in 0..random.between(2, 6) {
        end = sketch.home(end);
        end = stretch(sketch, random, end, 1);
        if random.chance(40) {
            let (on, out) = sketch.facing(end);
            finish(sketch, random, out);
            end = on;
        }
        if random.chance(30) {
            let way_in = start(sketch, random);
            end = sketch.trailing(end, way_in);
        }
    }
    sketch.close(gap, end);
}

fn merging_chain(sketch: &mut Sketch, random: &mut Random) {
    let mut line = start(sketch, random);
    for _ in 0..random.between(2, 12) {
        let branch = sketch.start();
        line = if random.chance(50) {
            sketch.trailing(line, branch)
        } else {
            sketch.trailing(branch, line)
        };
        line = stretch(sketch, random, line, 1);
    }
    finish(sketch, random, line);
}

fn diverging_chain(sketch: &mut Sketch, random: &mut Random) {
    let mut line = start(sketch, random);
    for _ in 0..random.between(2, 12) {
        let (on, branch) = sketch.facing(line);
        finish(sketch, random, branch);
        line = on;
    }
    finish(sketch, random, line);
}

/// One line fans out into parallel tracks with homes and comes together again.
fn yard(sketch: &mut Sketch, random: &mut Random) {
    let mut lead = start(sketch, random);
    let mut parallel = Vec::new();
    for _ in 0..random.between(1, 5) {
        let (on, branch) = sketch.facing(lead);
        parallel.push(sketch.home(branch));
        lead = on;
    }
    let mut line = sketch.home(lead);
    for branch in parallel {
        line = sketch.trailing(line, branch);
    }
    finish(sketch, random, line);
}

/// Few homes far apart, so that paths reach their limit of 32 tracks or stay just below it.
fn long_line(sketch: &mut Sketch, random: &mut Random) {
    let mut line = sketch.start();
    for _ in 0..random.between(20, 33) {
        line = match random.below(10) {
            0 => {
                let (on, out) = sketch.facing(line);
                sketch.exit(out);
                on
            }
            1 => {
                let branch = sketch.start();
                sketch.trailing(line, branch)
            }
            _ => sketch.plain(line),
        };
    }
    sketch.exit(line);
}

/// The line parts and comes together again several times: many routes from one signal.
fn diamonds(sketch: &mut Sketch, random: &mut Random) {
    let mut line = start(sketch, random);
    for _ in 0..random.between(1, 4) {
        let (left, right) = sketch.facing(line);
        let left = sketch.plain(left);
        // One side may be the point's own way straight into the other point.
        let right = stretch(sketch, random, right, 1);
        line = sketch.trailing(left, right);
    }
    finish(sketch, random, line);
}

/// Anything that can be drawn.
fn net(sketch: &mut Sketch, random: &mut Random) {
    let mut ends: Vec<End> = (0..random.between(1, 4)).map(|_| sketch.start()).collect();
    let mut gaps = Vec::new();
    let size = sketch.size() + random.between(4, 40);
    while sketch.size() < size && !ends.is_empty() {
        let end = ends.swap_remove(random.below(ends.len()));
        grow(sketch, random, end, &mut ends, &mut gaps);
    }
    for gap in gaps {
        close_gap(sketch, gap, &mut ends);
    }
    for end in ends {
        sketch.exit(end);
    }
}

fn grow(
    sketch: &mut Sketch,
    random: &mut Random,
    end: End,
    ends: &mut Vec<End>,
    gaps: &mut Vec<Gap>,
) {
    match random.below(12) {
        0..=1 => ends.push(sketch.plain(end)),
        2..=5 => ends.push(sketch.home(end)),
        6..=7 => {
            let (one, other) = sketch.facing(end);
            ends.extend([one, other]);
        }
        8 => sketch.exit(end),
        9 => ends.push(end),
        _ => {
            let (gap, end) = sketch.gap(end);
            ends.push(end);
            gaps.push(gap);
        }
    }
    random.shuffle(ends);
}

/// Leads one of the open ends to the gap; a new start if none fits.
fn close_gap(sketch: &mut Sketch, gap: Gap, ends: &mut Vec<End>) {
    let second = match ends.iter().position(|&end| Sketch::fits(gap, end)) {
        Some(place) => ends.swap_remove(place),
        None => sketch.start(),
    };
    sketch.close(gap, second);
}
