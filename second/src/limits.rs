//! The sizes that this program goes by, each by its name: what the document allows of each thing, where each thing stands
//! in an image, and what the box's interface has. They are its own, so that they can be compared with those of the box.

#[cfg(feature = "boxed")]
use crate::boxed;
use crate::model::image;
use crate::model::plan::{self, LARGEST_FILE};
use crate::subject::LINE;

/// Every size with its name.
pub fn all() -> Vec<(String, usize)> {
    let counts = [
        ("tracks", plan::TRACKS),
        ("signals", plan::SIGNALS),
        ("routes", plan::ROUTES),
        ("entries", plan::ENTRIES),
        ("path", plan::PATH),
        ("clear", plan::CLEAR),
        ("points", plan::POINTS),
        ("releases", plan::RELEASES),
    ];
    let mut sizes = Vec::new();
    for (name, limits) in counts {
        sizes.push((format!("least-{name}"), *limits.start()));
        sizes.push((format!("most-{name}"), *limits.end()));
    }
    sizes.push(("largest-file".to_string(), LARGEST_FILE));
    sizes.push(("line".to_string(), LINE));
    let of_image = [
        ("image", image::IMAGE_SIZE),
        ("signals-at", image::SIGNALS_AT),
        ("routes-at", image::ROUTES_AT),
        ("entries-at", image::ENTRIES_AT),
        ("route-size", image::ROUTE_SIZE),
        ("entry-size", image::ENTRY_SIZE),
        ("path-at", image::PATH_AT),
        ("clear-at", image::CLEAR_AT),
        ("normal-at", image::NORMAL_AT),
        ("reverse-at", image::REVERSE_AT),
        ("releases-at", image::RELEASES_AT),
        ("entry-clear-at", image::ENTRY_CLEAR_AT),
    ];
    sizes.extend(of_image.map(|(name, size)| (name.to_string(), size)));
    #[cfg(feature = "boxed")]
    sizes.extend([
        ("lies-from".to_string(), boxed::LIES),
        ("signals-from".to_string(), boxed::SIGNALS),
        ("cells".to_string(), boxed::CELLS),
        ("holds".to_string(), boxed::HOLDS),
        ("unfinished".to_string(), boxed::UNFINISHED),
    ]);
    sizes
}
