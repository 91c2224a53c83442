//! Both sides of each boundary that a run of the program can show: the last value that passes and
//! the first that does not. The surroundings are seeded; the expectations come from the paper.

use crate::case::Case;
use crate::rng::Rng;
use crate::{boundary_frames, boundary_records, boundary_replicas, boundary_streams};

/// One round: every boundary, both sides.
pub fn cases(rng: &mut Rng) -> Vec<Case> {
    let mut cases = boundary_streams::cases(rng);
    cases.extend(boundary_records::cases(rng));
    cases.extend(boundary_frames::cases(rng));
    cases.extend(boundary_replicas::cases(rng));
    cases
}
