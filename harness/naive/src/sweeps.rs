//! "Dairy to every farm", request a of document 02, and its mirror, "all farms to the dairy".

use crate::labels::{labels, Held, Way};

/// The dairy, and which way its list goes.
#[derive(Clone, Copy, Debug, PartialEq, Eq)]
pub enum Sweep {
    /// From this junction to all.
    From(u32),
    /// From all junctions to this one.
    To(u32),
}

impl Sweep {
    /// The junction given.
    pub fn dairy(self) -> u32 {
        match self {
            Sweep::From(dairy) | Sweep::To(dairy) => dairy,
        }
    }

    /// From where to where the distance of a farm is.
    pub fn pair(self, farm: u32) -> (u32, u32) {
        match self {
            Sweep::From(dairy) => (dairy, farm),
            Sweep::To(dairy) => (farm, dairy),
        }
    }
}

/// "labels from the start upward, then all positions from the highest down, each taking the least over its higher
/// neighbours": the distance of each position, if any. The mirror labels along the down list and reads the up list.
pub fn swept(held: &Held, end: usize, way: Way) -> Vec<Option<u64>> {
    let labels = labels(held, end, way);
    let mut far: Vec<Option<u64>> = labels.iter().map(|label| Some((*label)?.sum)).collect();
    let n = far.len();
    for p in (0..n).rev() {
        for q in p + 1..n {
            let step = match way {
                Way::Up => held.cost(q, p),
                Way::Down => held.cost(p, q),
            };
            if let (Some(above), Some(step)) = (far[q], step) {
                let sum = above + step;
                far[p] = Some(far[p].map_or(sum, |least| least.min(sum)));
            }
        }
    }
    far
}
