//! Lists of demanded rates (document 02, L10), given by a few numbers: a call with its
//! arguments stays small enough to be copied.

use abr::RATE_MAX;

use crate::rng::Rng;

/// A list of demands.
#[derive(Debug, Clone, Copy)]
pub struct Demands {
    /// How many they are.
    pub count: usize,
    /// The highest that is drawn.
    pub most: u64,
    /// The seed that they are drawn from.
    pub seed: u64,
    /// The place of a demand above the largest rate, and by how much it is, if there is
    /// one.
    pub above: Option<(usize, u64)>,
}

impl Demands {
    /// The demands themselves, some of them equal.
    pub fn list(&self) -> Vec<u64> {
        let mut rng = Rng::new(self.seed);
        let draw = |_| {
            let any = rng.below(self.most + 1);
            rng.pick(&[any, any, any, self.most, self.most / 2, 0])
        };
        let mut list: Vec<u64> = (0..self.count).map(draw).collect();
        if let Some((place, by)) = self.above {
            if let Some(demand) = list.get_mut(place) {
                *demand = RATE_MAX.saturating_add(by);
            }
        }
        list
    }
}
