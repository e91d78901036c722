//! Draws from a seed: a small random number generator, and what is drawn with it. This is plain Rust, outside the proved core.

/// SplitMix64, after Sebastiano Vigna's splitmix64.c, which is in the public domain. It is not the generator that smartcore uses, so
/// the same seed gives other bags and orders there.
///
/// How draws are made from its words is fixed and documented here, so that they can be made in the same way elsewhere, and the same
/// seed always gives the same forest.
///
/// ```
/// use tailboardy::SplitMix64;
///
/// let mut draws = SplitMix64::new(1234567);
/// assert_eq!(draws.word(), 6457827717110365317);
/// let mut order = [0, 1, 2];
/// draws.shuffle(&mut order);
/// assert_eq!(order, [0, 2, 1]);
/// assert!(draws.up_to(5) <= 5);
/// assert!((0.0..1.0).contains(&draws.unit()));
/// assert!((6.2..7.5).contains(&draws.within(6.2, 7.5)));
/// ```
#[derive(Debug, Clone)]
pub struct SplitMix64 {
    state: u64,
}

/// How many times a draw that is too large is repeated.
const TRIES: u32 = 64;

impl SplitMix64 {
    /// Starts the stream of words of this seed.
    #[must_use]
    pub fn new(seed: u64) -> Self {
        SplitMix64 { state: seed }
    }

    /// The next word.
    pub fn word(&mut self) -> u64 {
        self.state = self.state.wrapping_add(0x9e37_79b9_7f4a_7c15);
        let mut z = self.state;
        z = (z ^ (z >> 30)).wrapping_mul(0xbf58_476d_1ce4_e5b9);
        z = (z ^ (z >> 27)).wrapping_mul(0x94d0_49bb_1331_11eb);
        z ^ (z >> 31)
    }

    /// A number from 0 to `most`, all equally likely: as many low bits of a word as `most` has, taken from the next word as long as the
    /// result is above `most`. After 64 words the result is 0.
    pub fn up_to(&mut self, most: u64) -> u64 {
        let bits = u64::MAX
            .checked_shr(most.leading_zeros())
            .unwrap_or_default();
        (0..TRIES)
            .map(|_| self.word() & bits)
            .find(|drawn| *drawn <= most)
            .unwrap_or(0)
    }

    /// A number that is at least 0 and below 1: the top 53 bits of a word.
    pub fn unit(&mut self) -> f64 {
        (self.word() >> 11) as f64 / (1u64 << 53) as f64
    }

    /// Shuffles: from the last position down to the second, swaps the entry with one drawn from the positions up to and including it.
    pub fn shuffle(&mut self, order: &mut [u32]) {
        for place in (1..order.len()).rev() {
            let with = self.up_to(place as u64);
            order.swap(place, with as usize);
        }
    }

    /// A threshold that is at least `low` and below `high`; `low` itself if rounding leaves that range.
    pub fn within(&mut self, low: f64, high: f64) -> f64 {
        let drawn = low + (high - low) * self.unit();
        if low <= drawn && drawn < high {
            drawn
        } else {
            low
        }
    }
}

/// The draws of one tree: its own stream, and the order of features of the last search.
#[derive(Debug, Clone)]
pub(crate) struct TreeDraws {
    stream: SplitMix64,
    order: Vec<u32>,
}

impl TreeDraws {
    /// Each tree's seed is the forest's seed plus the tree's number, so that no tree affects the draws of another.
    pub(crate) fn new(seed: u64, tree: usize, features: usize) -> Self {
        TreeDraws {
            stream: SplitMix64::new(seed.wrapping_add(tree as u64)),
            order: (0..features as u32).collect(),
        }
    }

    /// The order of the next search.
    pub(crate) fn order(&mut self) -> &[u32] {
        self.stream.shuffle(&mut self.order);
        &self.order
    }

    pub(crate) fn threshold(&mut self, low: f64, high: f64) -> f64 {
        self.stream.within(low, high)
    }
}

#[cfg(test)]
mod tests {
    use super::*;

    #[test]
    fn words_are_those_of_the_published_generator() {
        let mut draws = SplitMix64::new(1_234_567);
        let words: Vec<u64> = (0..5).map(|_| draws.word()).collect();
        let published = [
            6_457_827_717_110_365_317,
            3_203_168_211_198_807_973,
            9_817_491_932_198_370_423,
            4_593_380_528_125_082_431,
            16_408_922_859_458_223_821,
        ];
        assert_eq!(words, published);
    }

    /// These numbers were computed independently of this code, so that seeds keep their meaning.
    #[test]
    fn draws_are_made_as_they_are_said_to_be() {
        let mut tree = TreeDraws::new(42, 1, 4);
        let orders: Vec<u32> = (0..3).flat_map(|_| tree.order().to_vec()).collect();
        assert_eq!(orders, [1, 3, 2, 0, 3, 1, 0, 2, 0, 2, 1, 3]);
        let mut last = TreeDraws::new(u64::MAX, 1, 2);
        let mut first = TreeDraws::new(0, 0, 2);
        assert_eq!(last.order(), first.order());
        let mut draws = SplitMix64::new(7);
        let thresholds = [0; 3].map(|_| draws.within(-2.0, 6.0));
        let worked_out = [1.118637987130172, -1.865693643774751, 5.206085444855067];
        assert_eq!(thresholds, worked_out);
    }

    #[test]
    fn draws_stay_within_their_bounds() {
        let mut draws = SplitMix64::new(7);
        for most in [0, 1, 2, 3, 4, 5, 63, 64, 65_534, u64::MAX - 1, u64::MAX] {
            assert!((0..1000).all(|_| draws.up_to(most) <= most), "{most}");
        }
        let spans = [
            (0.0, 1.0),
            (-1.7e308, 1.7e308),
            (1.0, 1.0 + f64::EPSILON),
            (-0.0, 5e-324),
        ];
        for (low, high) in spans {
            for _ in 0..1000 {
                let drawn = draws.within(low, high);
                assert!(low <= drawn && drawn < high, "{drawn} of {low} to {high}");
            }
        }
    }

    #[test]
    fn every_number_and_every_order_is_drawn() {
        let mut draws = SplitMix64::new(0);
        let mut times = [0; 6];
        let mut orders = std::collections::BTreeMap::new();
        for _ in 0..6000 {
            times[draws.up_to(5) as usize] += 1;
            let mut order = [0, 1, 2];
            draws.shuffle(&mut order);
            *orders.entry(order).or_insert(0) += 1;
        }
        assert!(times.iter().all(|n| (850..1150).contains(n)), "{times:?}");
        assert_eq!(orders.len(), 6);
        assert!(orders.values().all(|n| (850..1150).contains(n)));
    }
}
