//! Columns of every profile.

use crate::random::Random;

/// How the counts of a column run.
#[derive(Clone, Copy, Debug, PartialEq, Eq)]
pub enum Profile {
    /// Any counts.
    Random,
    /// Each above the one before.
    Rising,
    /// Each below the one before.
    Falling,
    /// Rising, with a few out of place.
    NearlySorted,
    /// All the same.
    Constant,
    /// Few different counts, so many ties.
    Few,
    /// Rising and falling in teeth.
    Teeth,
    /// Rising to the middle, then falling.
    Hill,
    /// Falling to the middle, then rising.
    Valley,
    /// 0, n, n - 1, ..: closing 0 stands at the start and closing 1 far away.
    ZeroThenFalling,
    /// Falling, with noise.
    FallingNoise,
    /// The least and the greatest count only.
    Ends,
    /// Long falling runs one after the other: many openings between two closings.
    Runs,
}

impl Profile {
    /// All of them.
    pub const ALL: [Profile; 13] = [
        Profile::Random,
        Profile::Rising,
        Profile::Falling,
        Profile::NearlySorted,
        Profile::Constant,
        Profile::Few,
        Profile::Teeth,
        Profile::Hill,
        Profile::Valley,
        Profile::ZeroThenFalling,
        Profile::FallingNoise,
        Profile::Ends,
        Profile::Runs,
    ];
}

/// A column of n counts.
pub fn column(random: &mut Random, profile: Profile, n: usize) -> Vec<u32> {
    let step = random.from_to(1, 100_000) as u32;
    let period = random.from_to(1, n.max(1));
    let few = random.from_to(1, 5);
    let rising = |k: usize| k as u32 * step;
    let falling = |k: usize| (n - k) as u32 * step;
    let mut counts: Vec<u32> = (0..n)
        .map(|k| match profile {
            Profile::Random => random.word() as u32,
            Profile::Rising | Profile::NearlySorted => rising(k),
            Profile::Falling => falling(k),
            Profile::Constant => step,
            Profile::Few => random.below(few) as u32,
            Profile::Teeth => rising(k % period),
            Profile::Hill => rising(k.min(n - k)),
            Profile::Valley => rising(k.max(n - k)),
            Profile::ZeroThenFalling if k == 0 => 0,
            Profile::ZeroThenFalling => falling(k),
            Profile::FallingNoise => falling(k) + random.below(2 * step as usize) as u32,
            Profile::Ends => random.one_of(&[0, u32::MAX]),
            Profile::Runs => (k / period) as u32 * step + (period - k % period) as u32,
        })
        .collect();
    if profile == Profile::NearlySorted && n > 0 {
        for _ in 0..random.from_to(1, 1 + n / 50) {
            counts.swap(random.below(n), random.below(n));
        }
    }
    counts
}

/// A column of n counts of any profile.
pub fn any(random: &mut Random, n: usize) -> Vec<u32> {
    let profile = random.one_of(&Profile::ALL);
    column(random, profile, n)
}

/// A length of at most `most`: small, near the edges of bytes and blocks, or any.
pub fn length(random: &mut Random, most: usize) -> usize {
    let n = match random.below(8) {
        0..3 => random.below(41),
        3 => 4 * random.below(64) + random.below(3),
        4 => (128 * random.from_to(1, 8) + random.below(5)).saturating_sub(2),
        5 => (256 * random.from_to(1, 128) + random.below(5)).saturating_sub(2),
        _ => random.scaled(most + 1),
    };
    n.min(most)
}
