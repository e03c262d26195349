//! Cases for the comparison, each made from a kind and a seed.

mod damage;
mod frames;
pub mod random;
mod source;
mod statements;
mod text;

use random::Random;
use source::Profile;

#[derive(Clone, Copy, Debug, PartialEq, Eq)]
pub enum Kind {
    /// Sources, most of them in order, many of them near or just over a limit.
    Source,
    /// Sources that were in order, with bytes or tokens changed, dropped, added or swapped.
    DamagedSource,
    /// A source with updates, packets and pauses that go with it.
    Frames,
    /// The same, with bytes and frames changed, dropped, added, swapped or cut.
    DamagedFrames,
}

impl Kind {
    pub const ALL: [Kind; 4] = [
        Kind::Source,
        Kind::DamagedSource,
        Kind::Frames,
        Kind::DamagedFrames,
    ];

    pub fn name(self) -> &'static str {
        match self {
            Kind::Source => "source",
            Kind::DamagedSource => "damaged-source",
            Kind::Frames => "frames",
            Kind::DamagedFrames => "damaged-frames",
        }
    }

    pub fn from_name(name: &str) -> Option<Kind> {
        Kind::ALL.into_iter().find(|kind| kind.name() == name)
    }
}

pub fn case(kind: Kind, seed: u64) -> Vec<u8> {
    // Kinds draw from different rows of numbers, so that one seed is four unrelated cases.
    let random = &mut Random::new(seed * 4 + kind as u64);
    match kind {
        Kind::Source => {
            let profile = Profile::any(random);
            let slips = random.chance(35);
            let source = source::write(random, profile, slips);
            text::render(random, &source.tokens)
        }
        Kind::DamagedSource => {
            let profile = Profile::any(random);
            let source = source::write(random, profile, false);
            damage::source(random, source.tokens)
        }
        Kind::Frames => frames::stream(random).concat(),
        Kind::DamagedFrames => {
            let frames = frames::stream(random);
            damage::frames(random, frames)
        }
    }
}
