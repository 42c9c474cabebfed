//! Document 01, "Where trainees and programs slip", slips with W-202's best-effort frames, the count of S from before W-208,
//! and a slip with W-206's changes: each is a switch that turns one rule wrong, so that an answer can be recognised by the
//! slip that gives it. All else goes by the rules; with no switch on, everything does.

use crate::formula::{burst_at_hop, growth, hop_growth, Sums};

/// How what can be under way is taken.
#[derive(Clone, Copy, Debug, Default, PartialEq)]
pub enum Blocking {
    /// By the rule: the larger of the frame below and the best-effort frame.
    #[default]
    Larger,
    /// The frame below alone.
    LeftOut,
    /// The frame below alone where there is none: at the last level that carries a flow.
    LeftOutAtTheLast,
    /// Both, one after the other.
    Added,
}

/// How a burst grows along a path.
#[derive(Clone, Copy, Debug, Default, PartialEq)]
pub enum Growth {
    /// With S, rounded up once.
    #[default]
    Once,
    /// Not at all: the source's burst is taken at every hop.
    Never,
    /// Rounded up at each hop.
    EachHop,
    /// With whole thresholds for S.
    WholeThresholds,
}

/// The rules that are broken; none by default.
#[derive(Clone, Copy, Debug, Default, PartialEq)]
pub struct Slips {
    /// Only the new flow's level and those below are checked.
    pub only_below: bool,
    /// A release leaves the largest frame as it stood.
    pub frame_left: bool,
    /// The links before a refusing one keep the flow's share.
    pub stored_early: bool,
    /// A delay's fraction is dropped before it is compared.
    pub fraction_dropped: bool,
    /// A changed flow is counted in beside what it had before.
    pub share_left: bool,
    pub growth: Growth,
    pub blocking: Blocking,
}

const NO_SLIP: Slips = Slips {
    only_below: false,
    frame_left: false,
    stored_early: false,
    fraction_dropped: false,
    share_left: false,
    growth: Growth::Once,
    blocking: Blocking::Larger,
};

impl Slips {
    pub const NONE: Slips = NO_SLIP;

    /// Each slip by itself, in document 01's order, then W-202's, then W-208's, then W-206's, with its name.
    #[rustfmt::skip]
    pub const EACH: [(&'static str, Slips); 11] = [
        ("only the levels below checked", Slips { only_below: true, ..Slips::NONE }),
        ("largest frame left on release", Slips { frame_left: true, ..Slips::NONE }),
        ("first links stored before a refusal at the last", Slips { stored_early: true, ..Slips::NONE }),
        ("source's burst at every hop", Slips { growth: Growth::Never, ..Slips::NONE }),
        ("fraction dropped", Slips { fraction_dropped: true, ..Slips::NONE }),
        ("rounding at each hop", Slips { growth: Growth::EachHop, ..Slips::NONE }),
        ("best-effort frame left out", Slips { blocking: Blocking::LeftOut, ..Slips::NONE }),
        ("best-effort frame left out at the last level", Slips { blocking: Blocking::LeftOutAtTheLast, ..Slips::NONE }),
        ("best-effort frame added to the frame below", Slips { blocking: Blocking::Added, ..Slips::NONE }),
        ("whole thresholds", Slips { growth: Growth::WholeThresholds, ..Slips::NONE }),
        ("old share left on a change", Slips { share_left: true, ..Slips::NONE }),
    ];

    /// A hop's part of S for the hops after it, by the threshold of its queue and the speed of its link.
    pub fn hop_growth(&self, threshold: u128, speed: u128) -> u128 {
        match self.growth {
            Growth::WholeThresholds => threshold,
            _ => hop_growth(threshold, speed),
        }
    }

    /// Burst at a hop after earlier hops with these parts of S.
    pub fn burst(&self, burst: u128, rate: u128, earlier: impl Iterator<Item = u128>) -> u128 {
        match self.growth {
            Growth::Never => burst,
            Growth::EachHop => {
                let grown: u128 = earlier.map(|hop| growth(rate, hop).ceiling()).sum();
                burst + grown
            }
            Growth::Once | Growth::WholeThresholds => burst_at_hop(burst, rate, earlier.sum()),
        }
    }

    /// A level's sums, with what blocks it.
    pub fn sums(&self, sums: Sums) -> Sums {
        let best_effort_frame = match self.blocking {
            Blocking::LeftOut => 0,
            Blocking::LeftOutAtTheLast if sums.below == 0 => 0,
            Blocking::Added => sums.best_effort_frame + sums.below,
            Blocking::Larger | Blocking::LeftOutAtTheLast => sums.best_effort_frame,
        };
        Sums {
            best_effort_frame,
            ..sums
        }
    }

    /// The delay bound, µs.
    pub fn delay(&self, sums: &Sums) -> u128 {
        if self.fraction_dropped {
            return sums.delay().floor();
        }
        sums.delay().ceiling()
    }

    /// Whether a level that carries a flow is checked for a new flow at level `own`.
    pub fn checks(&self, level: u64, own: u64) -> bool {
        !self.only_below || level >= own
    }
}
