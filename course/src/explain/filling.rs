//! Which flows fill the link or queue that refuses.

use crate::numbers::commas;
use crate::titles::queue_name;
use plain::causes;
use plain::orders::{Flow, Hop};
use plain::registry::{Answer, Registry, Share};

/// The flows of the refusing link with their levels, the new one among them.
struct Filled<'a> {
    new: &'a Flow,
    shares: Vec<(u64, Share)>,
}

impl Filled<'_> {
    /// The flows of some levels, each with a number of its share; nothing where there are none.
    fn line(
        &self,
        title: &str,
        wanted: impl Fn(u64) -> bool,
        number: fn(&Share) -> u128,
    ) -> Option<String> {
        let shares = self.shares.iter().filter(|(level, _)| wanted(*level));
        let names: Vec<String> = shares
            .map(|(_, share)| self.name(share, number(share)))
            .collect();
        (!names.is_empty()).then(|| format!("{title}: {}", names.join(", ")))
    }

    fn name(&self, share: &Share, number: u128) -> String {
        let new = if share.number == self.new.number {
            " (this order)"
        } else {
            ""
        };
        format!("flow {}{new} {}", share.number, commas(number))
    }
}

/// For a refusal by 21, 22 or 23; the registry is that of the other flows.
pub fn filling(flow: &Flow, answer: Answer, others: &Registry) -> Vec<String> {
    let at = Hop {
        link: answer.link,
        level: answer.level,
    };
    let mut shares: Vec<(u64, Share)> = others.shares(at.link, Some(flow)).collect();
    shares.sort_by_key(|(level, _)| *level);
    let filled = Filled { new: flow, shares };
    let burst = |share: &Share| share.share.burst;
    let of_link = others.queues.iter().find(|queue| queue.link == at.link);
    let laptop = of_link.map_or(0, |queue| queue.best_effort_frame);
    let laptop = (laptop > 0).then(|| format!("best-effort frame of the link: {}", commas(laptop)));
    let lines = match answer.code {
        causes::RATE => {
            let title = format!("rates on link {}", at.link);
            vec![filled.line(&title, |_| true, |share| share.share.rate)]
        }
        causes::DELAY | causes::BACKLOG => vec![
            filled.line(
                &format!("bursts in {}", queue_name(at)),
                |level| level == at.level,
                burst,
            ),
            filled.line("bursts above it", |level| level < at.level, burst),
            filled.line(
                "largest frames in it and below",
                |level| level >= at.level,
                |share| share.share.frame,
            ),
            laptop,
        ],
        _ => Vec::new(),
    };
    lines.into_iter().flatten().collect()
}
