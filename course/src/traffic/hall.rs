//! A hall with the flows that are held after its orders, and the bounds of its queues.

use super::frames::Stay;
use halls::tables::link_levels;
use plain::formula::{backlog, delay, Aggregate};
use plain::orders::Flow;
use plain::registry::{path_fixed_delays, path_thresholds};
use plain::table::Queue;

/// What the formulas say of a queue that carries a flow.
#[derive(Clone, Copy, Debug, PartialEq)]
pub struct Bounds {
    /// µs.
    pub delay: u64,
    /// Bytes.
    pub backlog: u64,
}

/// The bounds of a link's levels with these figures.
fn link_bounds(link: &[Queue], levels: &[Aggregate]) -> Vec<Option<Bounds>> {
    let of_link = link[0].of_link();
    let bounds = |level: usize| Bounds {
        delay: delay(of_link, levels, level) as u64,
        backlog: backlog(of_link, levels, level) as u64,
    };
    let carries = |level: &usize| !levels[*level].is_empty();
    (0..link.len())
        .map(|level| Some(level).filter(carries).map(bounds))
        .collect()
}

pub struct Hall {
    pub queues: Vec<Queue>,
    pub flows: Vec<Flow>,
    /// None for a queue without a flow.
    pub bounds: Vec<Option<Bounds>>,
}

impl Hall {
    /// The flows are held together: each link passes the rate rule.
    pub fn new(queues: Vec<Queue>, flows: Vec<Flow>) -> Hall {
        let held: Vec<&Flow> = flows.iter().collect();
        let bounds = queues
            .chunk_by(|queue, next| queue.link == next.link)
            .flat_map(|link| link_bounds(link, &link_levels(&queues, &held, link[0].link)))
            .collect();
        Hall {
            queues,
            flows,
            bounds,
        }
    }

    /// The longest sum of thresholds and fixed delays along a path, µs.
    pub fn span(&self) -> u64 {
        let thresholds = |flow: &Flow| path_thresholds(&self.queues, &flow.hops);
        let cables = |flow: &Flow| path_fixed_delays(&self.queues, &flow.hops);
        let along = |flow: &Flow| (thresholds(flow) + cables(flow)) as u64;
        self.flows.iter().map(along).max().unwrap_or(0)
    }

    /// The queues of each link, level 1 first.
    pub fn links(&self) -> Vec<Vec<usize>> {
        let mut links: Vec<Vec<usize>> = Vec::new();
        for (index, queue) in self.queues.iter().enumerate() {
            if queue.level == 1 {
                links.push(Vec::new());
            }
            if let Some(link) = links.last_mut() {
                link.push(index);
            }
        }
        links
    }

    /// The instant at which the frame of a stay comes to its next queue or, after its last hop, to its destination.
    pub fn reached(&self, stay: &Stay) -> u64 {
        stay.gone + self.queues[stay.queue].fixed_delay
    }

    /// Whether a link's cable takes time.
    pub fn has_cables(&self) -> bool {
        self.queues.iter().any(|queue| queue.fixed_delay > 0)
    }

    /// Whether a laptop may be plugged in somewhere.
    pub fn has_laptops(&self) -> bool {
        self.queues.iter().any(|queue| queue.best_effort_frame > 0)
    }

    /// `link 1 level 1`.
    pub fn place(&self, queue: usize) -> String {
        let Queue { link, level, .. } = self.queues[queue];
        format!("link {link} level {level}")
    }
}
