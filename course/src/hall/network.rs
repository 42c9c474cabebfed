//! A bottling hall by seed: stations in a row, an inspection, a cabinet, a packer with an old slow link.

use halls::rng::Rng;
use plain::orders::{Flow, Hop, LARGEST_FRAME};
use plain::registry::{path_fixed_delays, path_thresholds};
use plain::table::Queue;

/// A network and what its links are for.
pub struct Network {
    pub queues: Vec<Queue>,
    /// Links 1 to this lead from station to station, the last of them to the inspection.
    pub row: u64,
    /// From the inspection to the cabinet.
    pub trunk: u64,
    /// From the inspection to the packer.
    pub packer: u64,
    /// From the packer to the cabinet, slow.
    pub slow: u64,
}

/// A threshold and a buffer for each level of a link.
type Limits = Vec<(u64, u64)>;

/// A number from `low` to `high` in steps.
fn stepped(rng: &mut Rng, low: u64, high: u64, step: u64) -> u64 {
    step * rng.between(low / step, high / step)
}

fn row_limits(rng: &mut Rng) -> Limits {
    let mut limits = vec![
        (stepped(rng, 200, 350, 10), stepped(rng, 3_000, 6_000, 500)),
        (
            stepped(rng, 900, 1_800, 100),
            stepped(rng, 14_000, 30_000, 1_000),
        ),
    ];
    if rng.once_in(2) {
        limits.push((stepped(rng, 3_000, 5_000, 500), 40_000));
    }
    limits
}

impl Network {
    pub fn random(rng: &mut Rng) -> Network {
        let row = rng.between(3, 5);
        let (inspection, cabinet, packer) = (row + 1, row + 2, row + 3);
        let mut network = Network {
            queues: Vec::new(),
            row,
            trunk: row + 1,
            packer: row + 2,
            slow: row + 3,
        };
        for link in 1..=row {
            let limits = row_limits(rng);
            network.add((link, link + 1), 100, &limits);
        }
        network.add(
            (inspection, cabinet),
            1_000,
            &[(100, 8_000), (300, 40_000), (2_000, 120_000)],
        );
        let gate = stepped(rng, 100, 150, 10);
        network.add((inspection, packer), 100, &[(gate, 2_000), (1_000, 16_000)]);
        let small = stepped(rng, 1_800, 2_400, 100);
        network.add((packer, cabinet), 10, &[(3_000, small), (8_000, 6_000)]);
        network.lay_fibre(rng);
        network
    }

    /// Two halls of three have a long fibre run, to the cabinet or to the inspection.
    fn lay_fibre(&mut self, rng: &mut Rng) {
        if rng.once_in(3) {
            return;
        }
        let link = rng.pick(&[self.trunk, self.row]);
        let delay = stepped(rng, 20, 300, 10);
        for queue in self.queues.iter_mut().filter(|queue| queue.link == link) {
            queue.fixed_delay = delay;
        }
    }

    /// One hall in three has a maintenance port: laptops share the link to the cabinet or to the inspection. Drawn apart, so
    /// that the other halls stay as they are.
    pub fn plug_in(&mut self, rng: &mut Rng) {
        if !rng.once_in(3) {
            return;
        }
        let link = rng.pick(&[self.trunk, self.row]);
        let longest = rng.pick(&[300, 1_000, LARGEST_FRAME, LARGEST_FRAME]);
        for queue in self.queues.iter_mut().filter(|queue| queue.link == link) {
            queue.best_effort_frame = longest;
        }
    }

    pub fn has_port(&self) -> bool {
        self.queues.iter().any(|queue| queue.best_effort_frame > 0)
    }

    fn add(&mut self, ends: (u64, u64), speed: u64, limits: &[(u64, u64)]) {
        let link = self.queues.last().map_or(1, |queue| queue.link + 1);
        for (index, &(threshold, buffer)) in limits.iter().enumerate() {
            self.queues.push(Queue {
                link,
                from: ends.0,
                to: ends.1,
                speed,
                level: index as u64 + 1,
                threshold,
                buffer,
                fixed_delay: 0,
                best_effort_frame: 0,
            });
        }
    }

    pub fn levels(&self, link: u64) -> u64 {
        let of_link = self.queues.iter().filter(|queue| queue.link == link);
        of_link.map(|queue| queue.level).max().unwrap_or(0)
    }

    /// The path over these links, each at a level or at its last where it has fewer.
    pub fn path(&self, links: impl Iterator<Item = u64>, level: u64) -> Vec<Hop> {
        links
            .map(|link| Hop {
                link,
                level: level.min(self.levels(link)),
            })
            .collect()
    }

    /// From some station to the cabinet.
    fn to_cabinet(&self, rng: &mut Rng, level: u64) -> Vec<Hop> {
        let start = rng.between(1, self.row);
        self.path(start..=self.trunk, level)
    }

    /// A drive, camera, gate, picture or counter; the number is the caller's.
    pub fn flow(&self, rng: &mut Rng, number: u64) -> Flow {
        let (rate, burst, frame, hops) = self.demand(rng);
        let (thresholds, cables) = self.along(&hops);
        Flow {
            number,
            rate,
            burst,
            frame,
            deadline: ((thresholds + cables) / 1_000 + rng.between(1, 2)) * 1_000,
            hops,
        }
    }

    /// A deadline that a flow's path misses; one with cables misses it by these alone.
    pub fn missed_deadline(&self, rng: &mut Rng, flow: &Flow) -> u64 {
        match self.along(&flow.hops) {
            (_, 0) => flow.deadline.saturating_sub(2_000).max(50),
            (thresholds, cables) => thresholds + rng.between(0, cables - 1),
        }
    }

    /// Thresholds and fixed delays along a path.
    fn along(&self, hops: &[Hop]) -> (u64, u64) {
        let thresholds = path_thresholds(&self.queues, hops);
        let cables = path_fixed_delays(&self.queues, hops);
        (thresholds as u64, cables as u64)
    }

    /// Rate, burst, largest frame and path.
    fn demand(&self, rng: &mut Rng) -> (u64, u64, u64, Vec<Hop>) {
        let alone = |link, level| self.path(std::iter::once(link), level);
        match rng.between(0, 7) {
            0 | 1 => {
                let rate = stepped(rng, 200, 1_000, 100);
                (rate, 200, 200, self.to_cabinet(rng, 1))
            }
            2..=4 => {
                let burst = rng.between(2, 6) * LARGEST_FRAME;
                let rate = stepped(rng, 10_000, 30_000, 5_000);
                (rate, burst, LARGEST_FRAME, self.to_cabinet(rng, 2))
            }
            5 => (500, 168, 84, alone(self.packer, 1)),
            6 => {
                let frame = rng.pick(&[600, 900, 1_200, LARGEST_FRAME]);
                let burst = stepped(rng, 3_000, 8_000, 1_000);
                (2_000, burst, frame, alone(self.packer, 2))
            }
            _ => {
                let frame = rng.pick(&[84, 500, LARGEST_FRAME]);
                let rate = stepped(rng, 100, 600, 100);
                let burst = frame + rng.pick(&[0, 84, 500]);
                (rate, burst, frame, alone(self.slow, 1))
            }
        }
    }
}
