//! Queue tables: networks that have paths, limits from loose to tight, fixed delays, best-effort frames.

use crate::rng::Rng;
use plain::formula::{backlog, delay, Aggregate, Link};
use plain::orders::{Flow, Hop, LARGEST_FRAME, SMALLEST_FRAME};
use plain::registry::{aggregate_by, path_fixed_delays, path_thresholds};
use plain::slips::Slips;
use plain::table::{write_queue, write_queue_in, Queue, LENGTHS};

pub use plain::table::{MOST_BUFFER, MOST_FIXED_DELAY, MOST_THRESHOLD};

pub fn table_text(queues: &[Queue]) -> Vec<u8> {
    queues.iter().flat_map(write_queue).collect()
}

/// The same table with its lines as short as their numbers allow, all in one length that holds them, or each in any.
pub fn drawn_text(rng: &mut Rng, queues: &[Queue]) -> Vec<u8> {
    let least = |queue: &Queue| write_queue(queue).len() - 1;
    let from = |least: usize| LENGTHS.into_iter().filter(move |&length| length >= least);
    let of_all = from(queues.iter().map(least).max().unwrap_or(0)).collect::<Vec<usize>>();
    let (form, one) = (rng.between(0, 2), rng.pick(&of_all));
    let mut text = Vec::new();
    for queue in queues {
        let length = match form {
            0 => least(queue),
            1 => one,
            _ => rng.pick(&from(least(queue)).collect::<Vec<usize>>()),
        };
        text.extend(write_queue_in(queue, length));
    }
    text
}

/// How the nodes of a network hang together.
#[derive(Clone, Copy)]
pub enum Shape {
    /// Links between random nodes of a few.
    Mesh,
    /// Each link starts where the one before ended.
    Chain,
    /// All links but the last two end where the last but one starts; that one leads to the last.
    FanIn,
}

fn ends(rng: &mut Rng, shape: Shape, link: u64, links: u64, nodes: u64) -> (u64, u64) {
    match shape {
        Shape::Chain => (link, link + 1),
        Shape::FanIn if link + 1 < links => (100 + link, 1),
        Shape::FanIn => (link + 2 - links, link + 3 - links),
        Shape::Mesh => {
            let from = rng.between(1, nodes);
            let step = rng.between(1, nodes - 1);
            (from, (from + step - 1) % nodes + 1)
        }
    }
}

/// A network with so many links; limits as loose as a table line allows.
pub fn loose(rng: &mut Rng, shape: Shape, links: u64, levels: u64, speeds: &[u64]) -> Vec<Queue> {
    let nodes = rng.between(2, 7);
    let mut queues = Vec::new();
    for link in 1..=links {
        let (from, to) = ends(rng, shape, link, links, nodes);
        let speed = rng.pick(speeds);
        for level in 1..=rng.between(1, levels) {
            queues.push(Queue {
                link,
                from,
                to,
                speed,
                level,
                threshold: MOST_THRESHOLD,
                buffer: MOST_BUFFER,
                ..Queue::default()
            });
        }
    }
    queues
}

/// 64 links in a ring, all with eight levels.
pub fn full_ring(speed: u64, threshold: u64, buffer: u64) -> Vec<Queue> {
    let mut queues = Vec::new();
    for link in 1..=64 {
        for level in 1..=8 {
            let to = link % 64 + 1;
            queues.push(Queue {
                link,
                from: link,
                to,
                speed,
                level,
                threshold,
                buffer,
                ..Queue::default()
            });
        }
    }
    queues
}

/// Limits picked at random, among them the sums of document 01.
pub fn random_limits(rng: &mut Rng, queues: &mut [Queue]) {
    let thresholds = [1, 246, 247, 371, 374, 1_000, 5_000, 20_000, 50_000, 100_000];
    let buffers = [
        84,
        1_557,
        1_558,
        2_000,
        5_000,
        100_000,
        1_000_000,
        MOST_BUFFER,
    ];
    for queue in queues {
        queue.threshold = if rng.once_in(4) {
            rng.between(1, MOST_THRESHOLD)
        } else {
            rng.pick(&thresholds)
        };
        queue.buffer = if rng.once_in(4) {
            rng.between(1, MOST_BUFFER)
        } else {
            rng.pick(&buffers)
        };
    }
}

/// Gives half of the links a fixed delay, or now and then none of them.
pub fn fixed_delays(rng: &mut Rng, queues: &mut [Queue]) {
    if rng.once_in(4) {
        return;
    }
    for link in queues.chunk_by_mut(|one, other| one.link == other.link) {
        let fixed_delay = match rng.between(0, 7) {
            0 => 1,
            1 => MOST_FIXED_DELAY,
            2 => rng.between(1, MOST_FIXED_DELAY),
            3 => rng.between(1, 20),
            _ => 0,
        };
        for queue in link {
            queue.fixed_delay = fixed_delay;
        }
    }
}

/// Gives half of the links a best-effort frame, or now and then none of them.
pub fn best_effort_frames(rng: &mut Rng, queues: &mut [Queue]) {
    if rng.once_in(4) {
        return;
    }
    for link in queues.chunk_by_mut(|one, other| one.link == other.link) {
        let frame = match rng.between(0, 7) {
            0 => SMALLEST_FRAME,
            1 | 2 => LARGEST_FRAME,
            3 => rng.between(SMALLEST_FRAME, LARGEST_FRAME),
            _ => 0,
        };
        for queue in link {
            queue.best_effort_frame = frame;
        }
    }
}

/// What W-201 and W-202 add to a link.
pub fn link_fields(rng: &mut Rng, queues: &mut [Queue]) {
    fixed_delays(rng, queues);
    best_effort_frames(rng, queues);
}

/// The levels' aggregates of a link over these flows.
pub fn link_levels(queues: &[Queue], flows: &[&Flow], link: u64) -> Vec<Aggregate> {
    levels_by(queues, flows, link, Slips::NONE)
}

fn levels_by(queues: &[Queue], flows: &[&Flow], link: u64, slips: Slips) -> Vec<Aggregate> {
    let of_link = queues.iter().filter(|queue| queue.link == link);
    let levels = of_link.map(|queue| aggregate_by(queues, flows, queue, slips));
    levels.collect()
}

/// What a bound of a queue counts of its link; said of the queue and the one after it in the table.
pub type Counted = fn(&Queue, Option<&Queue>) -> Link;

/// What a bound counts, right or wrong: of the queue's link, and the rules by which bursts grow.
#[derive(Clone, Copy)]
pub struct Count {
    pub link: Counted,
    pub bursts: Slips,
}

impl Count {
    pub const RIGHT: Count = Count {
        link: |queue, _| queue.of_link(),
        bursts: Slips::NONE,
    };

    /// The link of the queue with this index, and the figures of its levels.
    pub fn at(&self, queues: &[Queue], flows: &[&Flow], index: usize) -> (Link, Vec<Aggregate>) {
        let link = (self.link)(&queues[index], queues.get(index + 1));
        (
            link,
            levels_by(queues, flows, queues[index].link, self.bursts),
        )
    }
}

/// What delays and backlogs count.
#[derive(Clone, Copy)]
pub struct Bounds {
    pub delays: Count,
    pub backlogs: Count,
}

impl Bounds {
    pub const RIGHT: Bounds = Bounds {
        delays: Count::RIGHT,
        backlogs: Count::RIGHT,
    };
}

/// Lowers each threshold to the delay bound over these admitted flows until none moves, then each
/// buffer to the backlog bound. Lower thresholds make smaller bursts and so smaller bounds: the
/// flows stay admitted at every step.
pub fn tighten(queues: &mut [Queue], flows: &[&Flow]) {
    tighten_by(queues, flows, Bounds::RIGHT);
}

/// The same by other bounds.
pub fn tighten_by(queues: &mut [Queue], flows: &[&Flow], bounds: Bounds) {
    loop {
        let mut moved = false;
        for i in 0..queues.len() {
            let (link, levels) = bounds.delays.at(queues, flows, i);
            let p = queues[i].level as usize - 1;
            if levels[p].rate == 0 {
                continue;
            }
            let bound = delay(link, &levels, p) as u64;
            moved |= bound != queues[i].threshold;
            queues[i].threshold = bound;
        }
        if !moved {
            break;
        }
    }
    for i in 0..queues.len() {
        let (link, levels) = bounds.backlogs.at(queues, flows, i);
        let p = queues[i].level as usize - 1;
        if levels[p].rate > 0 {
            queues[i].buffer = backlog(link, &levels, p) as u64;
        }
    }
}

/// The least deadline that these hops pass.
pub fn least_deadline(queues: &[Queue], hops: &[Hop]) -> u64 {
    (path_thresholds(queues, hops) + path_fixed_delays(queues, hops)) as u64
}

/// Sets each flow's deadline to the least that passes.
pub fn tighten_deadlines(queues: &[Queue], flows: &mut [Flow]) {
    for flow in flows {
        flow.deadline = least_deadline(queues, &flow.hops);
    }
}
