//! A hall whose limits are the bounds of its flows, and one run of it.

use super::laptops::Site;
use super::trial::Trial;
use crate::sim::{Arrivals, Fault, Network, Observer, Seen};
use halls::orders::{flow, Demand};
use halls::rng::Rng;
use halls::sources::{conforms, sends, Send};
use halls::tables::{least_deadline, link_fields, loose, table_text};
use halls::tables::{tighten_by, tighten_deadlines, Bounds, Count, Shape};
use plain::formula::{delay, shortest_sending};
use plain::orders::{write_change, write_registration, Change, Flow, Hop};
use plain::orders::{CHANGE, LARGEST_FRAME, SMALLEST_FRAME};
use plain::registry::{Answer, Registry};
use plain::table::Queue;
use std::fmt;

/// A table and flows that the reference model admits on it.
pub struct Hall {
    pub queues: Vec<Queue>,
    pub flows: Vec<Flow>,
    /// How many of the flows were registered with less and changed before the traffic.
    pub changed: u64,
}

/// Why a search ended.
#[derive(Debug)]
pub enum Failure {
    /// A frame late in a queue, or a buffer exceeded; and where.
    Limit { fault: Fault, place: String },
    /// A frame late on its whole way, or a hall or source that isn't what it should be.
    Other(String),
}

impl fmt::Display for Failure {
    fn fmt(&self, out: &mut fmt::Formatter) -> fmt::Result {
        match self {
            Failure::Limit { fault, place } => write!(out, "{place}: {fault:?}"),
            Failure::Other(what) => write!(out, "{what}"),
        }
    }
}

const DEMAND: Demand = Demand {
    rates: &[
        10, 100, 500, 1_000, 2_000, 5_000, 10_000, 20_000, 40_000, 200_000, 900_000,
    ],
    bursts: &[84, 200, 1_000, 1_542, 3_000, 6_000, 15_000, 40_000],
    most_hops: 4,
    numbers: 65_535,
};
/// No run goes on longer after the last first frame, µs.
const MOST_SPAN: u64 = 20_000;
/// No flow of a hall has a larger frame than one of these: a best-effort frame is most in the way of short ones.
const LARGEST_FRAMES: [u64; 4] = [LARGEST_FRAME, LARGEST_FRAME, 400, SMALLEST_FRAME];
/// Slots to a bit: a best-effort frame may start between two bits.
const GRAINS: [u64; 4] = [1, 2, 3, 64];

impl Hall {
    /// Flows admitted on a loose table, which is then tightened; none if no flow was admitted or a
    /// queue is too slow to be run in short.
    pub fn random(rng: &mut Rng) -> Result<Option<Hall>, String> {
        let mut hall = Hall::by(rng, Bounds::RIGHT);
        // Drawn apart, so that the traffic stays as it is.
        hall.changed = hall.admitted(rng.clone())?;
        Ok(Some(hall).filter(Hall::is_short))
    }

    /// The same by bounds that may be wrong, of any span.
    pub fn by(rng: &mut Rng, bounds: Bounds) -> Hall {
        let shape = rng.pick(&[Shape::Mesh, Shape::Chain, Shape::FanIn, Shape::FanIn]);
        let links = rng.between(2, 6);
        let speeds = rng.pick(&[
            &[10][..],
            &[100],
            &[1_000],
            &[10_000],
            &[10, 100],
            &[100, 1_000],
            &[1_000, 10_000],
            &[97, 103],
        ]);
        let levels = rng.between(1, 4);
        let mut queues = loose(rng, shape, links, levels, speeds);
        link_fields(rng, &mut queues);
        let mut loosely = Registry::over(queues.clone());
        let largest = rng.pick(&LARGEST_FRAMES);
        // Where flows of several hops have the smallest burst, growth is most of what they bring to a later hop.
        let thin = rng.once_in(2);
        for _ in 0..rng.between(1, 24) {
            let mut new = flow(rng, &queues, DEMAND);
            new.frame = new.frame.min(largest);
            if thin && new.hops.len() > 1 {
                (new.burst, new.frame) = (SMALLEST_FRAME, SMALLEST_FRAME);
            }
            loosely.register(&write_registration(&new));
        }
        let mut flows: Vec<Flow> = loosely.held().into_iter().cloned().collect();
        tighten_by(&mut queues, &flows.iter().collect::<Vec<_>>(), bounds);
        tighten_deadlines(&queues, &mut flows);
        rng.shuffle(&mut flows);
        Hall {
            queues,
            flows,
            changed: 0,
        }
    }

    /// The reference model reads the table and admits the flows, in their order, some of them with less than they have; then
    /// it changes these, and holds just the flows. Gives the number of changes.
    fn admitted(&self, mut rng: Rng) -> Result<u64, String> {
        let (mut tight, refused) = Registry::open(&table_text(&self.queues));
        if refused.is_some() {
            return Err("a tightened table is refused".to_string());
        }
        let done = |flow: &Flow, answer: Answer| match answer.code {
            0 => Ok(()),
            _ => {
                let number = flow.number;
                Err(format!("flow {number} on the tight table: {answer:?}"))
            }
        };
        let mut later = Vec::new();
        for flow in &self.flows {
            let first = match rng.once_in(2) {
                true => less(&mut rng, flow),
                false => flow.clone(),
            };
            done(flow, tight.register(&write_registration(&first)))?;
            later.extend(Some(flow).filter(|&flow| first != *flow));
        }
        for flow in &later {
            let change = Change {
                number: flow.number,
                rate: flow.rate,
                burst: flow.burst,
            };
            done(flow, tight.call(CHANGE, &write_change(&change)))?;
        }
        match tight.held().into_iter().eq(&self.flows) {
            true => Ok(later.len() as u64),
            false => Err("after changes other flows are held".to_string()),
        }
    }

    /// Whether it has flows and can be run in short.
    pub fn is_short(&self) -> bool {
        !self.flows.is_empty() && self.span() <= MOST_SPAN
    }

    /// The longest sum of thresholds and fixed delays along a path.
    pub fn span(&self) -> u64 {
        let deadlines = self.flows.iter().map(|flow| flow.deadline);
        deadlines.max().unwrap_or(0)
    }

    pub fn links(&self) -> usize {
        self.queues.last().map_or(0, |queue| queue.link as usize)
    }

    pub fn carries(&self, queue: usize) -> bool {
        self.flows
            .iter()
            .any(|flow| flow.hops.contains(&self.hop_at(queue)))
    }

    /// A queue's delay bound where this counts.
    pub fn delay_by(&self, queue: usize, count: Count) -> u64 {
        let flows: Vec<&Flow> = self.flows.iter().collect();
        let (link, levels) = count.at(&self.queues, &flows, queue);
        delay(link, &levels, self.queues[queue].level as usize - 1) as u64
    }

    /// The shortest stay that there can be in a queue.
    pub fn least_stay(&self, queue: usize) -> u64 {
        shortest_sending(u128::from(self.queues[queue].speed)) as u64
    }

    /// No flow has its first hop here.
    pub fn fed_by_links(&self, queue: usize) -> bool {
        self.flows
            .iter()
            .all(|flow| flow.hops[0] != self.hop_at(queue))
    }

    fn hop_at(&self, queue: usize) -> Hop {
        self.queues[queue].hop()
    }

    /// One run of these sources and laptops.
    pub fn run(&self, trial: &Trial, seed: u64) -> Result<Traffic, Failure> {
        let mut rng = Rng::new(seed, 0);
        let all = self.sends(trial, &mut rng)?;
        let arrivals = rng.pick(&[
            Arrivals::SourcesFirst,
            Arrivals::SourcesLast,
            Arrivals::Shuffled,
        ]);
        let network = Network::with_grain(&self.queues, &self.flows, rng.pick(&GRAINS));
        let mut site = Site::new(&trial.laptops, Rng::new(seed, 1));
        let mut watched = Watched::new(self);
        let ran = network.run_beside(&all, arrivals, &mut rng, &mut site, &mut watched);
        let queues = ran.map_err(|fault| self.limit(fault))?;
        self.judged(Traffic {
            queues,
            shortest: watched.shortest,
            journeys: watched.journeys,
            frames: all.len(),
            best_effort: site.started,
            just_before: site.just_before,
        })
    }

    /// What the sources send, by instant.
    fn sends(&self, trial: &Trial, rng: &mut Rng) -> Result<Vec<Send>, Failure> {
        let starts = trial.patterns.iter().map(|pattern| pattern.start);
        let until = starts.max().unwrap_or(0) + 2 * self.span();
        let mut all: Vec<Send> = Vec::new();
        for (index, flow) in self.flows.iter().enumerate() {
            let list = sends(rng, index, flow, trial.patterns[index], until);
            if !conforms(flow, &list) {
                let number = flow.number;
                let what = format!("the source of flow {number} doesn't conform");
                return Err(Failure::Other(what));
            }
            all.extend(list);
        }
        all.sort_by_key(|send| send.instant);
        Ok(all)
    }

    /// Every frame's way was at most its thresholds and fixed delays, and these its deadline; no stay was shorter than the
    /// shortest sending time.
    fn judged(&self, seen: Traffic) -> Result<Traffic, Failure> {
        for (flow, &longest) in self.flows.iter().zip(&seen.journeys) {
            let limit = least_deadline(&self.queues, &flow.hops);
            if longest > limit || limit > flow.deadline {
                return Err(Failure::Other(format!(
                    "flow {} is {longest} µs on its way, {limit} by its limits, {} by its deadline",
                    flow.number, flow.deadline
                )));
            }
        }
        for (queue, shortest) in seen.shortest.iter().enumerate() {
            let least = self.least_stay(queue);
            if let Some(stay) = shortest.filter(|&stay| stay < least) {
                let place = self.place(queue);
                let what = format!("{place}: a stay of {stay} µs, below {least}");
                return Err(Failure::Other(what));
            }
        }
        Ok(seen)
    }

    fn limit(&self, fault: Fault) -> Failure {
        let (Fault::Late { queue, .. } | Fault::Over { queue, .. }) = fault;
        let place = self.place(queue);
        Failure::Limit { fault, place }
    }

    fn place(&self, queue: usize) -> String {
        let Queue { link, level, .. } = self.queues[queue];
        format!("link {link} level {level}")
    }
}

/// The same flow with less of a rate and burst, or as much.
fn less(rng: &mut Rng, flow: &Flow) -> Flow {
    Flow {
        rate: rng.between(1, flow.rate),
        burst: rng.between(flow.frame, flow.burst),
        ..flow.clone()
    }
}

/// What one run showed.
pub struct Traffic {
    pub queues: Vec<Seen>,
    /// Each queue's shortest stay, µs; none where no frame left it.
    pub shortest: Vec<Option<u64>>,
    /// Each flow's longest way, from its source to its destination, µs.
    pub journeys: Vec<u64>,
    pub frames: usize,
    /// Best-effort frames, and those that started a slot before frames reached their link.
    pub best_effort: u64,
    pub just_before: u64,
}

/// The shortest stay in each queue and the longest way of each flow so far.
struct Watched {
    shortest: Vec<Option<u64>>,
    journeys: Vec<u64>,
}

impl Watched {
    fn new(hall: &Hall) -> Watched {
        Watched {
            shortest: vec![None; hall.queues.len()],
            journeys: vec![0; hall.flows.len()],
        }
    }
}

impl Observer for Watched {
    fn left(&mut self, queue: usize, _flow: usize, reached: u64, gone: u64) {
        let (known, stay) = (&mut self.shortest[queue], gone - reached);
        *known = Some(known.map_or(stay, |shortest| shortest.min(stay)));
    }

    fn arrives(&mut self, flow: usize, sent: u64, reached: u64) {
        self.journeys[flow] = self.journeys[flow].max(reached - sent);
    }
}
