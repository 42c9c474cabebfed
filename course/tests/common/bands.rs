//! In the kernel's place: links with a token bucket filter over three bands, by a clock of their own.

use course::folder::Folder;
use course::traffic::hall::Hall;
use course::traffic::held;
use course::traffic::network::Network;
use course::wire::plan::plans;
use course::wire::roads::{roads, Road};
use course::wire::run::{Dequeued, Wires};
use course::wire::scale::{Nanos, Scale};
use course::wire::trial::{Break, Found, Trial};
use halls::rng::Rng;
use std::collections::VecDeque;

/// What may be wrong with it.
#[derive(Clone, Copy, Debug, Default, PartialEq)]
pub struct Faults {
    /// All levels in one band.
    pub first_in_first_out: bool,
    /// Bytes of a frame that its bucket doesn't count.
    pub uncounted: u64,
    /// Loses one frame in so many.
    pub loses: Option<u64>,
    /// What the machine takes: a call before it puts a frame into its queue, and as long after; a filter's timer; a wait.
    pub call: Nanos,
    pub timer: Nanos,
    pub wait: Nanos,
    /// Up to that, not just that.
    pub drawn: bool,
}

/// A link's bucket and bands; tokens are the ns for which it may send at its speed.
struct Filter {
    speed: u64,
    full: Nanos,
    tokens: Nanos,
    counted: Nanos,
    bands: [VecDeque<(u32, u64)>; 3],
}

pub struct Bands {
    scale: Scale,
    faults: Faults,
    now: Nanos,
    filters: Vec<Filter>,
    /// The link and the level, from 0 on, of each queue.
    places: Vec<(usize, usize)>,
    out: Vec<Dequeued>,
    rng: Rng,
    /// What was put into each queue: when, and how many bytes.
    pub put: Vec<(usize, Nanos, u64)>,
}

impl Bands {
    pub fn new(hall: &Hall, network: &Network, roads: &[Road], scale: Scale) -> Bands {
        let filter = |link: usize| {
            let speed = network.speed(link);
            let road = roads.iter().find(|road| road.link == link as u64 + 1);
            let full = scale.sending(road.map_or(0, |road| road.largest), speed);
            Filter {
                speed,
                full,
                tokens: full,
                counted: 0,
                bands: [const { VecDeque::new() }; 3],
            }
        };
        let place = |queue: usize| {
            let level = hall.queues[queue].level as usize - 1;
            (network.sender_of[queue], level)
        };
        Bands {
            scale,
            faults: Faults::default(),
            now: 1_000_000_000,
            filters: (0..network.senders.len()).map(filter).collect(),
            places: (0..hall.queues.len()).map(place).collect(),
            out: Vec::new(),
            rng: Rng::new(1, 0),
            put: Vec::new(),
        }
    }

    pub fn with(self, faults: Faults, seed: u64) -> Bands {
        let rng = Rng::new(seed, 0);
        Bands {
            faults,
            rng,
            ..self
        }
    }

    fn takes(&mut self, most: Nanos) -> Nanos {
        match self.faults.drawn {
            true => self.rng.between(0, most),
            false => most,
        }
    }

    /// The link whose filter lets go next, and when.
    fn next(&self) -> Option<(Nanos, usize)> {
        let moment = |link: usize| Some((self.moment(link)?, link));
        (0..self.filters.len()).filter_map(moment).min()
    }

    fn cost(&self, link: usize) -> Option<Nanos> {
        let filter = &self.filters[link];
        let (_, bytes) = filter.bands.iter().find_map(VecDeque::front)?;
        let counted = bytes - self.faults.uncounted;
        Some(self.scale.sending(counted, filter.speed))
    }

    fn moment(&self, link: usize) -> Option<Nanos> {
        let cost = self.cost(link)?;
        let filter = &self.filters[link];
        Some(filter.counted + cost.saturating_sub(filter.tokens))
    }

    /// Goes on to this moment; what is let go meanwhile stands in `out`.
    fn go_on(&mut self, to: Nanos) {
        while let Some((at, link)) = self.next().filter(|(at, _)| *at <= to) {
            let late = at.max(self.now) + self.takes(self.faults.timer);
            self.let_go(link, late);
        }
        self.now = self.now.max(to);
    }

    fn let_go(&mut self, link: usize, at: Nanos) {
        let cost = self.cost(link).unwrap();
        let filter = &mut self.filters[link];
        filter.tokens = (filter.tokens + (at - filter.counted)).min(filter.full) - cost;
        filter.counted = at;
        let band = filter.bands.iter_mut().find(|band| !band.is_empty());
        let (name, _) = band.unwrap().pop_front().unwrap();
        if self
            .faults
            .loses
            .is_some_and(|times| self.rng.once_in(times))
        {
            return;
        }
        self.out.push(Dequeued { name, at });
    }
}

impl Wires for Bands {
    fn now(&self) -> Nanos {
        self.now
    }

    fn send(&mut self, queue: usize, name: u32, bytes: u64) -> Result<(Nanos, Nanos), String> {
        let (link, level) = self.places[queue];
        let before = self.now;
        let call = before + self.takes(self.faults.call);
        self.go_on(call);
        let band = match self.faults.first_in_first_out {
            true => 0,
            false => level,
        };
        let filter = &mut self.filters[link];
        filter.tokens =
            (filter.tokens + (call.max(filter.counted) - filter.counted)).min(filter.full);
        filter.counted = call.max(filter.counted);
        filter.bands[band].push_back((name, bytes));
        self.put.push((queue, call, bytes));
        let after = call + self.takes(self.faults.call);
        self.go_on(after);
        Ok((before, after))
    }

    fn receive(&mut self, until: Nanos) -> Result<Vec<Dequeued>, String> {
        let let_go = self.out.iter().map(|frame| frame.at);
        let next = let_go.chain(self.next().map(|(at, _)| at)).min();
        let to = next.map_or(until, |at| at.min(until)).max(self.now);
        let to = to + self.takes(self.faults.wait);
        self.go_on(to);
        // What a late timer lets go of after this comes later.
        let come = |frame: &Dequeued| frame.at <= to;
        let (came, later) = self.out.drain(..).partition(come);
        self.out = later;
        Ok(came)
    }
}

pub const SCALE: Scale = Scale { slow: 100 };

/// The hall of a folder, with the flows held after its orders.
pub fn hall_of(path: &str) -> Hall {
    held(&Folder::read(path).ok().unwrap()).ok().unwrap()
}

/// What a trial shows on such bands.
pub fn tried(
    hall: &Hall,
    faults: Faults,
    seed: u64,
    broken: Option<Break>,
) -> Result<Found, String> {
    let network = Network::new(&hall.queues, &hall.flows);
    let roads = roads(hall);
    let trial = Trial {
        hall,
        network: &network,
        roads: &roads,
        scale: SCALE,
        broken,
    };
    let mut bands = Bands::new(hall, &network, &roads, SCALE).with(faults, seed);
    trial.run(&mut bands, &plans(hall, &network, SCALE), |_| ())
}
