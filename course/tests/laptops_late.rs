//! No laptop makes a frame late.

mod common;

use common::runs::{flow, link, read, recorded, Record};
use common::tight_hall;
use course::traffic::figures::{Figures, Verdict};
use course::traffic::frames::Laptop;
use course::traffic::hall::Hall;
use course::traffic::network::Network;
use course::traffic::run::{run, Arrivals};
use halls::rng::Rng;
use plain::orders::Flow;

/// Just before each arrival at a link that laptops share, its longest frame.
fn before_arrivals(hall: &Hall, record: &Record) -> Vec<Laptop> {
    let mut list: Vec<Laptop> = Vec::new();
    for stay in &record.stays {
        let queue = &hall.queues[stay.queue];
        let ready = (1000 * stay.frame.came).checked_sub(1);
        let (Some(ready), 1..) = (ready, queue.best_effort_frame) else {
            continue;
        };
        list.push(Laptop {
            link: queue.link as usize - 1,
            ready,
            bytes: queue.best_effort_frame,
            line: 1,
        });
    }
    list.sort_by_key(|laptop| (laptop.ready, laptop.link));
    list.dedup();
    list
}

/// Tables whose limits are the very bounds, every source greedy, a laptop's frame before every arrival: none is late.
#[test]
fn laptops_make_no_frame_late() {
    let (mut halls, mut behind) = (0, 0);
    for index in 0..400 {
        let mut rng = Rng::new(203, index);
        let Some(drawn) = tight_hall(&mut rng) else {
            continue;
        };
        let hall = Hall::new(drawn.queues, drawn.flows);
        if !hall.has_laptops() {
            continue;
        }
        let greedy = |flow: &Flow| format!("greedy {} from 1 to 1500\n", flow.number);
        let mut list = read(&hall, &hall.flows.iter().map(greedy).collect::<String>());
        list.laptops = before_arrivals(&hall, &recorded(&hall, &list));
        let mut figures = Figures::new(&hall.queues);
        let mut record = Record::default();
        let network = Network::new(&hall.queues, &hall.flows);
        run(
            &network,
            &list,
            Arrivals::ForwardedFirst,
            &mut (&mut figures, &mut record),
        );
        let verdict = Verdict::of(&hall.queues, &figures.seen);
        assert!(
            verdict.kept(),
            "hall {index}: {}",
            verdict.words(&hall, &figures.seen)
        );
        halls += 1;
        let stays = record.stays.iter();
        behind += stays.filter(|stay| stay.frame.behind.is_some()).count();
    }
    assert!(
        halls > 60 && behind > 500,
        "{halls} halls, {behind} behind laptops"
    );
}

/// Where a threshold leaves the laptops out, a frame is late.
#[test]
fn a_bound_without_laptops_is_broken() {
    // A burst of two frames: 24 µs without a laptop, of which it takes 123.36 more.
    let flows = vec![flow(7, 200, 100, &[(1, 1)])];
    let mut queues = link(1, 100, 1, 0, 0);
    queues[0].threshold = Hall::new(queues.clone(), flows.clone()).bounds[0]
        .unwrap()
        .delay;
    queues[0].best_effort_frame = 1_542;
    let hall = Hall::new(queues, flows);
    let mut figures = Figures::new(&hall.queues);
    let network = Network::new(&hall.queues, &hall.flows);
    let list = read(&hall, "laptop 1 0.999 1542\n1 7 100 x 2\n");
    run(&network, &list, Arrivals::ForwardedFirst, &mut figures);
    assert_eq!(Verdict::of(&hall.queues, &figures.seen).late, 2);
}
