//! What a judged registration or change shows of its sums, by document 01's hand sums; what each slip makes of them; all
//! faults of a line.

use plain::columns::lines;
use plain::faults::{first_class, Class, What};
use plain::formula::Aggregate;
use plain::orders::{examine, write_change, Change, Flow, Hop, CHANGE};
use plain::registry::Registry;
use plain::slips::{Growth, Slips};
use plain::table::Queue;
use plain::work::Work;

/// Links in a row at 100 Mbit/s, each with these levels' thresholds and buffers.
fn row(links: u64, levels: &[(u64, u64)]) -> Vec<Queue> {
    let mut queues = Vec::new();
    for link in 1..=links {
        for (index, &(threshold, buffer)) in levels.iter().enumerate() {
            queues.push(Queue {
                link,
                from: link,
                to: link + 1,
                speed: 100,
                level: index as u64 + 1,
                threshold,
                buffer,
                fixed_delay: 0,
                best_effort_frame: 0,
            });
        }
    }
    queues
}

/// Document 01's flow: rate 1,000, burst and frame 1,542.
fn flow(number: u64, links: u64, level: u64) -> Flow {
    Flow {
        number,
        rate: 1_000,
        burst: 1_542,
        frame: 1_542,
        deadline: 10_000,
        hops: (1..=links).map(|link| Hop { link, level }).collect(),
    }
}

fn bounds(work: &Work, link: usize, level: usize) -> (u128, u128) {
    let found = work.links[link - 1].levels[level - 1].bounds.unwrap();
    (found.delay, found.backlog)
}

#[test]
fn the_sums_of_document_01() {
    let mut registry = Registry::over(row(1, &[(400, 2_000), (400, 2_000)]));
    let first = registry.judge(&flow(7, 1, 1));
    assert_eq!(first.refused, None);
    assert_eq!(bounds(&first, 1, 1), (247, 1_558));
    assert_eq!(first.links[0].levels[1].bounds, None);
    registry.put_in(&flow(7, 1, 1));
    let second = registry.judge(&flow(8, 1, 2));
    assert_eq!((second.held, second.thresholds()), ((1, 1), 400));
    assert_eq!(bounds(&second, 1, 1), (371, 1_573));
    assert_eq!(bounds(&second, 1, 2), (374, 1_574));
    let below = second.links[0].levels[1].bounds.unwrap().sums;
    assert_eq!(
        (below.residual, below.above, below.below),
        (99_000, 1_542, 0)
    );
    assert_eq!(second.deciding().unwrap().queue.level, 2);
}

/// W-202's sums: what is under way is one frame, so the field stands beside the greatest admitted frame below, not on top
/// of it; at the last level it counts too.
#[test]
fn the_sums_with_a_best_effort_frame() {
    let mut queues = row(1, &[(500, 2_000), (500, 2_000)]);
    for queue in &mut queues {
        queue.best_effort_frame = 1_542;
    }
    let mut registry = Registry::over(queues);
    let first = registry.judge(&flow(7, 1, 1));
    assert_eq!(bounds(&first, 1, 1), (371, 1_573));
    registry.put_in(&flow(7, 1, 1));
    let second = registry.judge(&flow(8, 1, 2));
    assert_eq!(bounds(&second, 1, 1), (371, 1_573));
    assert_eq!(bounds(&second, 1, 2), (499, 1_589));
    let last = second.links[0].levels[1].bounds.unwrap().sums;
    assert_eq!((last.below, last.best_effort_frame), (0, 1_542));
    let upper = second.links[0].levels[0].bounds.unwrap().sums;
    assert_eq!((upper.below, upper.under_way()), (1_542, 1_542));
}

/// The larger of the two frames counts, whichever it is.
#[test]
fn the_larger_frame_is_under_way() {
    for (below, field, delay) in [
        (84, 1_542, 371),
        (1_542, 84, 371),
        (84, 0, 254),
        (84, 100, 255),
    ] {
        let mut queues = row(1, &[(1_000, 5_000), (1_000, 5_000)]);
        for queue in &mut queues {
            queue.best_effort_frame = field;
        }
        let mut registry = Registry::over(queues);
        registry.put_in(&flow(7, 1, 1));
        let new = Flow {
            frame: below,
            ..flow(8, 1, 2)
        };
        assert_eq!(bounds(&registry.judge(&new), 1, 1).0, delay);
    }
}

fn bursts(slips: Slips) -> Vec<u128> {
    let registry = Registry::slipping(row(3, &[(371, 5_000)]), slips);
    let work = registry.judge(&flow(7, 3, 1));
    work.hops.iter().map(|hop| hop.share.burst).collect()
}

/// By the rules, and by three slips.
#[test]
fn bursts_along_a_path() {
    assert_eq!(bursts(Slips::NONE), [1_542, 1_588, 1_633]);
    for (growth, grown) in [
        (Growth::Never, [1_542, 1_542, 1_542]),
        (Growth::EachHop, [1_542, 1_588, 1_634]),
        (Growth::WholeThresholds, [1_542, 1_589, 1_635]),
    ] {
        let slips = Slips {
            growth,
            ..Slips::NONE
        };
        assert_eq!(bursts(slips), grown);
    }
}

/// Each hop's part of S is its threshold less its own link's shortest sending time; the deadline's sum has whole thresholds.
#[test]
fn parts_of_s() {
    let mut queues = row(4, &[(371, 5_000)]);
    for (queue, (speed, threshold)) in
        queues
            .iter_mut()
            .zip([(10, 2_468), (1_000, 300), (97, 371), (100, 371)])
    {
        (queue.speed, queue.threshold) = (speed, threshold);
    }
    let work = Registry::over(queues).judge(&flow(7, 4, 1));
    assert_eq!(work.refused, None);
    let parts: Vec<u128> = work.hops.iter().map(|hop| hop.growth).collect();
    assert_eq!(parts, [2_400, 299, 364, 364]);
    let earlier: Vec<u128> = work.hops.iter().map(|hop| hop.earlier).collect();
    assert_eq!(earlier, [0, 2_400, 2_699, 3_063]);
    let bursts: Vec<u128> = work.hops.iter().map(|hop| hop.share.burst).collect();
    assert_eq!(bursts, [1_542, 1_842, 1_880, 1_925]);
    assert_eq!(work.end_to_end(), 2_468 + 300 + 371 + 371);
}

/// The deadline holds thresholds and fixed delays, the last hop's too; a microsecond more of cable is too much.
#[test]
fn fixed_delays_count_against_the_deadline() {
    let mut queues = row(3, &[(371, 5_000)]);
    for (queue, fixed_delay) in queues.iter_mut().zip([0, 5, 10_000]) {
        queue.fixed_delay = fixed_delay;
    }
    let new = Flow {
        deadline: 3 * 371 + 10_005,
        ..flow(7, 3, 1)
    };
    let met = Registry::over(queues.clone()).judge(&new);
    assert_eq!(met.refused, None);
    let sums = (met.thresholds(), met.fixed_delays(), met.end_to_end());
    assert_eq!(sums, (1_113, 10_005, 11_118));
    let delays: Vec<u64> = met.hops.iter().map(|hop| hop.queue.fixed_delay).collect();
    assert_eq!(delays, [0, 5, 10_000]);
    for link in 0..3 {
        let mut longer = queues.clone();
        longer[link].fixed_delay += 1;
        let missed = Registry::over(longer).judge(&new).refused;
        assert_eq!(missed.map(|answer| answer.code), Some(20));
    }
}

#[test]
fn bursts_do_not_grow_on_a_cable() {
    let mut queues = row(3, &[(371, 5_000)]);
    for queue in &mut queues {
        queue.fixed_delay = 10_000;
    }
    let new = Flow {
        deadline: 100_000,
        ..flow(7, 3, 1)
    };
    let work = Registry::over(queues).judge(&new);
    let bursts: Vec<u128> = work.hops.iter().map(|hop| hop.share.burst).collect();
    assert_eq!(bursts, [1_542, 1_588, 1_633]);
    let earlier: Vec<u128> = work.hops.iter().map(|hop| hop.earlier).collect();
    assert_eq!(earlier, [0, 364, 728]);
}

#[test]
fn a_fraction_dropped() {
    let dropped = Slips {
        fraction_dropped: true,
        ..Slips::NONE
    };
    let queues = row(1, &[(246, 2_000)]);
    let code = |slips| {
        Registry::slipping(queues.clone(), slips)
            .judge(&flow(7, 1, 1))
            .refused
    };
    assert_eq!(code(Slips::NONE).map(|answer| answer.code), Some(22));
    assert_eq!(code(dropped), None);
}

/// A release by the rules leaves nothing; with the slip it leaves the largest frame and nothing else.
#[test]
fn what_a_release_leaves() {
    let left = Slips {
        frame_left: true,
        ..Slips::NONE
    };
    for (slips, frame) in [(Slips::NONE, 0), (left, 1_542)] {
        let mut registry = Registry::slipping(row(1, &[(400, 2_000)]), slips);
        registry.put_in(&flow(7, 1, 1));
        registry.take_out(7);
        let (_, figures) = registry.figures(1, None).remove(0);
        assert_eq!(
            figures,
            Aggregate {
                frame,
                ..Aggregate::default()
            }
        );
    }
}

/// A refusal at the second link leaves nothing by the rules, with the slip the share at the first.
#[test]
fn what_a_refusal_leaves() {
    let early = Slips {
        stored_early: true,
        ..Slips::NONE
    };
    let mut queues = row(2, &[(400, 2_000)]);
    queues[1].threshold = 200;
    for (slips, burst) in [(Slips::NONE, 0), (early, 1_542)] {
        let mut registry = Registry::slipping(queues.clone(), slips);
        let line = plain::orders::write_registration(&flow(7, 2, 1));
        let answer = registry.register(&line);
        assert_eq!((answer.code, answer.link), (22, 2));
        let sums: Vec<u128> = [1, 2]
            .map(|link| registry.figures(link, None)[0].1.burst)
            .into();
        assert_eq!(sums, [burst, 0]);
        assert!(registry.held().is_empty());
    }
}

/// A change to twice the rate over two links: the share at the second is 1,542 + ceil(2,000 × 364 / 8000) = 1,633 in
/// place of 1,588, and stands there alone; with the slip it stands beside the old one, checked and stored.
#[test]
fn what_a_change_leaves() {
    let left = Slips {
        share_left: true,
        ..Slips::NONE
    };
    let change = Change {
        number: 7,
        rate: 2_000,
        burst: 1_542,
    };
    for (slips, rate, burst) in [(Slips::NONE, 2_000, 1_633), (left, 3_000, 3_221)] {
        let mut registry = Registry::slipping(row(2, &[(371, 5_000)]), slips);
        registry.queues[1].threshold = 400;
        for number in [6, 7] {
            registry.put_in(&flow(number, 2, 1));
        }
        registry.take_out(6);
        let work = registry.judge_change(&change);
        assert_eq!(work.refused, None);
        let bursts: Vec<u128> = work.hops.iter().map(|hop| hop.share.burst).collect();
        assert_eq!(bursts, [1_542, 1_633]);
        let judged = &work.links[1].levels[0].figures;
        assert_eq!((judged.rate, judged.burst), (rate, burst));
        let answer = registry.call(CHANGE, &write_change(&change));
        assert_eq!((answer.code, answer.slot), (0, 2));
        assert_eq!(registry.figures(2, None)[0].1, *judged);
        let held = Flow {
            rate: 2_000,
            ..flow(7, 2, 1)
        };
        assert_eq!(registry.held(), [&held]);
    }
}

/// Nothing is worked out of a flow that isn't held; where 17 is met, nothing of its path.
#[test]
fn changes_refused_before_their_links() {
    let mut registry = Registry::over(row(1, &[(371, 5_000)]));
    registry.put_in(&flow(7, 1, 1));
    for (number, burst, code) in [(8, 1_541, 13), (7, 1_541, 17)] {
        let work = registry.judge_change(&Change {
            number,
            rate: 1,
            burst,
        });
        assert_eq!(work.refused.map(|answer| answer.code), Some(code));
        assert!(work.hops.is_empty() && work.links.is_empty());
    }
}

#[test]
fn levels_above_are_checked() {
    let below = Slips {
        only_below: true,
        ..Slips::NONE
    };
    let mut registry = Registry::over(row(1, &[(370, 2_000), (400, 2_000)]));
    registry.put_in(&flow(7, 1, 1));
    let refused = registry.judge(&flow(8, 1, 2)).refused.unwrap();
    assert_eq!((refused.code, refused.link, refused.level), (22, 1, 1));
    registry.slips = below;
    assert_eq!(registry.judge(&flow(8, 1, 2)).refused, None);
}

#[test]
fn all_faults_of_a_line() {
    let text = b" 1     0     1,00    1542 1543   10000  1   1 1\n";
    let faults = examine(&lines(text)[0]).unwrap_err();
    let found: Vec<(usize, &str)> = faults
        .iter()
        .map(|fault| (fault.column, fault.field))
        .collect();
    assert_eq!(
        found,
        [(3, "flow number"), (15, "rate"), (26, "largest frame")]
    );
    assert_eq!(faults[1].what, What::Byte(b','));
    assert_eq!(first_class(&faults), Some(Class::Columns));
}
