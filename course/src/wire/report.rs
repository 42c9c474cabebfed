//! The table of a trial: what was measured of each queue beside its bound, in µs of the hall.

use super::run::Stay;
use super::scale::Scale;
use super::trial::Found;
use super::verdict::{timing, Timing};
use crate::bounds::aligned;
use crate::numbers::{commas, counted, per_cent};
use crate::traffic::figures::greater_share;
use crate::traffic::hall::Hall;

/// Each with its unit.
const HEADINGS: [(&str, &str); 10] = [
    ("link", ""),
    ("level", ""),
    ("stays", ""),
    ("longest stay", "µs"),
    ("bound", "µs"),
    ("of it", "%"),
    ("threshold", "µs"),
    ("noise", "µs"),
    ("verdict", ""),
    ("worst frame", ""),
];

pub struct Report<'a> {
    pub hall: &'a Hall,
    pub scale: Scale,
    pub found: &'a Found,
}

impl Report<'_> {
    /// The queues that carry a flow.
    fn carrying(&self) -> impl Iterator<Item = usize> + '_ {
        let carries = |queue: &usize| self.hall.bounds[*queue].is_some();
        (0..self.hall.queues.len()).filter(carries)
    }

    /// A row for each queue that carries a flow, under the headings.
    pub fn table(&self) -> String {
        let heads = [
            HEADINGS.map(|(name, _)| name.to_string()),
            HEADINGS.map(|(_, unit)| unit.to_string()),
        ];
        let rows = self.carrying().map(|queue| self.row(queue));
        let all: Vec<Vec<String>> = heads.into_iter().chain(rows).map(Vec::from).collect();
        let table = aligned(&all);
        let lines = table.lines().map(|line| format!("{}\n", line.trim_end()));
        lines.collect()
    }

    fn row(&self, index: usize) -> [String; 10] {
        let (queue, seen) = (&self.hall.queues[index], &self.found.seen[index]);
        let bound = self.bound(index);
        let stay = |show: &dyn Fn(&Stay) -> String| {
            let longest = seen.longest.as_ref();
            longest.map_or("-".to_string(), show)
        };
        let share = |stay: &Stay| {
            let whole = self.scale.nanos(bound);
            per_cent(stay.length.into(), whole.into())
        };
        let verdict = match seen.timing() {
            Timing::InTime => "in time",
            Timing::Unclear => "unclear",
            Timing::Late => "late",
        };
        [
            queue.link.to_string(),
            queue.level.to_string(),
            commas(seen.stays),
            stay(&|stay| self.scale.shown(stay.length)),
            commas(bound),
            stay(&share),
            commas(queue.threshold),
            self.scale.shown(self.found.limits[index].noise),
            verdict.to_string(),
            stay(&|stay| self.frame(stay)),
        ]
    }

    /// `flow 7 frame 1`.
    fn frame(&self, stay: &Stay) -> String {
        let flow = self.hall.flows[stay.flow].number;
        format!("flow {flow} frame {}", commas(stay.number))
    }

    /// A line for each queue whose stays may pass their bound because the kernel lets go of small frames early, and one for
    /// each whose longest stay did pass it.
    pub fn remarks(&self) -> String {
        let early = |queue: usize| {
            let most = self.found.limits[queue].early;
            (most > 0).then(|| {
                let (place, most) = (self.hall.place(queue), self.scale.shown(most));
                format!("{place}: the kernel lets go of small frames below it early; by that a stay may pass its bound, by {most} µs at most\n")
            })
        };
        let above = |queue: usize| {
            let longest = self.found.seen[queue].longest?;
            let above = longest
                .length
                .checked_sub(self.scale.nanos(self.bound(queue)))?;
            (above > 0).then(|| {
                let (place, above) = (self.hall.place(queue), self.scale.shown(above));
                let added = self.scale.shown(longest.added);
                format!(
                    "{place}: above its bound by {above} µs; the machine may have added {added}\n"
                )
            })
        };
        let early = self.carrying().filter_map(early);
        early.chain(self.carrying().filter_map(above)).collect()
    }

    /// A queue's delay bound, µs.
    fn bound(&self, queue: usize) -> u64 {
        self.hall.bounds[queue].map_or(0, |bounds| bounds.delay)
    }

    /// The stay that uses most of its threshold, of the queues that fared worst.
    fn closest(&self) -> Option<&Stay> {
        let all = &self.found.seen;
        let worst = all.iter().filter(|seen| seen.timing() == timing(all));
        let longest = worst.filter_map(|seen| seen.longest.as_ref());
        let threshold = |stay: &Stay| self.hall.queues[stay.queue].threshold;
        longest.reduce(|best, stay| {
            let (of_best, of_stay) = (threshold(best), threshold(stay));
            match greater_share(stay.length, of_stay, best.length, of_best) {
                true => stay,
                false => best,
            }
        })
    }

    /// The verdict on all queues.
    pub fn verdict(&self) -> String {
        let Some(closest) = self.closest() else {
            return "no frame was sent".to_string();
        };
        let place = format!(
            "{}, {} of {} µs",
            self.hall.place(closest.queue),
            self.scale.shown(closest.length),
            commas(self.hall.queues[closest.queue].threshold)
        );
        let late: u64 = self.found.seen.iter().map(|seen| seen.late).sum();
        match timing(&self.found.seen) {
            Timing::InTime => format!("no frame late; closest {place}"),
            Timing::Unclear => format!(
                "nothing can be said: {place}, above by no more than this machine itself may have added; \
                 slower motion, or a machine that does nothing else, tells"
            ),
            Timing::Late => {
                let stays = counted(late as usize, "late stay", "late stays");
                format!("a frame late: {place}; {stays} in all")
            }
        }
    }
}
