//! One call of the command: conformance, the run, the report, the trace and the page.

use super::conform::{self, Breach, Who};
use super::figures::{Figures, Seen, Verdict};
use super::frames::Sends;
use super::gates::Gates;
use super::hall::Hall;
use super::network::Network;
use super::page::stretch::{Recorder, Stretch};
use super::run::{self, Arrivals};
use super::slots::THOUSAND;
use super::{page, report, trace, usage, watch};
use crate::arguments::Arguments;
use crate::folder::cannot_write;
use crate::numbers::{commas, counted};
use crate::status::{Outcome, Status};
use std::fs::File;
use std::io::BufWriter;
use std::path::Path;

/// No run lasts longer, not even the most and largest frames that SENDS can ask for, sent at its last
/// instant over 12 links of 1 Mbit/s.
const LAST_INSTANT: u64 = 100_000_000_000_000;

/// What one call of the command is to do, read and checked.
pub struct Job<'a> {
    pub arguments: &'a Arguments,
    pub hall: Hall,
    pub arrivals: Arrivals,
    /// The name of SENDS and what it says, or what of it passed the gates.
    pub name: String,
    pub sends: Sends,
    pub gates: Option<Gates>,
    /// Lines before the report.
    pub preface: String,
    /// What the page is to show.
    pub shown: Chosen,
}

/// The ends of a stretch that the options name.
pub struct Chosen {
    from: Option<u64>,
    to: Option<u64>,
}

impl Chosen {
    pub fn of(arguments: &Arguments) -> Result<Chosen, Outcome> {
        let end = |name: &str| match arguments.number(name)? {
            Some(instant) if instant > LAST_INSTANT => {
                let last = commas(LAST_INSTANT);
                Err(usage(&format!("{name}: instants go to {last}")))
            }
            instant => Ok(instant),
        };
        let (from, to) = (end("--from")?, end("--to")?);
        if let (Some(from), Some(to)) = (from, to) {
            stretch(from, to)?;
        }
        Ok(Chosen { from, to })
    }

    /// The stretch at hand, with the ends that are named.
    fn in_place_of(&self, usual: Stretch) -> Result<Stretch, Outcome> {
        let from = self.from.unwrap_or(usual.from);
        let to = self.to.unwrap_or(usual.to.max(from + 1));
        stretch(from, to)
    }
}

fn stretch(from: u64, to: u64) -> Result<Stretch, Outcome> {
    match from < to {
        true => Ok(Stretch { from, to }),
        false => Err(usage("--from must be before --to")),
    }
}

impl Job<'_> {
    pub fn run(self) -> Result<Outcome, Outcome> {
        let breaches = self.breaches();
        let mut errors: String = breaches
            .iter()
            .map(|breach| format!("{breach}\n"))
            .collect();
        if !breaches.is_empty() && !self.arguments.has("--anyway") {
            errors += &format!(
                "{}: not sent: {}; {}\n",
                self.name,
                unconforming(&breaches),
                self.way_out(&breaches)
            );
            return Err(Outcome::failed(Status::Unconforming, errors));
        }
        let figures = self.figures()?;
        let seen = &figures.seen;
        let verdict = Verdict::of(&self.hall.queues, seen);
        let remark = self.remark(&breaches, &verdict);
        self.write_page(seen, &verdict, &remark, figures.end)?;
        let printed = format!(
            "{}{}\n{}\n\n{}\n{}{}{}\n",
            self.preface,
            self.summary(),
            remark,
            report::table(&self.hall, seen),
            report::laptops(&self.hall, &figures.laptops),
            report::delayed(&self.hall, seen),
            verdict.words(&self.hall, seen)
        );
        let status = match verdict.kept() {
            true => Status::Fine,
            false => Status::Late,
        };
        Ok(Outcome {
            printed,
            errors,
            status,
        })
    }

    /// Those of the sources and of the laptops, line by line.
    fn breaches(&self) -> Vec<Breach> {
        let mut all = conform::breaches(&self.hall.flows, &self.sends.frames);
        let laptops = &self.sends.laptops;
        all.extend(conform::laptop_breaches(&self.hall.queues, laptops));
        all.sort_by_key(|breach| breach.line);
        all
    }

    /// What to do about sources that don't conform.
    fn way_out(&self, breaches: &[Breach]) -> &'static str {
        let of_flow = |breach: &Breach| matches!(breach.who, Who::Flow(_));
        match (&self.gates, breaches.iter().any(of_flow)) {
            (None, _) => "--anyway sends it",
            (Some(_), false) => "no gate stands before a laptop",
            (Some(_), true) => "this is what a gate rules out; keep the three files",
        }
    }

    /// What the promise says of this run.
    fn remark(&self, breaches: &[Breach], verdict: &Verdict) -> String {
        if !breaches.is_empty() {
            let unconforming = unconforming(breaches);
            return format!("{unconforming}: the promise doesn't speak of this run");
        }
        let behind = match self.gates {
            None => "",
            Some(_) => " behind its gate",
        };
        let ruled_out = match verdict.kept() {
            true => "",
            false => ": this is what the promise rules out; keep the three files",
        };
        format!("every source conforms{behind}{ruled_out}")
    }

    /// `2 frames of 2 flows; those of one instant: forwarded ones first`; before the semicolon how many were offered to gates and
    /// the laptops' frames, if any.
    fn summary(&self) -> String {
        let frames = &self.sends.frames;
        let mut sending: Vec<usize> = frames.iter().map(|send| send.flow).collect();
        sending.sort_unstable();
        sending.dedup();
        let order = match self.arrivals {
            Arrivals::ForwardedFirst => "forwarded ones first",
            Arrivals::ForwardedLast => "forwarded ones last",
            Arrivals::Shuffled(_) => "any order, by the seed",
        };
        let laptops = match self.sends.laptops.len() {
            0 => String::new(),
            count => format!(", {}", counted(count, "laptop's frame", "laptops' frames")),
        };
        let offered = self.gates.as_ref().map(Gates::offered);
        let offered = offered.map(|count| format!(", of {} offered to gates", commas(count)));
        format!(
            "{} of {}{}{laptops}; those of one instant: {order}",
            counted(frames.len(), "frame", "frames"),
            counted(sending.len(), "flow", "flows"),
            offered.unwrap_or_default()
        )
    }

    /// Runs the network; the trace is written as it goes.
    fn figures(&self) -> Result<Figures<'_>, Outcome> {
        let network = Network::new(&self.hall.queues, &self.hall.flows);
        let mut figures = Figures::new(&self.hall.queues);
        let path = self.arguments.value("--trace");
        let failed = |error| cannot_write(Path::new(path.unwrap_or_default()), &error);
        let file = path.map(File::create).transpose().map_err(failed)?;
        let mut trace = file.map(|file| trace::Trace::new(&self.hall, BufWriter::new(file)));
        let progress = watch::Progress::on_terminal(self.sends.frames.len());
        let mut watch = ((&mut figures, &mut trace), progress);
        run::run(&network, &self.sends, self.arrivals.clone(), &mut watch);
        drop(watch);
        if let Some(trace) = trace {
            trace.finish().map_err(failed)?;
        }
        Ok(figures)
    }

    /// Runs the network once more for the stretch that the page shows: it is known only now.
    fn write_page(
        &self,
        seen: &[Seen],
        verdict: &Verdict,
        remark: &str,
        end: u64,
    ) -> Result<(), Outcome> {
        let Some(path) = self.arguments.value("--page") else {
            return Ok(());
        };
        let sent = self.sends.frames.first().map(|send| send.instant);
        let ready = self.sends.laptops.first();
        let ready = ready.map(|laptop| laptop.ready / THOUSAND);
        let first = sent.into_iter().chain(ready).min().unwrap_or(0);
        let whole = Stretch {
            from: first,
            to: end.max(first),
        };
        let usual = Stretch::around(&self.hall, verdict.closest.as_ref(), whole);
        let stretch = self.shown.in_place_of(usual)?;
        let network = Network::new(&self.hall.queues, &self.hall.flows);
        let mut recorder = Recorder::new(stretch, &self.hall, verdict.closest);
        run::run(&network, &self.sends, self.arrivals.clone(), &mut recorder);
        let words = page::Words {
            title: &format!("Traffic of {} on {}", self.name, self.arguments.words[0]),
            summary: &self.summary(),
            remark,
        };
        let html = page::page(&self.hall, seen, verdict, &recorder, &words);
        std::fs::write(path, html).map_err(|error| cannot_write(Path::new(path), &error))
    }
}

fn unconforming(breaches: &[Breach]) -> String {
    match breaches.len() {
        1 => "a source doesn't conform".to_string(),
        count => format!("{count} sources don't conform"),
    }
}
