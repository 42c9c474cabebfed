//! The queue table: codes 1 to 5 against its text, and what a path must meet in it by itself.

use super::columns::{field, lines};
use super::orders::Hop;
use super::{LEVELS, LINKS, QUEUES};
use crate::answer::Answer;

/// The columns of a line by its last field; a field past its end is 0.
const BUFFER_LINE: usize = 36;
const DELAY_LINE: usize = 43;
const BEST_EFFORT_LINE: usize = 48;
const MOST_TABLE_BYTES: usize = QUEUES * (BEST_EFFORT_LINE + 1);

#[derive(Clone, Copy, PartialEq)]
pub struct Link {
    pub from: u32,
    pub to: u32,
    pub speed: u32,
    pub levels: u32,
    /// µs.
    pub fixed_delay: u32,
    /// Bytes; 0 where none is sent.
    pub best_effort_frame: u32,
}

#[derive(Clone, Copy)]
pub struct Queue {
    pub threshold: u32,
    pub buffer: u32,
}

/// The first `count` links count, and of each its first `levels` queues.
#[derive(Clone)]
pub struct Table {
    pub count: usize,
    pub links: [Link; LINKS],
    pub queues: [Queue; QUEUES],
}

/// The numbers of one table line; the link's `levels` is the line's level.
struct Row {
    number: u32,
    link: Link,
    queue: Queue,
}

fn read_row(line: &[u8]) -> Option<Row> {
    let (fixed_delay, best_effort_frame) = match line.len() {
        BUFFER_LINE => (0, 0),
        DELAY_LINE => (field::<37, 43>(line)?, 0),
        BEST_EFFORT_LINE => (field::<37, 43>(line)?, field::<44, 48>(line)?),
        _ => return None,
    };
    Some(Row {
        number: field::<1, 4>(line)?,
        link: Link {
            from: field::<5, 8>(line)?,
            to: field::<9, 12>(line)?,
            speed: field::<13, 18>(line)?,
            levels: field::<19, 20>(line)?,
            fixed_delay,
            best_effort_frame,
        },
        queue: Queue {
            threshold: field::<21, 27>(line)?,
            buffer: field::<28, 36>(line)?,
        },
    })
}

impl Link {
    /// 2 of a link's numbers.
    fn in_range(&self) -> bool {
        (1..=9_999).contains(&self.from)
            && (1..=9_999).contains(&self.to)
            && (1..=10_000).contains(&self.speed)
            && self.fixed_delay <= 10_000
            && (self.best_effort_frame == 0 || (84..=1_542).contains(&self.best_effort_frame))
    }
}

impl Queue {
    /// 2 of a level's numbers.
    fn in_range(&self) -> bool {
        (1..=100_000).contains(&self.threshold) && (1..=16_777_215).contains(&self.buffer)
    }
}

impl Table {
    pub const EMPTY: Table = Table {
        count: 0,
        links: [Link {
            from: 0,
            to: 0,
            speed: 0,
            levels: 0,
            fixed_delay: 0,
            best_effort_frame: 0,
        }; LINKS],
        queues: [Queue {
            threshold: 0,
            buffer: 0,
        }; QUEUES],
    };

    /// Fills an empty table; code and line of the first fault, or 0 and 0.
    pub fn read(&mut self, text: &[u8]) -> (u32, u32) {
        if text.len() > MOST_TABLE_BYTES {
            return (5, 0);
        }
        for (number, line) in (1..).zip(lines(text)) {
            let row = line.and_then(read_row);
            if let Err(code) = row.ok_or(1).and_then(|row| self.add(row)) {
                self.count = 0;
                return (code, number);
            }
        }
        (0, 0)
    }

    /// Adds a line, or says which of 2 to 4 is against it.
    #[inline]
    fn add(&mut self, row: Row) -> Result<(), u32> {
        let Row {
            number,
            link,
            queue,
        } = row;
        if !link.in_range() || !queue.in_range() {
            return Err(2);
        }
        let newest = self.count.checked_sub(1).map(|last| self.links[last]);
        let begins = number as usize == self.count + 1 && link.levels == 1;
        let continues = number as usize == self.count
            && newest.is_some_and(|newest| newest.levels + 1 == link.levels);
        if number as usize > LINKS || link.levels as usize > LEVELS || !(begins || continues) {
            return Err(3);
        }
        let same = |newest: Link| {
            Link {
                levels: link.levels,
                ..newest
            } == link
        };
        if link.from == link.to || !(begins || newest.is_some_and(same)) {
            return Err(4);
        }
        let at = number as usize - 1;
        self.count = number as usize;
        self.links[at] = link;
        self.queues[LEVELS * at + link.levels as usize - 1] = queue;
        Ok(())
    }

    /// 14 over all hops; the entries of the hops go into `path`.
    #[inline]
    pub fn locate(&self, hops: &[Hop], path: &mut [u32]) -> Result<(), Answer> {
        for (hop, entry) in hops.iter().zip(path) {
            let link = hop.link.wrapping_sub(1);
            let level = hop.level.wrapping_sub(1);
            match self.links[..self.count].get(link as usize) {
                Some(found) if level < found.levels => *entry = LEVELS as u32 * link + level,
                _ => return Err(Answer::at(14, hop.link, hop.level)),
            }
        }
        Ok(())
    }

    /// Whether an entry of any value names a queue.
    pub fn has(&self, entry: u32) -> bool {
        self.links[..self.count]
            .get(link_of(entry))
            .is_some_and(|link| entry % (LEVELS as u32) < link.levels)
    }

    /// 16 over all hops, 15 over all hops and 20, for entries that name queues.
    #[inline]
    pub fn judge_path(&self, deadline: u32, path: &[u32]) -> Result<(), Answer> {
        let against = |code, entry: u32| {
            Err(Answer::at(
                code,
                link_of(entry) as u32 + 1,
                entry % LEVELS as u32 + 1,
            ))
        };
        let mut met = 0_u64;
        for &entry in path {
            let link = 1 << link_of(entry);
            if met & link != 0 {
                return against(16, entry);
            }
            met |= link;
        }
        for (&before, &entry) in path.iter().zip(path.iter().skip(1)) {
            if self.links[link_of(before)].to != self.links[link_of(entry)].from {
                return against(15, entry);
            }
        }
        let hop = |&entry: &u32| {
            let fixed_delay = self.links[link_of(entry)].fixed_delay;
            u64::from(self.queues[entry as usize].threshold) + u64::from(fixed_delay)
        };
        if u64::from(deadline) < path.iter().map(hop).sum() {
            return Err(Answer::plain(20));
        }
        Ok(())
    }

    /// Whether arrays of any content hold a table that passes 2 to 4.
    pub fn consistent(&self) -> bool {
        let Some(links) = self.links.get(..self.count) else {
            return false;
        };
        links
            .iter()
            .zip(self.queues.chunks_exact(LEVELS))
            .all(|(link, queues)| {
                link.in_range()
                    && link.from != link.to
                    && (1..=LEVELS as u32).contains(&link.levels)
                    && queues[..link.levels as usize].iter().all(Queue::in_range)
            })
    }
}

#[inline(always)]
fn link_of(entry: u32) -> usize {
    entry as usize / LEVELS
}
