//! Faulty tables: numbers past a limit or out of turn, lines of lengths that none has, too many lines.

use crate::rng::Rng;
use plain::columns::put;
use plain::orders::{LARGEST_FRAME, SMALLEST_FRAME};
use plain::table::{Queue, ENTRIES, LENGTHS, MOST_BUFFER, MOST_FIXED_DELAY, MOST_THRESHOLD};

/// Past the longest line, the end of W-209's field.
const FAR_TOO_LONG: usize = 57;

/// One line taken out, or some fields of one line set to values at or past a limit or out of turn.
pub fn line_faults(rng: &mut Rng, queues: &mut Vec<Queue>) {
    if queues.is_empty() {
        return;
    }
    let index = rng.index(queues.len());
    if rng.once_in(10) {
        queues.remove(index);
        return;
    }
    for _ in 0..rng.between(1, 3) {
        one_fault(rng, &mut queues[index]);
    }
}

fn one_fault(rng: &mut Rng, queue: &mut Queue) {
    match rng.between(0, 11) {
        0 => queue.from = rng.pick(&[0, 9_999]),
        1 => queue.to = rng.pick(&[0, 9_999]),
        2 => queue.speed = rng.pick(&[0, 10_000, 10_001, 999_999]),
        3 => queue.threshold = rng.pick(&[0, 1, 100_000, 100_001, 9_999_999]),
        4 => queue.buffer = rng.pick(&[0, 1, 16_777_215, 16_777_216, 999_999_999]),
        5 => queue.link = rng.pick(&[0, 1, 63, 64, 65, 9_999]),
        6 => queue.level = rng.pick(&[0, 1, 8, 9, 99]),
        7 => queue.to = queue.from,
        8 => queue.speed = queue.speed % 10_000 + 1,
        9 => queue.fixed_delay = rng.pick(&[0, 1, 9_999, 10_000, 10_001, 9_999_999]),
        10 => queue.best_effort_frame = rng.pick(&[0, 1, 83, 84, 1_542, 1_543, 99_999]),
        _ => std::mem::swap(&mut queue.from, &mut queue.to),
    }
}

/// One link's fixed delay or best-effort frame out of its range, or one line's apart from those of its link; says which.
pub fn link_fault(rng: &mut Rng, queues: &mut [Queue]) -> &'static str {
    let later: Vec<usize> = (0..queues.len())
        .filter(|&at| queues[at].level > 1)
        .collect();
    if later.is_empty() || rng.once_in(2) {
        return out_of_range(rng, queues);
    }
    let apart = rng.pick(&later);
    differing(rng, &mut queues[apart])
}

fn out_of_range(rng: &mut Rng, queues: &mut [Queue]) -> &'static str {
    let link = queues[rng.index(queues.len())].link;
    let of_link = queues.iter_mut().filter(|queue| queue.link == link);
    if rng.once_in(2) {
        of_link.for_each(|queue| queue.fixed_delay = MOST_FIXED_DELAY + 1);
        return "delay above its range";
    }
    let frame = rng.pick(&[1, SMALLEST_FRAME - 1, LARGEST_FRAME + 1]);
    of_link.for_each(|queue| queue.best_effort_frame = frame);
    "best-effort frame out of range"
}

fn differing(rng: &mut Rng, queue: &mut Queue) -> &'static str {
    if rng.once_in(2) {
        queue.fixed_delay = match queue.fixed_delay {
            0 => 1,
            known => rng.pick(&[0, known - 1]),
        };
        return "delays differ";
    }
    queue.best_effort_frame = match queue.best_effort_frame {
        0 => rng.pick(&[SMALLEST_FRAME, LARGEST_FRAME]),
        SMALLEST_FRAME => rng.pick(&[0, SMALLEST_FRAME + 1]),
        known => rng.pick(&[0, known - 1]),
    };
    "best-effort frames differ"
}

/// One line of a text in a length that none may have. In each field that it lacks or cuts stands a 0, so that the length
/// alone is wrong.
pub fn odd_length(rng: &mut Rng, text: &mut Vec<u8>) {
    let mut lines: Vec<Vec<u8>> = text
        .split(|&byte| byte == b'\n')
        .map(<[u8]>::to_vec)
        .collect();
    let (at, length) = (rng.index(lines.len()), rng.pick(&odd_lengths()));
    let line = &mut lines[at];
    line.truncate(length.min(LENGTHS[0]));
    for entry in ENTRIES {
        if (line.len() + 1..=length).contains(&entry.field.first) {
            put(line, 0, length.min(entry.field.last) - line.len());
        }
    }
    line.resize(length, b'0');
    *text = lines.join(&b'\n');
}

/// The lengths beside and between those that a line may have, and one far too long.
fn odd_lengths() -> Vec<usize> {
    let (shortest, longest) = (LENGTHS[0], LENGTHS[LENGTHS.len() - 1]);
    let near = (shortest - 1..=longest + 1).filter(|length| !LENGTHS.contains(length));
    near.chain([FAR_TOO_LONG]).collect()
}

/// The line after 64 links of eight levels.
pub fn past_the_last() -> Queue {
    Queue {
        link: 65,
        from: 1,
        to: 2,
        speed: 100,
        level: 1,
        threshold: MOST_THRESHOLD,
        buffer: MOST_BUFFER,
        ..Queue::default()
    }
}

/// More lines than a table may have: a 65th link or a ninth level.
pub fn too_many(rng: &mut Rng) -> Vec<Queue> {
    let mut queues = Vec::new();
    let (links, levels) = rng.pick(&[(65, 1), (64, 1), (1, 9), (1, 8), (2, 9)]);
    for link in 1..=links {
        for level in 1..=levels {
            queues.push(Queue {
                link,
                level,
                ..past_the_last()
            });
        }
    }
    queues
}
