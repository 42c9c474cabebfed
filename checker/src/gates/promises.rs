//! What the paper promises of a chain of offers to one gate, judged by the true times and by what passed, with numbers of its own:
//! neither the plain gate's nor any tokens.

/// 8000 × bytes over a window is at most 8000 × burst + rate × µs.
const BYTE: u128 = 8_000;
const SMALLEST: u64 = 84;
/// Readings that are so many µs apart or more don't tell the time between them.
const TURN: u64 = 4_294_967_296;

/// A chain so far, in true µs that don't go back.
pub struct Chain {
    rate: u128,
    burst: u128,
    largest: u64,
    /// Time and length of each frame that passed.
    passed: Vec<(u64, u64)>,
    /// When a reading was last stored.
    stored: u64,
    /// Since the last passed frame stored readings are less than a turn apart.
    near: bool,
    /// Frames dropped since then.
    drops: u64,
}

/// What one offer was.
#[derive(Default)]
pub struct Seen {
    /// A reading stored that is lower than the one before.
    pub corner: bool,
    /// A reading stored a turn or more after the one before.
    pub unseen_turn: bool,
    /// A frame that had to pass, after drops.
    pub due_after_drops: bool,
}

impl Chain {
    pub fn opened([rate, burst, largest]: [u64; 3], time: u64) -> Chain {
        Chain {
            rate: u128::from(rate),
            burst: u128::from(burst),
            largest,
            passed: Vec::new(),
            stored: time,
            near: true,
            drops: 0,
        }
    }

    pub fn last_passed(&self) -> Option<u64> {
        self.passed.last().map(|(time, _)| *time)
    }

    /// Whether a code may be the answer to a frame offered at this time.
    pub fn judge(&mut self, time: u64, length: u64, code: u32) -> Result<Seen, String> {
        let refused = length < SMALLEST || length > self.largest;
        match (refused, code) {
            (true, 60) => return Ok(Seen::default()),
            (false, 0 | 1) => {}
            _ => return Err(format!("{length} bytes are answered {code}")),
        }
        let mut seen = Seen {
            corner: time % TURN < self.stored % TURN,
            unseen_turn: time - self.stored >= TURN,
            ..Seen::default()
        };
        self.near &= !seen.unseen_turn;
        self.stored = time;
        let due = self.due(time, length);
        if code == 1 {
            self.drops += 1;
            if due {
                let since = self.last_passed();
                return Err(format!(
                    "{length} bytes dropped at {time}, passed {since:?}"
                ));
            }
            return Ok(seen);
        }
        seen.due_after_drops = due && self.drops > 0;
        (self.near, self.drops) = (true, 0);
        self.passed.push((time, length));
        self.conforms()?;
        Ok(seen)
    }

    /// Whether a frame must pass.
    fn due(&self, time: u64, length: u64) -> bool {
        let Some(last) = self.last_passed() else {
            return true;
        };
        let wait = (BYTE * u128::from(length)).div_ceil(self.rate);
        self.near && u128::from(time - last) >= wait
    }

    /// Whether what passed conforms over every window that ends with the last frame.
    fn conforms(&self) -> Result<(), String> {
        let end = self.last_passed().unwrap_or_default();
        let mut bytes = 0;
        for (start, length) in self.passed.iter().rev() {
            bytes += u128::from(*length);
            let time = u128::from(end - start);
            if BYTE * bytes > BYTE * self.burst + self.rate * time {
                return Err(format!("{bytes} bytes passed from {start} to {end}"));
            }
        }
        Ok(())
    }
}
