//! What an order is answered, and the answer line.

pub const ANSWER_LINE: usize = 20;

/// What an answer line holds after the line number.
#[derive(Clone, Copy, Debug, PartialEq)]
pub struct Answer {
    pub code: u32,
    pub slot: u32,
    pub link: u32,
    pub level: u32,
}

impl Answer {
    #[inline(always)]
    pub fn plain(code: u32) -> Answer {
        Answer::at(code, 0, 0)
    }

    #[inline(always)]
    pub fn at(code: u32, link: u32, level: u32) -> Answer {
        Answer {
            code,
            slot: 0,
            link,
            level,
        }
    }

    /// Done at a slot, counted from 0 here.
    #[inline(always)]
    pub fn done(index: usize) -> Answer {
        Answer {
            code: 0,
            slot: index as u32 + 1,
            link: 0,
            level: 0,
        }
    }
}

/// Writes an answer line; a field that is 0 stands in the copied line already.
#[inline(always)]
pub fn put_answer(out: &mut [u8; ANSWER_LINE], number: u32, answer: Answer) {
    *out = *b"     0  0   0   0 0\n";
    put(out, 6, number);
    put(out, 9, answer.code);
    put(out, 13, answer.slot);
    put(out, 17, answer.link);
    put(out, 19, answer.level);
}

/// Fills the columns that end before `end` from the right.
#[inline(always)]
fn put(out: &mut [u8; ANSWER_LINE], end: usize, value: u32) {
    let (mut rest, mut at) = (value, end);
    while rest > 0 && at > 0 {
        at -= 1;
        out[at] = b'0' + (rest % 10) as u8;
        rest /= 10;
    }
}
