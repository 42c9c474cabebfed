//! Document 01, "Who can cause which refusal": the codes, what each means, and the order in which causes are met.

/// Each code once: its name, its number, and what it means in a few words.
macro_rules! codes {
    ($($name:ident = $code:literal, $words:literal;)*) => {
        $(pub const $name: u64 = $code;)*

        const MEANINGS: &[(u64, &str)] = &[$(($name, $words)),*];
    };
}

codes! {
    DONE = 0, "done";
    TABLE_COLUMNS = 1, "a table line's columns are wrong";
    TABLE_RANGE = 2, "a number of a table line is out of range";
    TABLE_TURN = 3, "link or level out of turn";
    TABLE_ENDS = 4, "a link's ends, speed, fixed delay or best-effort frame don't fit";
    TABLE_SIZE = 5, "the table is too long";
    COLUMNS = 10, "columns wrong";
    RANGE = 11, "out of range";
    HELD = 12, "flow number held already";
    NOT_HELD = 13, "flow number not held";
    NO_QUEUE = 14, "no such queue";
    APART = 15, "a link doesn't start where the one before ended";
    LOOP = 16, "a link met earlier on the path";
    FRAME = 17, "largest frame above burst";
    DEADLINE = 20, "thresholds and fixed delays above the deadline";
    RATE = 21, "the link's rates would reach its speed";
    DELAY = 22, "delay above the threshold";
    BACKLOG = 23, "backlog above the buffer";
    NO_SLOT = 30, "all places held";
    NO_HOPS = 31, "too few hop entries";
    AREA = 40, "the answer area is too short";
    ORDER_SIZE = 41, "too many orders";
    TEXT_AREA = 43, "the area is too short for the text";
}

/// A line's own causes, before its order is judged.
pub const READING: [u64; 2] = [COLUMNS, RANGE];

/// The causes against a registration that was read, in their order; those of a group are met together, link by link.
pub const REGISTRATION: [&[u64]; 9] = [
    &[HELD],
    &[FRAME],
    &[NO_QUEUE],
    &[LOOP],
    &[APART],
    &[DEADLINE],
    &[NO_SLOT],
    &[NO_HOPS],
    &[RATE, DELAY, BACKLOG],
];

/// The causes against a release that was read.
pub const RELEASE: [&[u64]; 1] = [&[NOT_HELD]];

/// The causes against a change that was read; 17 is against the held flow's frame.
pub const CHANGE: [&[u64]; 3] = [&[NOT_HELD], &[FRAME], &[RATE, DELAY, BACKLOG]];

/// What a code means, in a few words.
pub fn meaning(code: u64) -> &'static str {
    let found = MEANINGS.iter().find(|(known, _)| *known == code);
    found.map_or("no such code", |(_, words)| words)
}
