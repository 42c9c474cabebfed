//! What can be wrong with a line of a text, and where.

/// What is wrong at a place of a line.
#[derive(Clone, Debug, PartialEq)]
pub enum What {
    /// Bytes after the last LF.
    Unended,
    /// The line ends before the field does.
    Short {
        columns: usize,
    },
    /// More columns than the line may have.
    Long {
        columns: usize,
        most: usize,
    },
    /// A line of a length between those that it may have.
    Length {
        columns: usize,
    },
    /// No digit.
    Blank,
    /// Neither a digit nor a blank.
    Byte(u8),
    /// A blank right of a digit.
    Gap,
    LeadingZero,
    Range {
        value: u64,
        ranges: &'static [(u64, u64)],
    },
    /// Not the queue that comes next.
    Turn {
        value: (u64, u64),
        before: Option<(u64, u64)>,
    },
    /// A link or level past the last that a table may have.
    Past {
        value: u64,
        most: u64,
    },
    /// From equals to.
    SameEnds {
        node: u64,
    },
    /// A link's number that differs from the line before.
    Differs {
        value: u64,
        before: u64,
    },
}

/// The causes that a line by itself can meet, in their order.
#[derive(Clone, Copy, Debug, PartialEq, Eq, PartialOrd, Ord)]
pub enum Class {
    Columns,
    Range,
    Turn,
    Ends,
}

/// Something wrong with a line.
#[derive(Clone, Debug, PartialEq)]
pub struct Fault {
    /// Counted from 1.
    pub column: usize,
    /// The field's name; empty where no field is meant.
    pub field: &'static str,
    pub what: What,
}

impl Fault {
    pub fn class(&self) -> Class {
        match self.what {
            What::Range { .. } => Class::Range,
            What::Turn { .. } | What::Past { .. } => Class::Turn,
            What::SameEnds { .. } | What::Differs { .. } => Class::Ends,
            _ => Class::Columns,
        }
    }
}

/// The class that a line with these faults is refused for.
pub fn first_class(faults: &[Fault]) -> Option<Class> {
    faults.iter().map(Fault::class).min()
}
