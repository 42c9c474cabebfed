//! Document 01's order line: a registration with a whole flow, a release with a flow number, W-206's change with a flow
//! number, rate and burst, or the code 10 or 11.

use crate::causes;
use crate::columns::{lines, put, Field, Line};
use crate::faults::{first_class, Class, Fault, What};

#[derive(Clone, Copy, Debug, PartialEq)]
pub struct Hop {
    pub link: u64,
    pub level: u64,
}

/// A flow as its line gives it.
#[derive(Clone, Debug, PartialEq)]
pub struct Flow {
    pub number: u64,
    /// kbit/s.
    pub rate: u64,
    /// Bytes.
    pub burst: u64,
    /// The largest frame, bytes.
    pub frame: u64,
    /// µs.
    pub deadline: u64,
    pub hops: Vec<Hop>,
}

#[derive(Clone, Debug, PartialEq)]
pub enum Order {
    Register(Flow),
    Release(u64),
    Change(Change),
}

/// What the held flow with this number is to have from now on.
#[derive(Clone, Copy, Debug, PartialEq)]
pub struct Change {
    pub number: u64,
    /// kbit/s.
    pub rate: u64,
    /// Bytes.
    pub burst: u64,
}

pub const REGISTER: u64 = 1;
pub const RELEASE: u64 = 2;
pub const CHANGE: u64 = 3;
pub const MOST_HOPS: u64 = 12;
pub const SMALLEST_FRAME: u64 = 84;
pub const LARGEST_FRAME: u64 = 1_542;

const KIND_RANGE: &[(u64, u64)] = &[(REGISTER, CHANGE)];

pub const KIND: Field = Field::new("kind", "", (1, 2), KIND_RANGE);
pub const NUMBER: Field = Field::new("flow number", "", (3, 8), &[(1, 65_535)]);
pub const RATE: Field = Field::new("rate", "kbit/s", (9, 17), &[(1, 10_000_000)]);
pub const BURST: Field = Field::new("burst", "bytes", (18, 25), &[(SMALLEST_FRAME, 1_000_000)]);
const FRAME_RANGE: &[(u64, u64)] = &[(SMALLEST_FRAME, LARGEST_FRAME)];
pub const FRAME: Field = Field::new("largest frame", "bytes", (26, 30), FRAME_RANGE);
const REGISTRATION: [Field; 6] = [
    NUMBER,
    RATE,
    BURST,
    FRAME,
    Field::new("deadline", "µs", (31, 38), &[(1, 10_000_000)]),
    Field::new("hop count", "", (39, 41), &[(1, MOST_HOPS)]),
];
const CHANGED: [Field; 3] = [NUMBER, RATE, BURST];
/// A hop's fields, as columns after those before it.
const HOP: [Field; 2] = [
    Field::new("hop's link", "", (1, 4), &[]),
    Field::new("hop's level", "", (5, 6), &[]),
];
const HOP_COLUMNS: usize = HOP[1].last;

/// A kind of order: its number and word, its fields after the kind, and whether a path follows them.
pub struct Kind {
    pub number: u64,
    pub word: &'static str,
    pub fields: &'static [Field],
    /// The last field is the number of hops that follow.
    pub path: bool,
}

pub const KINDS: [Kind; 3] = [
    Kind {
        number: REGISTER,
        word: "register",
        fields: &REGISTRATION,
        path: true,
    },
    Kind {
        number: RELEASE,
        word: "release",
        fields: &[NUMBER],
        path: false,
    },
    Kind {
        number: CHANGE,
        word: "change",
        fields: &CHANGED,
        path: false,
    },
];

impl Kind {
    /// Columns before the path, if there is one.
    pub fn head(&self) -> usize {
        self.fields.last().map_or(KIND.last, |field| field.last)
    }
}

/// Every field that an order line can have, in the columns where it stands, hops of the longest path among them.
pub fn all_fields() -> Vec<Field> {
    let longest = KINDS.iter().max_by_key(|kind| kind.head());
    let kind = longest.expect("a kind of order");
    let mut fields = vec![KIND];
    fields.extend(kind.fields);
    for hop in 0..MOST_HOPS as usize {
        fields.extend(HOP.map(|field| field.moved(kind.head() + HOP_COLUMNS * hop)));
    }
    fields
}

/// A line: its order where nothing is wrong with it, else all that is.
pub fn examine(line: &Line) -> Result<Order, Vec<Fault>> {
    if !line.ended {
        return Err(vec![Fault {
            column: line.bytes.len() + 1,
            field: "",
            what: What::Unended,
        }]);
    }
    let number = KIND.read(line.bytes).map_err(|fault| vec![fault])?;
    match KINDS.iter().find(|kind| kind.number == number) {
        Some(kind) => examine_kind(kind, line.bytes),
        None => Err(KIND.fault_of(number).into_iter().collect()),
    }
}

fn examine_kind(kind: &Kind, line: &[u8]) -> Result<Order, Vec<Fault>> {
    let mut faults = Vec::new();
    let values = read_fields(kind.fields, line, &mut faults);
    let mut hops = Vec::new();
    match (kind.path, values.last()) {
        (false, _) => faults.extend(long_fault(line, kind.head())),
        (true, Some(&Some(count))) if (1..=MOST_HOPS).contains(&count) => {
            hops = read_hops(line, kind.head(), count as usize, &mut faults);
        }
        // With a hop count out of range, nothing after it is read.
        (true, _) => {}
    }
    if !faults.is_empty() {
        return Err(faults);
    }
    let values: Vec<u64> = values.into_iter().flatten().collect();
    Ok(match kind.number {
        REGISTER => Order::Register(Flow {
            number: values[0],
            rate: values[1],
            burst: values[2],
            frame: values[3],
            deadline: values[4],
            hops,
        }),
        CHANGE => Order::Change(Change {
            number: values[0],
            rate: values[1],
            burst: values[2],
        }),
        _ => Order::Release(values[0]),
    })
}

/// The fields' numbers, each with its range judged; none where a field is malformed.
fn read_fields(fields: &[Field], line: &[u8], faults: &mut Vec<Fault>) -> Vec<Option<u64>> {
    let mut values = Vec::new();
    for field in fields {
        match field.read(line) {
            Ok(value) => {
                faults.extend(field.fault_of(value));
                values.push(Some(value));
            }
            Err(fault) => {
                faults.push(fault);
                values.push(None);
            }
        }
    }
    values
}

fn read_hops(line: &[u8], head: usize, count: usize, faults: &mut Vec<Fault>) -> Vec<Hop> {
    let mut hops = Vec::new();
    for hop in 0..count {
        let fields = HOP.map(|field| field.moved(head + HOP_COLUMNS * hop));
        let values = read_fields(&fields, line, faults);
        if let [Some(link), Some(level)] = values[..] {
            hops.push(Hop { link, level });
        }
    }
    faults.extend(long_fault(line, head + HOP_COLUMNS * count));
    hops
}

fn long_fault(line: &[u8], most: usize) -> Option<Fault> {
    (line.len() > most).then(|| Fault {
        column: most + 1,
        field: "",
        what: What::Long {
            columns: line.len(),
            most,
        },
    })
}

/// The order that a line gives, or code 10 or 11.
pub fn read_order(line: &Line) -> Result<Order, u64> {
    examine(line).map_err(|faults| code_of(&faults))
}

/// The code of a line with these faults.
pub fn code_of(faults: &[Fault]) -> u64 {
    match first_class(faults) {
        Some(Class::Columns) => causes::COLUMNS,
        _ => causes::RANGE,
    }
}

/// What a direct call is given: one line with its LF, and of the called kind.
pub fn read_call(kind: u64, bytes: &[u8]) -> Result<Order, u64> {
    let given = lines(bytes);
    let [line] = given.as_slice() else {
        return Err(causes::COLUMNS);
    };
    if !line.ended {
        return Err(causes::COLUMNS);
    }
    match KIND.read(line.bytes) {
        Err(_) => Err(causes::COLUMNS),
        Ok(other) if other != kind => Err(causes::RANGE),
        Ok(_) => read_order(line),
    }
}

/// Code 11's ranges.
pub fn flow_in_range(flow: &Flow) -> bool {
    let values = head_values(flow);
    let mut fields = REGISTRATION.iter().zip(values);
    fields.all(|(field, value)| field.fault_of(value).is_none())
}

/// A flow's numbers in the order of its fields.
fn head_values(flow: &Flow) -> [u64; 6] {
    let hops = flow.hops.len() as u64;
    [
        flow.number,
        flow.rate,
        flow.burst,
        flow.frame,
        flow.deadline,
        hops,
    ]
}

/// A flow's columns 3 onward, without LF.
pub fn write_flow(flow: &Flow) -> Vec<u8> {
    let mut columns = Vec::new();
    for (field, value) in REGISTRATION.iter().zip(head_values(flow)) {
        field.put(&mut columns, value);
    }
    for hop in &flow.hops {
        for (field, value) in HOP.iter().zip([hop.link, hop.level]) {
            field.put(&mut columns, value);
        }
    }
    columns
}

/// A registration's whole line with its LF.
pub fn write_registration(flow: &Flow) -> Vec<u8> {
    let mut line = Vec::new();
    put(&mut line, REGISTER, KIND.last);
    line.extend(write_flow(flow));
    line.push(b'\n');
    line
}

/// A release's whole line with its LF.
pub fn write_release(number: u64) -> Vec<u8> {
    write_line(RELEASE, &[(NUMBER, number)])
}

/// A change's whole line with its LF.
pub fn write_change(change: &Change) -> Vec<u8> {
    let Change {
        number,
        rate,
        burst,
    } = *change;
    write_line(CHANGE, &[(NUMBER, number), (RATE, rate), (BURST, burst)])
}

fn write_line(kind: u64, numbers: &[(Field, u64)]) -> Vec<u8> {
    let mut line = Vec::new();
    KIND.put(&mut line, kind);
    for (field, value) in numbers {
        field.put(&mut line, *value);
    }
    line.push(b'\n');
    line
}
