//! The inputs that are measured, one row of the table each.

use twin::KEPT;

/// The inputs of one control cycle.
#[derive(Clone, Copy)]
pub struct Cycle {
    pub axis: u32,
    pub flags: u32,
    pub stw1: u16,
    pub nsoll: i16,
    pub nist: i16,
    pub fault: u16,
}

/// An exchange is the merged call; a check is of blocks, not of frames. A going back names the version as the first pass has it:
/// the numbers of the versions rise, so each later pass goes back to one that is as much later as the passes before it took.
pub enum Call {
    Cycle(Cycle),
    Frame { farm: u32, frame: Vec<u8> },
    Exchange { farm: u32, frame: Vec<u8> },
    Versions { farm: u32 },
    GoBack { farm: u32, version: u32 },
    Check { request: Vec<u8>, response: Vec<u8> },
}

impl Call {
    /// Whether it takes a version, where it is done and stores something.
    fn changes(&self) -> bool {
        match self {
            Call::Frame { frame, .. } | Call::Exchange { frame, .. } => frame[0] == WRITE && frame[5] == CHANGE,
            Call::GoBack { .. } => true,
            Call::Cycle(_) | Call::Versions { .. } | Call::Check { .. } => false,
        }
    }
}

/// One row. `calls` end where they began, but for the numbers of the versions, so that they can be made again and again.
pub struct Row {
    pub name: String,
    /// Made once, before the calls.
    pub start: Vec<Call>,
    pub calls: Vec<Call>,
    /// How many of what the row counts the calls are: a write and its fetch are two calls and one.
    pub units: usize,
    /// Addresses read, for the line on growth.
    pub addresses: Option<usize>,
    /// The number that each call answers.
    pub number: u8,
}

impl Row {
    /// Versions that a pass over the calls takes.
    pub fn versions(&self) -> usize {
        self.calls.iter().filter(|call| self.number == 0 && call.changes()).count()
    }

    /// The most passes over the calls from their start on, before the numbers of the versions are used up.
    pub fn most_passes(&self) -> usize {
        let left = usize::from(u16::MAX) - self.start.len();
        left.checked_div(self.versions()).unwrap_or(usize::MAX)
    }
}

/// Requests of farm 1, each a block. Written and fetched they are one row, by the merged call another, checked a third.
struct Requests {
    what: String,
    blocks: Vec<Vec<u8>>,
    addresses: Option<usize>,
}

/// Which requests are sent by the merged call too, which may cost no more than the write and the fetch.
pub const MERGED: [&str; 4] = ["1 read", "39 read", "1 element changed", "18 elements changed"];
/// Which requests are checked with a response.
const CHECKED: [&str; 3] = ["1 read", "39 read", "18 elements changed"];

const STANDSTILL: u32 = 1;
/// The first byte of a write frame, and the second of a block that changes.
const WRITE: u8 = 0x5F;
const CHANGE: u8 = 0x02;
/// The most parameters of a request: 4 + 39 * 6 = 238 bytes, and document 01 allows no more.
const MOST_ADDRESSES: usize = 39;

pub fn rows() -> Vec<Row> {
    let mut requests = Vec::from([1, 10, 20, MOST_ADDRESSES].map(read));
    requests.extend([change("1 element changed", one_element), change("18 elements changed", all_elements)]);
    let mut rows = vec![operation(), walk()];
    rows.extend(requests.iter().map(Requests::written_and_fetched));
    rows.extend(requests.iter().filter(|of| MERGED.contains(&of.what.as_str())).map(Requests::merged));
    rows.extend([denied(), list(), going_back()]);
    rows.extend(requests.iter().filter(|of| CHECKED.contains(&of.what.as_str())).map(Requests::checked));
    rows.push(mistaken());
    rows
}

/// The name of the row that writes and fetches.
pub fn in_two_calls(what: &str) -> String {
    format!("write and fetch, {what}")
}

/// The name of the row of merged calls.
pub fn in_one_call(what: &str) -> String {
    format!("merged call, {what}")
}

fn cycle(flags: u32, stw1: u16, nsoll: i16, nist: i16, fault: u16) -> Call {
    Call::Cycle(Cycle { axis: 1, flags, stw1, nsoll, nist, fault })
}

/// The everyday cycle: an axis in S4 whose setpoint changes and whose speed follows.
fn operation() -> Row {
    let start = [0x047E, 0x047F, 0x047F].map(|word| cycle(0, word, 0, 0, 0));
    let calls: Vec<Call> = (0..16).map(|i| cycle(0, 0x047F, 8000 + 25 * i, 8000 + 24 * i, 0)).collect();
    Row {
        name: "cycle in operation".into(),
        start: start.into(),
        units: calls.len(),
        calls,
        addresses: None,
        number: 0,
    }
}

/// S1 S2 S3 S4 S51 S4 S52 S1, on again to S4, a fault (S1), its acknowledgement (S2), S3, S4, a cycle whose bit 10 is 0 (S4 held),
/// and off by bit 1 to S1.
fn walk() -> Row {
    let calls = vec![
        cycle(0, 0x047E, 0, 0, 0),
        cycle(0, 0x047F, 0, 0, 0),
        cycle(0, 0x047F, 8192, 0, 0),
        cycle(0, 0x047E, 8192, 8000, 0),
        cycle(0, 0x047F, 8192, 4000, 0),
        cycle(0, 0x047B, 8192, 8000, 0),
        cycle(STANDSTILL, 0x047B, 0, 0, 0),
        cycle(0, 0x047E, 0, 0, 0),
        cycle(0, 0x047F, 0, 0, 0),
        cycle(0, 0x047F, -8192, -100, 0),
        cycle(0, 0x047F, -8192, -8000, 0x0107),
        cycle(0, 0x04FE, 0, -10, 0),
        cycle(0, 0x047F, 0, 0, 0),
        cycle(0, 0x047F, 16384, 100, 0),
        cycle(0, 0x0000, 0, 16000, 0),
        cycle(0, 0x047D, 0, 16000, 0),
    ];
    let name = "cycle, walk through the states".into();
    Row { name, start: vec![], units: calls.len(), calls, addresses: None, number: 0 }
}

fn write(block: &[u8]) -> Vec<u8> {
    let mut frame = vec![WRITE, 0x00, 0x2F, u8::try_from(block.len()).expect("a block has at most 240 bytes")];
    frame.extend(block);
    frame
}

fn fetch() -> Vec<u8> {
    vec![0x5E, 0x00, 0x2F, 0xF0]
}

impl Requests {
    /// The row of this name, where these calls are made of a block.
    fn row(&self, name: String, calls: fn(&[u8]) -> Vec<Call>) -> Row {
        let calls = self.blocks.iter().flat_map(|block| calls(block)).collect();
        Row { name, start: vec![], calls, units: self.blocks.len(), addresses: None, number: 0 }
    }

    fn written_and_fetched(&self) -> Row {
        let calls = |block: &[u8]| [write(block), fetch()].map(|frame| Call::Frame { farm: 1, frame }).into();
        Row { addresses: self.addresses, ..self.row(in_two_calls(&self.what), calls) }
    }

    fn merged(&self) -> Row {
        self.row(in_one_call(&self.what), |block| vec![Call::Exchange { farm: 1, frame: write(block) }])
    }

    fn checked(&self) -> Row {
        let calls = |block: &[u8]| vec![Call::Check { request: block.into(), response: done(block) }];
        self.row(format!("check, {}", self.what), calls)
    }
}

/// The response to a block of which all was done: a word for each address read, and nothing for a change.
fn done(block: &[u8]) -> Vec<u8> {
    let mut response = block[..4].to_vec();
    if block[1] == 0x01 {
        response.extend([0x42, 1, 0x03, 0xE8].repeat(block[3].into()));
    }
    response
}

fn address(pnu: u16, first: u16, elements: u8) -> Vec<u8> {
    let mut bytes = vec![0x10, elements];
    bytes.extend(pnu.to_be_bytes());
    bytes.extend(first.to_be_bytes());
    bytes
}

/// Each address names one element; they go through all parameters in turn and, in an array, through its elements.
fn read(addresses: usize) -> Requests {
    const PARAMETERS: [(u16, u16); 15] = [
        (10102, 1),
        (10103, 1),
        (10111, 1),
        (30001, 4),
        (30002, 1),
        (30003, 1),
        (30004, 2),
        (930, 1),
        (944, 1),
        (947, 32),
        (965, 2),
        (9900, 1),
        (9901, 8),
        (10100, 1),
        (10101, 1),
    ];
    let mut block = vec![0x07, 0x01, 0x01, addresses as u8];
    for i in 0..addresses {
        let (pnu, elements) = PARAMETERS[i % PARAMETERS.len()];
        block.extend(address(pnu, (i / PARAMETERS.len()) as u16 % elements, 1));
    }
    Requests { what: format!("{addresses} read"), blocks: vec![block], addresses: Some(addresses) }
}

/// Two changes in turn, so that each stores other values than stand there.
fn change(what: &str, block: fn(u8) -> Vec<u8>) -> Requests {
    Requests { what: what.into(), blocks: [1, 2].map(block).into(), addresses: None }
}

/// One level mark.
fn one_element(low: u8) -> Vec<u8> {
    let mut block = vec![0x07, 0x02, 0x01, 1];
    block.extend(address(30001, 0, 1));
    block.extend([0x42, 1, 0x03, low]);
    block
}

/// Every element that can be written: 18, of seven parameters.
fn all_elements(low: u8) -> Vec<u8> {
    const WRITABLE: [(u16, u8, u8); 7] =
        [(9900, 1, 2), (9901, 8, 2), (10111, 1, 2), (30001, 4, 2), (30002, 1, 2), (30003, 1, 2), (30004, 2, 4)];
    let mut block = vec![0x07, 0x02, 0x01, WRITABLE.len() as u8];
    for (pnu, elements, _) in WRITABLE {
        block.extend(address(pnu, 0, elements));
    }
    for (_, elements, size) in WRITABLE {
        block.extend([if size == 4 { 0x43 } else { 0x42 }, elements]);
        for i in 0..elements {
            block.extend([0; 3].iter().take(usize::from(size) - 1));
            block.push(16 * low + i);
        }
    }
    block
}

/// Farm 2 names farm 1's axis: document 01's denied frame, number 11.
fn denied() -> Row {
    let block = [0x07, 0x02, 0x01, 0x01, 0x10, 0x02, 0x75, 0x31, 0x00, 0x00, 0x42, 0x02, 0x03, 0xE8, 0x0B, 0xB9];
    let name = "frame denied (another farm's axis)".into();
    let calls = vec![Call::Frame { farm: 2, frame: write(&block) }];
    Row { name, start: vec![], calls, units: 1, addresses: None, number: 11 }
}

/// Changes of every element, so many that all the versions which are kept are full.
fn versions_full() -> Vec<Call> {
    let changed = |nth| Call::Exchange { farm: 1, frame: write(&all_elements(1 + (nth % 15) as u8)) };
    (0..KEPT).map(changed).collect()
}

/// What is kept, when nothing more fits.
fn list() -> Row {
    let name = "list of 16 versions".into();
    Row { name, start: versions_full(), calls: vec![Call::Versions { farm: 1 }], units: 1, addresses: None, number: 0 }
}

/// Back to the oldest version, in whose slot the new one is then kept.
fn going_back() -> Row {
    let name = "going back to the oldest of 16".into();
    let calls = vec![Call::GoBack { farm: 1, version: 1 }];
    Row { name, start: versions_full(), calls, units: 1, addresses: None, number: 0 }
}

/// A response that is right in all but its reference, number 3: both blocks are read to their end, and no count is compared.
fn mistaken() -> Row {
    let calls = |block: &[u8]| {
        let mut response = done(block);
        response[0] += 1;
        vec![Call::Check { request: block.into(), response }]
    };
    Row { number: 3, ..read(MOST_ADDRESSES).row("check, 39 read, another reference".into(), calls) }
}
