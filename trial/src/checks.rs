//! Checks: requests and responses to be held against each other, and what a run of calls has met of them.

use crate::blocks::{any_values, block, damage_bytes, free, misfilled};
use crate::counts::{named, names, place, place_among, unmet, Counts, PLACES};
use crate::pair::hex;
use crate::random::Random;
use std::fmt::{self, Display, Formatter};
use tools::layout::{Block, Values, HEADER};
use tools::sending::Sending;
use twin::{AXES, BLOCK_MAX};

/// A request block and a response block to be checked.
#[derive(Clone, Debug)]
pub struct Check {
    /// The request.
    pub request: Vec<u8>,
    /// The response.
    pub response: Vec<u8>,
    source: Source,
}

/// Where the two blocks come from.
#[derive(Clone, Debug, PartialEq, Eq)]
enum Source {
    /// From the station, which has worked the request and given the response, by two frames or by the merged call.
    Own(Sending),
    /// They were made up to fit, and then altered.
    Altered(Altered),
    /// Nothing is known of them.
    Free,
}

/// What was altered in blocks that fit.
#[derive(Clone, Debug, PartialEq, Eq)]
struct Altered {
    /// The checks that were made to fail, in their order.
    failing: Vec<u8>,
    /// Why request and response are not readable, if they are not.
    damages: [Option<Damage>; 2],
}

/// Why a block is not readable that would be.
#[derive(Clone, Copy, Debug, PartialEq, Eq)]
enum Damage {
    Cut,
    Behind,
    Header,
    Fill,
    Long,
}

const DAMAGES: [(Damage, &str); 5] = [
    (Damage::Cut, "cut"),
    (Damage::Behind, "a byte behind it"),
    (Damage::Header, "a byte of its header"),
    (Damage::Fill, "a fill byte"),
    (Damage::Long, "laid out right over 240 bytes"),
];
/// Checks that are wished to fail, 0 for none; the last cannot fail where no values are.
const WISHES: [u8; 12] = [0, 0, 0, 1, 2, 3, 4, 5, 6, 7, 7, 7];
/// Sizes of a response's values.
const SIZES: [(u8, usize); 3] = [(0x41, 1), (0x42, 2), (0x43, 4)];

impl Check {
    fn own(request: &[u8], response: &[u8], sending: Sending) -> Check {
        Check { request: request.to_vec(), response: response.to_vec(), source: Source::Own(sending) }
    }

    /// The answer, where it is known by how the blocks came about: the station's own pass.
    pub fn known(&self) -> Option<u8> {
        match &self.source {
            Source::Own(_) => Some(0),
            Source::Altered(Altered { failing, .. }) => Some(failing.first().copied().unwrap_or(0)),
            Source::Free => None,
        }
    }

    /// The blocks of a call of the checker: the station's last, or made up.
    pub fn make(random: &mut Random, own: &mut Own) -> Check {
        match random.below(20) {
            0..=5 => own.last.take().unwrap_or_else(|| Check::altered(random)),
            6..=14 => Check::altered(random),
            _ => Check::free(random),
        }
    }

    /// Blocks that fit but for none, one or two of the checks.
    fn altered(random: &mut Random) -> Check {
        let mut meant = Meant::fitting(random);
        if random.one_in(5) {
            meant.stretch(random);
        }
        let wished = [random.pick(&WISHES), random.pick(&WISHES)];
        let mut failing: Vec<u8> = (3..=7).filter(|n| wished.contains(n) && meant.fail(random, *n)).collect();
        let (request, request_damage) = bytes_of(random, &meant.asked, wished.contains(&1));
        let (response, response_damage) = bytes_of(random, &meant.answered, wished.contains(&2));
        let damages = [request_damage, response_damage];
        failing.extend((1..).zip(damages).filter(|(_, damage)| damage.is_some()).map(|(number, _)| number));
        failing.sort_unstable();
        Check { request, response, source: Source::Altered(Altered { failing, damages }) }
    }

    /// Any bytes in the place of one or both, or one of them damaged somewhere.
    fn free(random: &mut Random) -> Check {
        let Check { mut request, mut response, .. } = Check::altered(random);
        match random.below(6) {
            0 => request = free(random, block_header),
            1 => response = free(random, block_header),
            2 => (request, response) = (free(random, block_header), free(random, block_header)),
            3 => damage_bytes(random, &mut request),
            _ => damage_bytes(random, &mut response),
        }
        Check { request, response, source: Source::Free }
    }
}

impl Display for Check {
    fn fmt(&self, f: &mut Formatter) -> fmt::Result {
        let Check { request, response, source } = self;
        write!(f, "check of {source:?}\nrequest  {}\nresponse {}", hex(request), hex(response))
    }
}

fn block_header(random: &mut Random, _: usize) -> [u8; HEADER] {
    [random.byte(), random.pick(&[0x01, 0x02, 0x81, 0x82]), random.byte(), 1 + random.below(2) as u8]
}

/// The station's own responses, each with its request.
#[derive(Default)]
pub struct Own {
    /// Of each farm, the last request that was written and worked, and its response.
    written: [(Vec<u8>, Vec<u8>); AXES],
    /// The last that was answered and not yet checked.
    last: Option<Check>,
}

impl Own {
    /// The farm of this index has written this request, and this response now waits.
    pub fn written(&mut self, owner: usize, request: &[u8], response: &[u8]) {
        self.written[owner] = (request.to_vec(), response.to_vec());
    }

    /// The farm of this index has fetched this response, which is the station's own unless it was put in the part.
    pub fn fetched(&mut self, owner: usize, response: &[u8]) {
        let (request, written) = &self.written[owner];
        if written == response {
            self.last = Some(Check::own(request, response, Sending::Alone));
        }
    }

    /// This request was answered with this response by the merged call.
    pub fn merged(&mut self, request: &[u8], response: &[u8]) {
        self.last = Some(Check::own(request, response, Sending::Merged));
    }
}

/// A request and a response as they are meant.
struct Meant {
    asked: Block,
    answered: Block,
}

impl Meant {
    /// A readable request and a response of whatever drive that answers it.
    fn fitting(random: &mut Random) -> Meant {
        let axis = random.byte();
        let mut asked = block(random, axis).1;
        while Block::of_request(&asked.bytes()).is_none() {
            asked = block(random, axis).1;
        }
        let answered = answer(random, &asked);
        Meant { asked, answered }
    }

    /// Lengthens the values of a block until the whole ends at 240 bytes or near them. What is asked goes with it.
    fn stretch(&mut self, random: &mut Random) {
        let asks = random.one_in(2);
        let end: usize = random.pick(&[238, 239, 240, 241, 242, 242, 244, 260]);
        let block = if asks { &mut self.asked } else { &mut self.answered };
        let Some(at) = any_place(random, &block.values) else { return };
        let Values { format, size, .. } = block.values[at];
        let others = block.length() - block.values[at].length() + 2;
        let count = end.saturating_sub(others) / size;
        if !(1..256).contains(&count) {
            return;
        }
        block.values[at] = any_values(random, format, size, count);
        if !asks {
            self.asked.addresses[at].elements = count as u8;
        }
    }

    /// Alters a block so that a check from 3 on fails, and no other; not so where that cannot be.
    fn fail(&mut self, random: &mut Random, check: u8) -> bool {
        let Block { reference, axis, .. } = &mut self.answered;
        match check {
            3 => *reference = ((usize::from(*reference) + random.below(254)) % 255 + 1) as u8,
            4 => *axis ^= 1 + random.below(255) as u8,
            5 => return self.fail_number(random),
            6 => return self.fail_identifier(random),
            _ => return self.fail_count(random),
        }
        true
    }

    /// An address or a block more or fewer.
    fn fail_number(&mut self, random: &mut Random) -> bool {
        let step = if random.one_in(2) { one_more } else { one_fewer };
        if random.one_in(2) {
            return alter(&mut self.asked, Block::of_request, step);
        }
        alter(&mut self.answered, Block::of_response, step)
    }

    /// A change of the same addresses for a request, or the other way round.
    fn fail_identifier(&mut self, random: &mut Random) -> bool {
        let (format, size) = random.pick(&SIZES);
        alter(&mut self.asked, Block::of_request, |block| {
            block.identifier ^= 0x01 ^ 0x02;
            block.values.clear();
            if block.identifier == 0x02 {
                block.values.extend(block.addresses.iter().map(|_| any_values(random, format, size, 1)));
            }
        })
    }

    /// Another number of values in one block, or of elements in its address.
    fn fail_count(&mut self, random: &mut Random) -> bool {
        let both = self.asked.addresses.len().min(self.answered.values.len());
        let Some(at) = any_place(random, &self.answered.values[..both]) else { return false };
        let Values { format, size, .. } = self.answered.values[at];
        let count = self.answered.values[at].values.len();
        let mut others = vec![0, 1, count - 1, count + 1, count + 1, 255];
        others.retain(|other| *other.max(&1) != count);
        let other = random.pick(&others);
        if random.one_in(2) {
            self.asked.addresses[at].elements = other as u8;
            return true;
        }
        let values = any_values(random, format, size, other);
        alter(&mut self.answered, Block::of_response, |block| block.values[at] = values)
    }
}

/// Alters a block where it stays readable. One that is too long stays as it is.
fn alter(block: &mut Block, read: fn(&[u8]) -> Option<Block>, alteration: impl FnOnce(&mut Block)) -> bool {
    let mut altered = block.clone();
    alteration(&mut altered);
    let readable = block.length() <= BLOCK_MAX && read(&altered.bytes()).is_some();
    if readable {
        *block = altered;
    }
    readable
}

fn one_more(block: &mut Block) {
    block.count += 1;
    block.addresses.extend(block.addresses.last().copied());
    block.values.extend(block.values.last().cloned());
}

fn one_fewer(block: &mut Block) {
    block.count -= 1;
    block.addresses.pop();
    block.values.pop();
}

/// Where any one of those stands that hold values, if one does.
fn any_place(random: &mut Random, blocks: &[Values]) -> Option<usize> {
    let places: Vec<usize> = (0..blocks.len()).filter(|at| blocks[*at].holds_values()).collect();
    (!places.is_empty()).then(|| random.pick(&places))
}

/// A response that answers a request: for each address so many values as it asks, or an error, also where they have no room.
fn answer(random: &mut Random, asked: &Block) -> Block {
    let mut answered = Block { addresses: Vec::new(), values: Vec::new(), ..asked.clone() };
    let fails = random.one_in(2);
    for (later, address) in (0..asked.addresses.len()).rev().zip(&asked.addresses) {
        let (format, size) = random.pick(&SIZES);
        let error = Values::error(random.word());
        let values = match asked.identifier {
            0x01 => any_values(random, format, size, address.elements.max(1).into()),
            _ => Values::zero(),
        };
        let fits = answered.length() + values.length() + later * error.length() <= BLOCK_MAX;
        answered.values.push(if fits && !(fails && random.one_in(3)) { values } else { error });
    }
    if answered.values.iter().any(Values::is_error) {
        answered.identifier |= 0x80;
    } else if answered.identifier == 0x02 {
        answered.values.clear();
    }
    answered
}

/// The bytes of a block, and why they are not readable: it is too long, or was to be damaged.
fn bytes_of(random: &mut Random, block: &Block, unreadable: bool) -> (Vec<u8>, Option<Damage>) {
    let mut bytes = block.bytes();
    let damage = match random.below(4) {
        _ if bytes.len() > BLOCK_MAX => Damage::Long,
        _ if !unreadable => return (bytes, None),
        0 | 1 if !block.byte_blocks().is_empty() => Damage::Fill,
        0 => Damage::Behind,
        1 | 2 => Damage::Header,
        _ => Damage::Cut,
    };
    let (any, length) = (random.byte(), random.below(bytes.len()));
    match damage {
        Damage::Cut => bytes.truncate(random.pick(&[length, bytes.len() - 1])),
        Damage::Behind => bytes.push(random.pick(&[0, any])),
        Damage::Header => {
            let (at, byte) = random.pick(&[(0, 0), (1, bytes[1] ^ 0x80), (1, 0x03), (3, 0), (3, 40)]);
            bytes[at] = byte;
        }
        Damage::Fill => bytes = misfilled(random, block),
        Damage::Long => {}
    }
    (bytes, Some(damage))
}

/// Answers of a check.
const NUMBERS: [u8; 8] = [0, 1, 2, 3, 4, 5, 6, 7];
/// Checks that were made to fail: one alone, or two by the digits of both.
const FAILING: [u8; 28] =
    [1, 2, 3, 4, 5, 6, 7, 12, 13, 14, 15, 16, 17, 23, 24, 25, 26, 27, 34, 35, 36, 37, 45, 46, 47, 56, 57, 67];
const OWN: [(Sending, &str); 2] = [(Sending::Alone, "write and fetch"), (Sending::Merged, "merged call")];
const BLOCKS: [&str; 2] = ["request", "response"];
/// Identifiers of a request and a response.
const MATCHING: [([u8; 2], &str); 4] =
    [([0x01, 0x01], "01 01"), ([0x01, 0x81], "01 81"), ([0x02, 0x02], "02 02"), ([0x02, 0x82], "02 82")];
const MISMATCHED: [([u8; 2], &str); 4] =
    [([0x01, 0x02], "01 02"), ([0x01, 0x82], "01 82"), ([0x02, 0x01], "02 01"), ([0x02, 0x81], "02 81")];
/// What else there is to meet where both blocks are readable.
const MET: [&str; 11] = [
    "1 value for 0 elements passes",
    "more for 0 elements fail",
    "an error beside values that pass",
    "an error beside a count that fails",
    "an error for more than one element",
    "40 00 passes",
    "request of 240 bytes",
    "response of 240 bytes",
    "fill byte in a request",
    "fill byte in a response",
    "axis of no farm passes",
];

/// The counts of a run.
#[derive(Default)]
pub struct Checks {
    numbers: Counts,
    failing: Counts,
    own: [u64; OWN.len()],
    /// Of requests and of responses.
    damages: [[u64; DAMAGES.len()]; 2],
    matching: [u64; MATCHING.len()],
    mismatched: [u64; MISMATCHED.len()],
    /// Of the first block that fails check 7.
    places: [u64; PLACES.len()],
    met: [u64; MET.len()],
}

impl Checks {
    /// A check was answered with this number.
    pub fn count(&mut self, check: &Check, number: u8) {
        self.numbers.add(number);
        match &check.source {
            Source::Own(sending) => self.own[place(*sending, &OWN)] += 1,
            Source::Altered(altered) => self.count_altered(altered),
            Source::Free => {}
        }
        match number {
            0 => self.matching[place(identifiers(check), &MATCHING)] += 1,
            6 => self.mismatched[place(identifiers(check), &MISMATCHED)] += 1,
            _ => {}
        }
        // No others: the twin leaves a response unread whose request is none, and to read it here would count as reached.
        if let 0 | 7 = number {
            self.count_read(check, number);
        }
    }

    fn count_altered(&mut self, Altered { failing, damages }: &Altered) {
        match failing[..] {
            [alone] => self.failing.add(alone),
            [first, second] => self.failing.add(10 * first + second),
            _ => {}
        }
        for (counts, damage) in self.damages.iter_mut().zip(damages) {
            if let (Some(damage), [_]) = (damage, &failing[..]) {
                counts[place(*damage, &DAMAGES)] += 1;
            }
        }
    }

    /// A check that passed, or that failed by a count alone.
    fn count_read(&mut self, check: &Check, number: u8) {
        let (request, response) = (Block::of_request(&check.request), Block::of_response(&check.response));
        let (asked, answered) = request.zip(response).expect("both were readable");
        if let Some(at) = asked.first_miscounted(&answered) {
            self.places[place_among(at, answered.values.len())] += 1;
        }
        for (count, met) in self.met.iter_mut().zip(met(&asked, &answered, number == 0)) {
            *count += u64::from(met);
        }
    }

    /// What no check has met.
    pub fn missing(&self) -> Vec<String> {
        let mut missing: Vec<String> = self.numbers.unmet(&NUMBERS).map(|number| format!("number {number}")).collect();
        missing.extend(self.failing.unmet(&FAILING).map(|numbers| format!("made to fail: {numbers}")));
        missing.extend(unmet(&self.own, &names(&OWN)).map(|name| format!("own response by {name}")));
        for (counts, block) in self.damages.iter().zip(BLOCKS) {
            missing.extend(unmet(counts, &names(&DAMAGES)).map(|name| format!("unreadable {block}: {name}")));
        }
        missing.extend(unmet(&self.matching, &names(&MATCHING)).map(|name| format!("identifiers {name} pass")));
        missing.extend(unmet(&self.mismatched, &names(&MISMATCHED)).map(|name| format!("identifiers {name} fail")));
        missing.extend(unmet(&self.places, &PLACES).map(|name| format!("number 7 by a block: {name}")));
        missing.extend(unmet(&self.met, &MET).map(String::from));
        missing.iter().map(|what| format!("check: {what}")).collect()
    }
}

impl Display for Checks {
    fn fmt(&self, f: &mut Formatter) -> fmt::Result {
        let [requests, responses] = self.damages.map(|counts| named(&counts, &names(&DAMAGES)));
        let (matching, mismatched) =
            (named(&self.matching, &names(&MATCHING)), named(&self.mismatched, &names(&MISMATCHED)));
        writeln!(f, "checks     by number (0 yes): {}", self.numbers.list(&NUMBERS))?;
        writeln!(f, "           own responses: {}", named(&self.own, &names(&OWN)))?;
        writeln!(f, "           made to fail, alone or two: {}", self.failing.list(&FAILING))?;
        writeln!(f, "           unreadable requests: {requests}\n           unreadable responses: {responses}")?;
        writeln!(f, "           identifiers that pass: {matching}; that fail: {mismatched}")?;
        writeln!(f, "           number 7 by a block: {}", named(&self.places, &PLACES))?;
        writeln!(f, "           {}", named(&self.met, &MET))
    }
}

fn identifiers(check: &Check) -> [u8; 2] {
    [check.request[1], check.response[1]]
}

fn met(asked: &Block, answered: &Block, passes: bool) -> [bool; MET.len()] {
    let any = |met: fn(u8, &Values) -> bool| {
        let mut both = asked.addresses.iter().zip(&answered.values);
        both.any(|(address, item)| met(address.elements, item))
    };
    [
        passes && any(|elements, item| elements == 0 && item.holds_values()),
        !passes && any(|elements, item| elements == 0 && item.values.len() > 1),
        passes && any(|_, item| item.is_error()) && any(|_, item| item.holds_values()),
        !passes && any(|_, item| item.is_error()),
        passes && any(|elements, item| elements > 1 && item.is_error()),
        passes && any(|_, item| *item == Values::zero()),
        passes && asked.length() == BLOCK_MAX,
        passes && answered.length() == BLOCK_MAX,
        passes && asked.is_filled(),
        passes && answered.is_filled(),
        passes && !(1..=AXES).contains(&asked.axis.into()),
    ]
}

#[cfg(test)]
mod tests {
    use super::*;
    use twin::Station;

    /// The checks that fail between two readable blocks, by what these mean.
    fn failures(Meant { asked, answered }: &Meant) -> Vec<u8> {
        let fails = [
            asked.reference != answered.reference,
            asked.axis != answered.axis,
            asked.count != answered.count,
            asked.identifier != answered.identifier & 0x7F,
            asked.first_miscounted(answered).is_some(),
        ];
        (3..).zip(fails).filter(|(_, fails)| *fails).map(|(check, _)| check).collect()
    }

    #[test]
    fn blocks_fail_by_what_was_altered_alone() {
        let mut random = Random::new(4);
        let mut made = [0; 32];
        for round in 0..32 * 400 {
            let mut meant = Meant::fitting(&mut random);
            assert_eq!(failures(&meant), []);
            let wished = round % 32;
            let failing: Vec<u8> =
                (3..=7).filter(|n| wished >> (n - 3) & 1 == 1 && meant.fail(&mut random, *n)).collect();
            assert_eq!(failures(&meant), failing);
            let (request, response) = (meant.asked.bytes(), meant.answered.bytes());
            assert_eq!(twin::check(&request, &response), failing.first().copied().unwrap_or(0));
            made[failing.iter().map(|n| 1 << (n - 3)).sum::<usize>()] += 1;
        }
        assert!(made.iter().all(|times| *times > 20), "{made:?}");
    }

    #[test]
    fn every_check_is_made_to_fail() {
        let (mut random, mut checks, mut own) = (Random::new(5), Checks::default(), Own::default());
        for _ in 0..20_000 {
            let check = Check::make(&mut random, &mut own);
            let number = twin::check(&check.request, &check.response);
            assert_eq!(number, check.known().unwrap_or(number), "{check}");
            checks.count(&check, number);
        }
        assert_eq!(checks.missing(), ["check: own response by write and fetch", "check: own response by merged call"]);
    }

    #[test]
    fn a_response_that_is_not_the_stations_own() {
        let mut own = Own::default();
        own.written(1, &[1], &[2]);
        own.fetched(0, &[2]);
        own.fetched(1, &[3]);
        assert!(own.last.is_none(), "another farm's, and one that was put in");
        own.fetched(1, &[2]);
        let check = own.last.take().expect("the station's own");
        assert_eq!((check.request, check.response, check.source), (vec![1], vec![2], Source::Own(Sending::Alone)));
    }

    #[test]
    fn what_a_check_of_an_own_response_counts() {
        let (mut station, mut own, mut checks) = (Station::fresh(), Own::default(), Checks::default());
        // 965 without a number of elements, which is an error, and one element of it, which has a fill byte.
        let request = [7, 1, 2, 2, 0x10, 0, 0x03, 0xC5, 0, 0, 0x10, 1, 0x03, 0xC5, 0, 0];
        let mut reply = [0; 244];
        let framed = station.exchange(2, &crate::blocks::framed(&request), &mut reply);
        own.merged(&request, &reply[HEADER..framed.length.into()]);
        let check = own.last.take().expect("the merged call's");
        checks.count(&check, twin::check(&check.request, &check.response));
        assert_eq!((checks.own, checks.matching), ([0, 1], [0, 1, 0, 0]));
        assert_eq!(checks.met, [0, 0, 1, 0, 0, 0, 0, 0, 0, 1, 0]);
    }

    /// A check of a request of these numbers of elements and a response of these numbers of words.
    fn counting(elements: &[u8], words: &[usize]) -> Check {
        let mut request = vec![7, 1, 2, elements.len() as u8];
        elements.iter().for_each(|elements| request.extend([0x10, *elements, 0x75, 0x31, 0, 0]));
        let mut response = vec![7, 1, 2, words.len() as u8];
        words.iter().for_each(|words| response.extend(any_values(&mut Random::new(6), 0x42, 2, *words).bytes()));
        Check { request, response, source: Source::Free }
    }

    #[test]
    fn where_a_count_fails() {
        let mut checks = Checks::default();
        for (place, (elements, words)) in
            [(&[0][..], &[2][..]), (&[2, 1], &[1, 1]), (&[1, 2, 1], &[1, 1, 3]), (&[0, 2], &[1, 1])].iter().enumerate()
        {
            let check = counting(elements, words);
            assert_eq!(twin::check(&check.request, &check.response), 7, "{check}");
            checks.count(&check, 7);
            assert_eq!(checks.places[place], 1, "{check}");
        }
        assert_eq!((checks.places, checks.met), ([1; PLACES.len()], [0, 1, 0, 0, 0, 0, 0, 0, 0, 0, 0]));
        checks.count(&counting(&[0, 2], &[1, 2]), 0);
        assert_eq!((checks.places, checks.met), ([1; PLACES.len()], [1, 1, 0, 0, 0, 0, 0, 0, 0, 0, 0]));
    }
}
