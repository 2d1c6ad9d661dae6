//! Random runs: the station stays well-formed, refusals change nothing, other parts are untouched, accepted blocks are of
//! even length; every address of a change is stored whole or not at all; the merged call is the two calls in turn; the
//! versions are the last 16 of all that were taken; the season report is what the replay's lines tell.

use super::{back, cycle, hex, keep_version, record, send_merged, write_and_fetch, write_frame, UNTOUCHED};
use crate::record::FRAME_MAX;
use crate::{
    parse_request, parse_response, replay, report, well_formed, Axis, Counts, Framed, Item, Listed, ResponseKind,
    Returned, Settings, State, Station, Totals, Values, AXES, COUNTS,
};

/// A small generator of its own (xorshift64*).
pub struct Random(pub u64);

impl Random {
    fn next(&mut self) -> u64 {
        self.0 ^= self.0 >> 12;
        self.0 ^= self.0 << 25;
        self.0 ^= self.0 >> 27;
        self.0.wrapping_mul(0x2545_F491_4F6C_DD1D) >> 16
    }

    pub fn below(&mut self, limit: u64) -> u64 {
        self.next() % limit
    }

    fn pick<T: Copy>(&mut self, values: &[T]) -> T {
        values[self.below(values.len() as u64) as usize]
    }

    fn one_in(&mut self, times: u64) -> bool {
        self.below(times) == 0
    }
}

const PNUS: [u16; 17] =
    [930, 944, 947, 965, 9900, 9901, 10100, 10101, 10102, 10103, 10111, 30001, 30002, 30003, 30004, 0, 931];

pub fn random_block(random: &mut Random, axis: u8) -> Vec<u8> {
    let change = random.one_in(2);
    let most = if random.one_in(4) { 40 } else { 5 };
    let count = 1 + random.below(most) as u8;
    let mut block = vec![1 + random.below(255) as u8, 1 + u8::from(change), axis, count];
    for _ in 0..count {
        block.push(if random.one_in(10) { random.next() as u8 } else { 0x10 });
        block.push(random.pick(&[0, 1, 1, 1, 2, 4, 8, 32]));
        block.extend(random.pick(&PNUS).to_be_bytes());
        block.extend([0, random.pick(&[0, 0, 0, 1, 2, 31])]);
    }
    for _ in 0..if change { count } else { 0 } {
        let byte = random.pick(&[0x41, 2, 5]);
        let (format, size) = random.pick(&[(byte, 1), (0x42, 2), (6, 2), (0x43, 4), (4, 4)]);
        let values = random.pick(&[0, 1, 1, 1, 2, 3, 4]);
        block.extend([format, values]);
        for _ in 0..values {
            let value = random.pick(&[0, 1, 3000, 3001, 16384, 60000, 65535, 100_000, 100_001, u32::MAX]);
            block.extend(&value.to_be_bytes()[4 - size..]);
        }
        if size == 1 && values % 2 == 1 && !random.one_in(50) {
            block.push(if random.one_in(50) { random.next() as u8 } else { 0 });
        }
    }
    block
}

fn random_frame(random: &mut Random, axis: u8) -> Vec<u8> {
    if random.one_in(2) {
        return vec![0x5E, 0, 47, random.pick(&[0xF0, 0xF0, 0xF0, 8, 0xFF])];
    }
    let own = if random.one_in(20) { random.next() as u8 } else { axis };
    let block = random_block(random, own);
    let mut frame = vec![0x5F, 0, 47, block.len() as u8];
    frame.extend(block);
    if random.one_in(10) {
        let at = random.below(frame.len() as u64) as usize;
        frame[at] = random.next() as u8;
    }
    frame
}

fn odd_bytes(values: &Values) -> bool {
    values.bytes.len() % 2 == 1
}

#[test]
fn random_frames() {
    let mut random = Random(0x1234_5678_9ABC_DEF1);
    let mut station = Station::fresh();
    let mut seen = [0u32; 13];
    let [mut filled_requests, mut filled_responses] = [0u32; 2];
    for _ in 0..60_000 {
        let farm = 1 + random.below(16) as u32;
        let index = farm as usize - 1;
        let frame = random_frame(&mut random, farm as u8);
        let before = station.clone();
        let mut reply = [UNTOUCHED; 250];
        let framed = station.frame(farm, &frame, &mut reply);
        seen[usize::from(framed.number)] += 1;
        assert!(reply[framed.length.into()..].iter().all(|byte| *byte == UNTOUCHED));
        assert!(well_formed(&station.axes[index], farm as u8));
        assert!((0..16).all(|other| other == index || station.axes[other] == before.axes[other]));
        if framed.number != 0 {
            assert!(station == before && framed.stored == 0);
            assert!(framed.number > 4 || framed.length == 0);
        } else if frame[0] == 0x5F {
            let request = parse_request(&frame[4..]).unwrap();
            let waiting = station.axes[index].waiting.as_ref().unwrap();
            let response = parse_response(waiting.block().unwrap()).unwrap();
            assert_eq!((request.reference, request.count), (response.reference, response.count));
            let items = if response.kind == ResponseKind::Changed { 0 } else { usize::from(request.count) };
            assert_eq!(response.items().count(), items);
            assert_eq!((frame.len() % 2, waiting.length % 2), (0, 0), "fill bytes keep both at even length");
            filled_requests += u32::from(request.values().any(|values| odd_bytes(&values)));
            filled_responses +=
                u32::from(response.items().any(|item| matches!(item, Item::Values(values) if odd_bytes(&values))));
        }
    }
    assert!(filled_requests > 100 && filled_responses > 100, "{filled_requests} {filled_responses}");
    assert!([0, 7, 8, 9, 10, 11].iter().all(|number| seen[*number] > 20), "{seen:?}");
}

/// Some elements of an array, and a value for each that is seldom outside its limits.
struct Elements {
    pnu: u16,
    first: usize,
    values: Vec<i32>,
    /// Whether all values are inside the limits.
    inside: bool,
}

/// Elements of the marks or of the offsets.
fn random_elements(random: &mut Random) -> Elements {
    let (pnu, length, low, high) = random.pick(&[(30001, 4, 0, 3000), (30004, 2, -100_000, 100_000)]);
    let first = random.below(length);
    let count = 1 + random.below(length - first);
    let bad: Vec<bool> = (0..count).map(|_| random.one_in(6)).collect();
    let value = |bad: &bool| if *bad { random.pick(&[low - 1, high + 1]) } else { random.pick(&[low, 7, high]) };
    Elements { pnu, first: first as usize, values: bad.iter().map(value).collect(), inside: !bad.contains(&true) }
}

impl Elements {
    fn address(&self) -> Vec<u8> {
        let [high, low] = self.pnu.to_be_bytes();
        vec![0x10, self.values.len() as u8, high, low, 0, self.first as u8]
    }

    fn value_block(&self) -> Vec<u8> {
        let (format, size) = if self.pnu == 30001 { (0x42, 2) } else { (0x43, 4) };
        let values = self.values.iter().flat_map(|value| value.to_be_bytes()[4 - size..].to_vec());
        [format, self.values.len() as u8].into_iter().chain(values).collect()
    }

    /// Stores all of them.
    fn store(&self, part: &mut Axis) {
        for (element, value) in (self.first..).zip(&self.values) {
            match self.pnu {
                30001 => part.settings.p30001[element] = *value as u16,
                _ => part.settings.p30004[element] = *value,
            }
        }
    }
}

/// What a change of these answers, and the elements stored; the part gets those of every address that is inside.
fn stored_whole(part: &mut Axis, sent: &[Elements]) -> (u16, Vec<u8>) {
    let inside = || sent.iter().filter(|elements| elements.inside);
    inside().for_each(|elements| elements.store(part));
    let stored = inside().map(|elements| elements.values.len() as u16).sum();
    if inside().count() == sent.len() {
        return (stored, vec![1, 0x02, 1, sent.len() as u8]);
    }
    let block = |elements: &Elements| hex(if elements.inside { "40 00" } else { "44 01 00 02" });
    (stored, [1, 0x82, 1, sent.len() as u8].into_iter().chain(sent.iter().flat_map(block)).collect())
}

#[test]
fn random_changes() {
    let mut random = Random(0x0A11_0240_7E1D_0006);
    let mut station = Station::fresh();
    let mut seen = [0u32; 2];
    for _ in 0..20_000 {
        let count = 1 + random.below(6) as u8;
        let sent: Vec<Elements> = (0..count).map(|_| random_elements(&mut random)).collect();
        let addresses = sent.iter().flat_map(Elements::address);
        let values = sent.iter().flat_map(Elements::value_block);
        let block: Vec<u8> = [1, 2, 1, count].into_iter().chain(addresses).chain(values).collect();
        let mut expected = station.clone();
        let answer = stored_whole(&mut expected.axes[0], &sent);
        if answer.0 > 0 {
            keep_version(&mut expected.axes[0]);
        }
        assert_eq!(write_and_fetch(&mut station, 1, &block), answer, "{block:02X?}");
        assert!(station == expected, "{block:02X?}");
        sent.iter().for_each(|elements| seen[usize::from(elements.inside)] += 1);
    }
    assert!(seen.iter().all(|times| *times > 10_000), "{seen:?}");
}

/// The calls that a merged call stands for, made in turn on the same station; where the write is refused, it alone. A
/// read gets no further than 4.
fn in_turn(station: &mut Station, farm: u32, frame: &[u8], reply: &mut [u8]) -> Framed {
    if frame[0] == 0x5E {
        let mut unseen = reply.to_vec();
        let number = station.clone().frame(farm, frame, &mut unseen).number;
        let number = if (1..4).contains(&number) { number } else { 4 };
        return Framed { length: 0, stored: 0, number };
    }
    let written = station.frame(farm, frame, reply);
    if written.number != 0 {
        return written;
    }
    let fetched = station.frame(farm, &hex("5E 00 2F F0"), reply);
    assert_eq!((fetched.number, fetched.stored), (0, 0), "it cannot be refused");
    Framed { stored: written.stored, ..fetched }
}

/// A fetched reply answers the request of this write frame.
fn assert_answers(frame: &[u8], reply: &[u8]) {
    let request = parse_request(&frame[4..]).unwrap();
    let response = parse_response(&reply[4..]).unwrap();
    assert_eq!(reply[..4], [0x5E, 0x00, 0x2F, reply.len() as u8 - 4]);
    assert_eq!((request.reference, request.axis, request.count), (response.reference, response.axis, response.count));
}

#[test]
fn random_exchanges() {
    let mut random = Random(0x0E5C_4A46_E5E4_D001);
    let mut station = Station::fresh();
    let mut seen = [0u32; 13];
    for _ in 0..60_000 {
        let farm = random.below(18) as u32;
        let frame = random_frame(&mut random, farm as u8);
        if random.one_in(4) {
            station.frame(farm, &frame, &mut [0; 244]);
            continue;
        }
        let mut before = station.clone();
        if random.one_in(50) {
            before.axes.iter_mut().for_each(|part| part.p930 = 0);
        }
        let [mut merged, mut turned] = [before.clone(), before.clone()];
        let memory = vec![UNTOUCHED; random.pick(&[243, 244, 250, 300])];
        let [mut reply, mut expected] = [memory.clone(), memory];
        let framed = merged.exchange(farm, &frame, &mut reply);
        assert_eq!(framed, in_turn(&mut turned, farm, &frame, &mut expected), "{frame:02X?}");
        assert!(merged == turned && reply == expected, "{frame:02X?}");
        assert!(reply[framed.length.into()..].iter().all(|byte| *byte == UNTOUCHED));
        seen[usize::from(framed.number)] += 1;
        if framed.number != 0 {
            assert!(merged == before && framed.stored == 0);
        } else {
            assert_answers(&frame, &reply[..framed.length.into()]);
            assert_eq!(merged.axes[farm as usize - 1].waiting, None);
            station = merged;
        }
    }
    assert!([0, 1, 2, 3, 4, 5, 6, 7, 8, 10, 11].iter().all(|number| seen[*number] > 20), "{seen:?}");
    assert_eq!((seen[9], seen[12]), (0, 0));
}

/// What a going back answers where all versions ever taken are these.
fn gone_back(taken: &[Settings], version: u32) -> Returned {
    let last = taken.len() as u32;
    let kept = (1.max(last.saturating_sub(15))..=last).contains(&version);
    match kept {
        true => Returned { stored: 18, version: last as u16 + 1, number: 0 },
        false => Returned { stored: 0, version: 0, number: 14 },
    }
}

#[test]
fn random_versions() {
    let mut random = Random(0x07E2_5104_50FA_5E77);
    let mut station = Station::fresh();
    let mut taken: Vec<Settings> = Vec::new();
    let mut seen = [0u32; 15];
    for _ in 0..20_000 {
        if random.one_in(2) {
            let block = random_block(&mut random, 1);
            let stored = send_merged(&mut station, 1, &write_frame(&block[..block.len().min(240)])).0.stored;
            taken.extend((stored > 0).then(|| station.axes[0].settings.clone()));
        } else {
            let near = taken.len() as u64 + 2;
            let version = near.saturating_sub(random.below(21)) as u32 + random.pick(&[0, 0, 0, 65536]);
            let (expected, before) = (gone_back(&taken, version), station.axes[0].settings.clone());
            assert_eq!(station.go_back(1, version), expected, "{version}");
            seen[usize::from(expected.number)] += 1;
            let settings = if expected.number == 0 { taken[version as usize - 1].clone() } else { before };
            assert_eq!(station.axes[0].settings, settings, "{version}");
            taken.extend((expected.number == 0).then_some(settings));
        }
        let kept = taken.len().min(16) as u16;
        assert_eq!(station.versions(1), Listed { oldest: taken.len() as u16 - kept + 1, kept, number: 0 });
    }
    assert!(taken.len() > 5000 && seen[14] > 1000, "{} {seen:?}", taken.len());
}

/// A control word, and seldom a fault code.
fn random_word(random: &mut Random) -> (u16, u16) {
    let word = random.pick(&[0x047E, 0x047F, 0x047F, 0x047F, 0x04FF, 0x0477, 0x047B]) ^ (1 << random.below(30)) as u16;
    (word, if random.one_in(30) { random.below(12) as u16 } else { 0 })
}

#[test]
fn random_cycles() {
    let mut random = Random(0x0FED_CBA9_8765_4321);
    let mut station = Station::fresh();
    let mut states = [0u32; 53];
    for _ in 0..200_000 {
        let axis = 1 + random.below(16) as u32;
        let (word, fault) = random_word(&mut random);
        let flags = random.below(4) as u32;
        let cycled = station.cycle(axis, flags, word, random.next() as i16, random.next() as i16, fault);
        let part = &station.axes[axis as usize - 1];
        assert_eq!((cycled.number, cycled.status, cycled.state), (0, part.status, part.state.code()));
        assert_eq!(cycled.status & 0xF800, 0);
        assert!(cycled.rpm == 0 || cycled.state == 4);
        assert!(well_formed(part, axis as u8));
        states[usize::from(cycled.state)] += 1;
    }
    assert!([1, 2, 3, 4, 51, 52].iter().all(|state| states[*state] > 100), "{states:?}");
}

fn random_record(random: &mut Random) -> Vec<u8> {
    let number = random.below(18) as u8;
    if random.one_in(20) {
        return back(number, random.below(300) as u16);
    }
    if random.one_in(3) {
        let mut bytes = random_frame(random, number);
        bytes.truncate(FRAME_MAX);
        return record(random.pick(&[2, 2, 3]), number, &bytes);
    }
    let (word, fault) = random_word(random);
    cycle(number, random.below(5) as u8, word, random.next() as i16, random.next() as i16, fault)
}

/// What the replay's line of an axis tells: its state, and by bit 3 of its status whether a fault stands.
struct Seen {
    state: String,
    faulted: bool,
}

/// Adds what a cycle's line tells; a fault goes only by being acknowledged.
fn tell_cycle(counts: &mut Counts, seen: &mut Seen, state: &str, status: &str) {
    let faulted = u16::from_str_radix(status, 16).unwrap() & 8 != 0;
    let ended = State::ALL.iter().position(|known| state == format!("{known:?}")).unwrap();
    counts[ended] += 1;
    counts[6] += u64::from(state == "S4" && seen.state != "S4");
    counts[7] += u64::from(seen.faulted && !faulted);
    *seen = Seen { state: state.to_string(), faulted };
}

/// The totals as the replay's lines tell them.
fn told(lines: &str) -> Totals {
    let mut totals = [[0; COUNTS]; AXES];
    let mut axes: Vec<Seen> = (0..AXES).map(|_| Seen { state: "S1".to_string(), faulted: false }).collect();
    for line in lines.lines() {
        let words: Vec<&str> = line.split(' ').collect();
        let owner = words[1].parse::<usize>().unwrap().wrapping_sub(1);
        match words[..] {
            ["c", _, state, status, _] => tell_cycle(&mut totals[owner], &mut axes[owner], state, status),
            ["f" | "e", _, stored, reply] if owner < AXES => {
                totals[owner][8] += u64::from(reply == "DF80B600");
                totals[owner][9] += stored.parse::<u64>().unwrap();
            }
            ["g", _, stored, _] => totals[owner][9] += stored.parse::<u64>().unwrap(),
            _ => {}
        }
    }
    totals
}

#[test]
fn random_seasons() {
    let mut random = Random(0x5EA5_0217_CA11_ED17);
    // So many that no count of any farm stays at 0; with 30,000 one does.
    let journal: Vec<u8> = (0..90_000).flat_map(|_| random_record(&mut random)).collect();
    let (mut lines, mut season) = (Vec::new(), Vec::new());
    replay(&journal[..], &mut lines).unwrap();
    report(&journal[..], &mut season).unwrap();
    let totals = told(&String::from_utf8(lines).unwrap());
    assert!(totals.iter().flatten().all(|count| *count > 0), "{totals:?}");
    let season = String::from_utf8(season).unwrap();
    let reported: Vec<Vec<&str>> = season.lines().map(|line| line.split(' ').collect()).collect();
    assert_eq!(reported.len(), AXES);
    for (farm, words) in (1..).zip(reported) {
        let counts = totals[farm - 1].map(|count| count.to_string());
        assert_eq!(words[..2], ["r", &farm.to_string()]);
        assert_eq!(words[2..], counts);
    }
}
