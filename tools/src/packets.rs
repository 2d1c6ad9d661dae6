//! Exchanges of frames as packets of a capture that Wireshark opens.
//!
//! A frame carries a parameter block as DP-V1 does; Wireshark reads such blocks in PROFINET, which carries the same ones
//! as records. So each exchange becomes two packets of PROFINET's record access (DCE/RPC by UDP, port 34964), a request and
//! its response. Every number stands high byte first.
//!
//! | frame | request packet |
//! |---|---|
//! | 5F and at least three bytes more | IODWriteReq |
//! | 5E and at least three bytes more | IODReadReq |
//! | its slot byte | SlotNumber |
//! | its index byte | Index: B02F (PROFIdrive, global access) for 47, else the byte itself, to Wireshark the user's own data |
//! | its length byte, right or not | RecordDataLength |
//! | all that follows, readable or not, as it came | the record's data |
//! | any other frame (under 4 bytes, other function) | IODWriteReq, Index 7FFF, the whole frame as it came as data |
//!
//! | answer | response packet |
//! |---|---|
//! | acknowledgement | IODWriteRes, status OK, its length byte in RecordDataLength |
//! | response | IODReadRes, status OK, the block as data |
//! | refusal with a code | the reply's own bytes DE or DF, 80 and code as ErrorCode, ErrorDecode and ErrorCode1 |
//! | refusal without a reply | DE 80 A0 or DF 80 A1 (application: read or write error): the library answered nothing |
//! | refusal number | ErrorCode2, where the reply itself has 00: it tells number 15, whose own code is A1, from 1 to 4 |
//! | elements stored | AdditionalValue1 |
//!
//! Farm k (0 to 255, as sent) has the address 10.47.1.k, the hardware address 02:00:00:00:01:k and the SubslotNumber k; the
//! box has 10.47.0.1 and 02:00:00:00:00:01. The axis that a block names is Wireshark's DO.
//!
//! A merged call that was done is the two exchanges that it stands for: its write, acknowledged, with the elements stored;
//! and the fetch 5E 00 2F F0 with the response. One that was refused is its frame alone, with the refusal: a read too.
//!
//! Cycles and goings back are no frames and are not in a capture. Times are made up: record n of a journal, these counted too,
//! is sent n milliseconds after the start of 1970, and its packets part that millisecond in equal steps: a frame is answered half a
//! millisecond later, the write of a merged call a quarter, and then its fetch follows. n is also the DCE/RPC sequence
//! number, and its low 16 bits are the SeqNumber, in all packets of the record.

use crate::sending::{Sending, FETCH, INDEX, READ, WRITE};

/// What a farm sent and what it was answered.
#[derive(Clone, Debug)]
pub struct Answered {
    /// Number of the record in its journal, from 1.
    pub record: u64,
    /// The farm, as sent.
    pub farm: u8,
    /// The frame.
    pub frame: Vec<u8>,
    /// Refusal number, 0 for none.
    pub number: u8,
    /// Elements stored.
    pub stored: u16,
    /// The reply.
    pub reply: Vec<u8>,
}

impl Answered {
    /// The exchanges that a call stands for, of which this has the frame and the answer.
    pub fn by(self, sending: Sending) -> Vec<Answered> {
        match (sending, self.number) {
            (Sending::Merged, 0) => self.parted().into(),
            _ => vec![self],
        }
    }

    /// The write of a merged call that was done, and its fetch.
    fn parted(self) -> [Answered; 2] {
        let acknowledgement = vec![WRITE, 0, INDEX, self.frame[3]];
        let fetch = Answered { frame: FETCH.to_vec(), stored: 0, ..self.clone() };
        [Answered { reply: acknowledgement, ..self }, fetch]
    }
}

/// PROFIdrive's parameter access, and the index of frames that have none.
const PARAMETER_ACCESS: u16 = 0xB02F;
const NO_INDEX: u16 = 0x7FFF;

/// The operation of a record access: its DCE/RPC number, block types, and what a refusal without a reply is told by.
struct Operation {
    number: u16,
    request: u16,
    response: u16,
    failed: [u8; 3],
}

const READING: Operation = Operation { number: 2, request: 0x0009, response: 0x8009, failed: [0xDE, 0x80, 0xA0] };
const WRITING: Operation = Operation { number: 3, request: 0x0008, response: 0x8008, failed: [0xDF, 0x80, 0xA1] };

/// The record access that stands for a frame.
struct Access<'a> {
    operation: &'static Operation,
    slot: u8,
    index: u16,
    length: u32,
    data: &'a [u8],
}

impl Access<'_> {
    fn of(frame: &[u8]) -> Access<'_> {
        let (function, slot, index, length, data) = match frame {
            [function @ (READ | WRITE), slot, index, length, data @ ..] => {
                let index = if *index == INDEX { PARAMETER_ACCESS } else { u16::from(*index) };
                (*function, *slot, index, u32::from(*length), data)
            }
            _ => (WRITE, 0, NO_INDEX, frame.len() as u32, frame),
        };
        let operation = if function == READ { &READING } else { &WRITING };
        Access { operation, slot, index, length, data }
    }
}

/// Status, length and data of the response that stands for an answer.
fn answer<'a>(answered: &'a Answered, access: &Access) -> ([u8; 4], u32, &'a [u8]) {
    let number = answered.number;
    let [function, decode, code] = access.operation.failed;
    match answered.reply.as_slice() {
        [_, _, _, length, block @ ..] if number == 0 => ([0; 4], u32::from(*length), block),
        [function, decode, code, ..] => ([*function, *decode, *code, number], 0, &[]),
        _ => ([function, decode, code, number], 0, &[]),
    }
}

/// The block header that all four kinds of record access share, with `tail` to its end.
fn header(block: u16, answered: &Answered, access: &Access, length: u32, tail: &[u8]) -> Vec<u8> {
    const LENGTH: usize = 64;
    let mut header = Vec::with_capacity(LENGTH);
    header.extend(block.to_be_bytes());
    header.extend((LENGTH as u16 - 4).to_be_bytes());
    header.extend([1, 0]);
    header.extend((answered.record as u16).to_be_bytes());
    header.extend(uuid_of(AR, answered.farm));
    header.extend([0; 4]);
    header.extend([0, access.slot, 0, answered.farm, 0, 0]);
    header.extend(access.index.to_be_bytes());
    header.extend(length.to_be_bytes());
    header.extend(tail);
    header.resize(LENGTH, 0);
    header
}

/// The request packet, from the DCE/RPC header on.
fn request(answered: &Answered) -> Vec<u8> {
    let access = Access::of(&answered.frame);
    let header = header(access.operation.request, answered, &access, access.length, &[]);
    let arguments = [&header, access.data].concat();
    call(Call::Request, answered, access.operation, ARGUMENTS_MOST.to_be_bytes(), &arguments)
}

/// The response packet, from the DCE/RPC header on.
fn response(answered: &Answered) -> Vec<u8> {
    let access = Access::of(&answered.frame);
    let (status, length, data) = answer(answered, &access);
    let [high, low] = answered.stored.to_be_bytes();
    let mut tail = vec![high, low, 0, 0];
    if access.operation.number == WRITING.number {
        tail.extend(status);
    }
    let header = header(access.operation.response, answered, &access, length, &tail);
    call(Call::Response, answered, access.operation, status, &[&header, data].concat())
}

/// Packet types of DCE/RPC.
#[derive(Clone, Copy, PartialEq, Eq)]
enum Call {
    Request = 0,
    Response = 2,
}

/// Room for the arguments of a call, the same for all.
const ARGUMENTS_MOST: u32 = 1024;
const BOX: [u8; 16] = *b"\xDE\xA0\x00\x00\x6C\x97\x11\xD1\x82\x71\x00\x01\x00\x01\x00\x00";
const DEVICE: [u8; 16] = *b"\xDE\xA0\x00\x01\x6C\x97\x11\xD1\x82\x71\x00\xA0\x24\x42\xDF\x7D";
/// The application relation and the activity of a farm, which take its number at their end.
const AR: [u8; 16] = *b"llinkhiro-farm-\0";
const ACTIVITY: [u8; 16] = *b"llinkhiro-call-\0";

fn uuid_of(mut uuid: [u8; 16], farm: u8) -> [u8; 16] {
    uuid[15] = farm;
    uuid
}

/// A call of the device or its answer. `first` is the room for arguments, or the status.
fn call(kind: Call, answered: &Answered, operation: &Operation, first: [u8; 4], arguments: &[u8]) -> Vec<u8> {
    const NDR: usize = 20;
    let length = arguments.len() as u32;
    let flags = if kind == Call::Request { 0x20 } else { 0x0A };
    let mut packet = vec![4, kind as u8, flags, 0, 0, 0, 0, 0];
    packet.extend(BOX);
    packet.extend(DEVICE);
    packet.extend(uuid_of(ACTIVITY, answered.farm));
    packet.extend([0, 0, 0, 1, 0, 0, 0, 1]);
    packet.extend((answered.record as u32).to_be_bytes());
    packet.extend(operation.number.to_be_bytes());
    packet.extend([0xFF; 4]);
    packet.extend(((NDR + arguments.len()) as u16).to_be_bytes());
    packet.extend([0; 4]);
    packet.extend(first);
    for number in [length, ARGUMENTS_MOST, 0, length] {
        packet.extend(number.to_be_bytes());
    }
    packet.extend(arguments);
    packet
}

/// An end of the exchange: hardware address, address and port.
struct End([u8; 6], [u8; 4], u16);

fn farm_end(farm: u8) -> End {
    End([2, 0, 0, 0, 1, farm], [10, 47, 1, farm], 49152)
}

const BOX_END: End = End([2, 0, 0, 0, 0, 1], [10, 47, 0, 1], 34964);

/// Ethernet, IP and UDP around a packet.
fn on_the_wire(from: &End, to: &End, packet: &[u8]) -> Vec<u8> {
    const UDP: u8 = 17;
    let length = (8 + packet.len()) as u16;
    let mut udp = [from.2, to.2, length, 0].map(u16::to_be_bytes).concat();
    udp.extend(packet);
    let pseudo = [&from.1[..], &to.1, &[0, UDP], &length.to_be_bytes(), &udp].concat();
    // A checksum of 0 would say that there is none.
    udp[6..8].copy_from_slice(&match checksum(&pseudo) {
        0 => [0xFF; 2],
        sum => sum.to_be_bytes(),
    });
    let [high, low] = (20 + length).to_be_bytes();
    let mut ip = [&[0x45, 0, high, low, 0, 0, 0x40, 0, 64, UDP, 0, 0][..], &from.1, &to.1].concat();
    let sum = checksum(&ip);
    ip[10..12].copy_from_slice(&sum.to_be_bytes());
    [&to.0[..], &from.0, &[0x08, 0x00], &ip, &udp].concat()
}

/// The Internet checksum: the complement of the sum of all words, carries added in.
fn checksum(bytes: &[u8]) -> u16 {
    let word = |pair: &[u8]| u64::from(pair[0]) << 8 | pair.get(1).map_or(0, |low| u64::from(*low));
    let mut sum: u64 = bytes.chunks(2).map(word).sum();
    while sum > 0xFFFF {
        sum = (sum & 0xFFFF) + (sum >> 16);
    }
    !(sum as u16)
}

/// The beginning of a capture, in the form that Wireshark calls pcap.
pub fn head() -> Vec<u8> {
    const ETHERNET: u32 = 1;
    [0xA1B2_C3D4, 0x0002_0004, 0, 0, 0xFFFF, ETHERNET].map(u32::to_be_bytes).concat()
}

/// The exchanges of a record, each as two packets.
pub fn of(exchanges: &[Answered]) -> Vec<u8> {
    const RECORD: u64 = 1000;
    let mut packets = Vec::new();
    for (at, answered) in (0..).zip(exchanges) {
        let time = |packet: u64| RECORD * answered.record + packet * RECORD / (2 * exchanges.len() as u64);
        let farm = farm_end(answered.farm);
        packets.extend(packet(time(2 * at), &on_the_wire(&farm, &BOX_END, &request(answered))));
        packets.extend(packet(time(2 * at + 1), &on_the_wire(&BOX_END, &farm, &response(answered))));
    }
    packets
}

/// A packet of a capture, sent at this time.
fn packet(microseconds: u64, bytes: &[u8]) -> Vec<u8> {
    const SECOND: u64 = 1_000_000;
    let length = bytes.len() as u32;
    let numbers = [(microseconds / SECOND) as u32, (microseconds % SECOND) as u32, length, length];
    [&numbers.map(u32::to_be_bytes).concat(), bytes].concat()
}

#[cfg(test)]
mod tests {
    use super::*;

    const HEADERS: usize = 14 + 20 + 8;
    const BLOCK: usize = 80 + 20 + 64;

    fn answered(frame: &[u8], number: u8, reply: &[u8]) -> Answered {
        Answered { record: 0x1_0005, farm: 2, frame: frame.to_vec(), number, stored: 3, reply: reply.to_vec() }
    }

    #[test]
    fn checksums_of_known_bytes() {
        // The worked example of RFC 1071, and an odd number of bytes.
        assert_eq!(checksum(&[0x00, 0x01, 0xF2, 0x03, 0xF4, 0xF5, 0xF6, 0xF7]), !0xDDF2);
        assert_eq!(checksum(&[0xFF, 0xFF, 0x01]), !0x0100);
    }

    #[test]
    fn headers_agree_with_what_follows() {
        let packet = on_the_wire(&farm_end(2), &BOX_END, &request(&answered(&[0x5F, 0, 47, 2, 7, 1], 10, &[])));
        let number = |at: usize| usize::from(packet[at]) << 8 | usize::from(packet[at + 1]);
        assert_eq!((number(12), packet.len()), (0x0800, HEADERS + BLOCK + 2));
        assert_eq!((number(16), number(38)), (packet.len() - 14, packet.len() - 34));
        assert_eq!(checksum(&packet[14..34]), 0);
        let rpc = &packet[42..];
        assert_eq!((rpc[74], rpc[75], rpc[87]), (0, 20 + 64 + 2, 64 + 2));
        assert_eq!(&rpc[BLOCK - 64..][..8], [0, 8, 0, 60, 1, 0, 0, 5]);
        assert_eq!(&rpc[BLOCK - 64 + 28..][..12], [0, 0, 0, 2, 0, 0, 0xB0, 0x2F, 0, 0, 0, 2]);
        assert_eq!(&rpc[BLOCK..], [7, 1]);
    }

    #[test]
    fn frames_without_a_header_are_carried_whole() {
        for frame in [&[][..], &[0x5F, 0, 47], &[0x5D, 0, 47, 0, 1]] {
            let access = Access::of(frame);
            assert_eq!((access.index, access.length, access.data), (NO_INDEX, frame.len() as u32, frame));
        }
        let other = Access::of(&[0x5E, 3, 48, 9, 1]);
        assert_eq!((other.slot, other.index, other.length, other.data), (3, 48, 9, &[1][..]));
    }

    #[test]
    fn answers_and_refusals() {
        let told = |frame: &[u8], number, reply: &[u8]| {
            let answered = answered(frame, number, reply);
            let (status, length, data) = answer(&answered, &Access::of(frame));
            (status, length, data.to_vec())
        };
        let (read, write) = ([0x5E, 0, 47, 240], [0x5F, 0, 47, 0]);
        assert_eq!(told(&write, 0, &[0x5F, 0, 47, 16]), ([0; 4], 16, vec![]));
        assert_eq!(told(&read, 0, &[0x5E, 0, 47, 4, 7, 2, 1, 1]), ([0; 4], 4, vec![7, 2, 1, 1]));
        assert_eq!(told(&write, 11, &[0xDF, 0x80, 0xB6, 0]), ([0xDF, 0x80, 0xB6, 11], 0, vec![]));
        assert_eq!(told(&write, 15, &[0xDF, 0x80, 0xA1, 0]), ([0xDF, 0x80, 0xA1, 15], 0, vec![]));
        assert_eq!(told(&read, 1, &[]), ([0xDE, 0x80, 0xA0, 1], 0, vec![]));
        assert_eq!(told(&[0x5D], 4, &[]), ([0xDF, 0x80, 0xA1, 4], 0, vec![]));
    }

    #[test]
    fn a_capture_of_one_exchange() {
        let exchange = answered(&[0x5E, 0, 47, 240], 8, &[0xDE, 0x80, 0xB5, 0]);
        let bytes = [head(), of(&[exchange])].concat();
        assert_eq!(bytes.len(), 24 + 2 * (16 + HEADERS + BLOCK));
        // Record 65541 is sent at 65.541 seconds.
        assert_eq!(&bytes[24..32], [0, 0, 0, 65, 0x00, 0x08, 0x41, 0x48]);
        assert_eq!(microseconds(&bytes), [541_000, 541_500]);
    }

    /// The microseconds of each packet.
    fn microseconds(capture: &[u8]) -> Vec<u32> {
        let number = |at: usize| u32::from_be_bytes(std::array::from_fn(|byte| capture[at + byte]));
        let next = |at: &usize| Some(at + 16 + number(at + 8) as usize).filter(|next| *next < capture.len());
        std::iter::successors(Some(24), next).map(|at| number(at + 4)).collect()
    }

    #[test]
    fn a_merged_call_is_two_exchanges() {
        let (write, block) = ([0x5F, 0, 47, 2, 7, 1], [0x5E, 0, 47, 4, 7, 2, 1, 1]);
        let parts = answered(&write, 0, &block).by(Sending::Merged);
        let told: Vec<_> = parts.iter().map(|it| (it.frame.as_slice(), it.reply.as_slice(), it.stored)).collect();
        assert_eq!(told, [(&write[..], &[0x5F, 0, 47, 2][..], 3), (&[0x5E, 0, 47, 0xF0], &block, 0)]);
        assert!(parts.iter().all(|it| (it.record, it.farm, it.number) == (0x1_0005, 2, 0)));
        let bytes = [head(), of(&parts)].concat();
        assert_eq!(bytes.len(), 24 + 4 * (16 + HEADERS + BLOCK) + 2 + 4);
        assert_eq!(microseconds(&bytes), [541_000, 541_250, 541_500, 541_750]);
    }

    #[test]
    fn what_is_not_merged_or_not_done_is_one_exchange() {
        let one = |frame: &[u8], number, reply: &[u8], sending| {
            let parts = answered(frame, number, reply).by(sending);
            let [part] = parts.as_slice() else { panic!("{parts:?}") };
            assert_eq!((part.frame.as_slice(), part.number, part.reply.as_slice()), (frame, number, reply));
        };
        let write = [0x5F, 0, 47, 2, 7, 1];
        one(&write, 0, &[0x5F, 0, 47, 2], Sending::Alone);
        one(&write, 8, &[0xDF, 0x80, 0xB5, 0], Sending::Merged);
        one(&[0x5E, 0, 47, 0xF0], 4, &[], Sending::Merged);
        one(&[], 4, &[], Sending::Merged);
    }
}
