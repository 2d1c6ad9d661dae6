//! DP-V1 frames, and the one call that sends a write and fetches its response.

use crate::axis::{Axis, Settings, Station, Waiting, BLOCK_MAX};
use crate::block::{parse_request, Request, RequestKind, FORMAT_ERROR, FORMAT_ZERO};
use crate::parameter;

/// Reply memory that every frame and every merged call needs.
pub const REPLY_MIN: usize = 244;

const READ: u8 = 0x5E;
const WRITE: u8 = 0x5F;
const SLOT: u8 = 0;
const INDEX: u8 = 47;
const HEADER: usize = 4;
/// Bytes of an error block, kept free for every address still to come.
const ERROR_BLOCK: usize = 4;
const FAILED: u8 = 0x80;
/// The read that takes any response: none is longer than F0.
const FETCH: [u8; HEADER] = [READ, SLOT, INDEX, BLOCK_MAX as u8];

/// The answer of a frame or of the merged call.
#[derive(Clone, Copy, Debug, PartialEq, Eq)]
pub struct Framed {
    /// Bytes of the reply, 0 for an empty one.
    pub length: u16,
    /// Elements stored.
    pub stored: u16,
    /// Refusal number, 0 for none.
    pub number: u8,
}

impl Framed {
    fn empty(number: u8) -> Framed {
        Framed { length: 0, stored: 0, number }
    }
}

impl Station {
    /// Works one frame of a farm; bytes of `reply` past the answered length stay as they are.
    pub fn frame(&mut self, farm: u32, frame: &[u8], reply: &mut [u8]) -> Framed {
        let own = match self.own(farm) {
            Ok(own) => own,
            Err(number) => return Framed::empty(number),
        };
        if reply.len() < REPLY_MIN {
            return Framed::empty(3);
        }
        let Some((&[function @ (READ | WRITE), slot, index, length], block)) = frame.split_first_chunk::<HEADER>()
        else {
            return Framed::empty(4);
        };
        let part = &mut self.axes[own];
        let done = check_header(function, slot, index, length, block).and_then(|()| match function {
            READ => fetch(part, length, reply),
            _ => write(part, farm as u8, length, block, reply),
        });
        done.unwrap_or_else(|number| refuse(function, number, reply))
    }

    /// Sends a farm's write frame and fetches the response with F0, as the two calls in turn; a refused write ends it.
    pub fn exchange(&mut self, farm: u32, frame: &[u8], reply: &mut [u8]) -> Framed {
        // A read is number 4 here, as an empty frame is: after 1, 2 and 3, whatever its slot.
        let frame = if frame.first() == Some(&READ) { &[] } else { frame };
        let written = self.frame(farm, frame, reply);
        if written.number != 0 {
            return written;
        }
        let fetched = self.frame(farm, &FETCH, reply);
        Framed { stored: written.stored, ..fetched }
    }
}

/// Numbers 5, 6 and 7.
fn check_header(function: u8, slot: u8, index: u8, length: u8, block: &[u8]) -> Result<(), u8> {
    if slot != SLOT {
        return Err(5);
    }
    if index != INDEX {
        return Err(6);
    }
    let following = if function == READ { 0 } else { usize::from(length) };
    if usize::from(length) > BLOCK_MAX || block.len() != following {
        return Err(7);
    }
    Ok(())
}

/// Numbers 5 to 11, and 15.
fn refuse(function: u8, number: u8, reply: &mut [u8]) -> Framed {
    reply[..HEADER].copy_from_slice(&[function | FAILED, 0x80, refusal_code(number), 0x00]);
    Framed { length: HEADER as u16, stored: 0, number }
}

fn refusal_code(number: u8) -> u8 {
    match number {
        5 => 0xB2,
        6 => 0xB0,
        7 => 0xB1,
        8 => 0xB5,
        9 => 0xB7,
        10 => 0xB8,
        11 => 0xB6,
        15 => 0xA1,
        _ => unreachable!("number {number} has no code"),
    }
}

/// A read: hands the waiting response out and leaves none.
fn fetch(part: &mut Axis, wanted: u8, reply: &mut [u8]) -> Result<Framed, u8> {
    let waiting = part.waiting.as_ref().ok_or(8)?;
    if usize::from(wanted) < waiting.length {
        return Err(9);
    }
    let end = HEADER + waiting.length;
    reply[..HEADER].copy_from_slice(&[READ, SLOT, INDEX, waiting.length as u8]);
    reply[HEADER..end].copy_from_slice(&waiting.bytes[..waiting.length]);
    part.waiting = None;
    Ok(Framed { length: end as u16, stored: 0, number: 0 })
}

/// A write: works the block, acknowledges and lets the response wait.
fn write(part: &mut Axis, axis: u8, length: u8, block: &[u8], reply: &mut [u8]) -> Result<Framed, u8> {
    if part.waiting.is_some() {
        return Err(8);
    }
    let request = parse_request(block).ok_or(10)?;
    if request.axis != axis {
        return Err(11);
    }
    let (response, stored) = match request.kind {
        RequestKind::Request => (work_request(part, &request), 0),
        RequestKind::Change => change(part, &request)?,
    };
    part.waiting = Some(response);
    reply[..HEADER].copy_from_slice(&[WRITE, SLOT, INDEX, length]);
    Ok(Framed { length: HEADER as u16, stored, number: 0 })
}

/// The response to a request, 01 or 81.
fn work_request(part: &Axis, request: &Request) -> Waiting {
    let mut response = start_response(request, 0x01);
    let mut later = usize::from(request.count);
    for address in request.addresses() {
        later -= 1;
        let room = &mut response.bytes[response.length..BLOCK_MAX - ERROR_BLOCK * later];
        match parameter::read(part, &address, room) {
            Ok(length) => response.length += length,
            Err(error) => append_error(&mut response, error),
        }
    }
    response
}

/// A change: its response, and the elements stored. Where it would store any, that is a new version, or number 15.
fn change(part: &mut Axis, request: &Request) -> Result<(Waiting, u16), u8> {
    let mut settings = part.settings.clone();
    let (response, stored) = work_change(&mut settings, request);
    if stored > 0 {
        part.store(settings)?;
    }
    Ok((response, stored))
}

/// The response to a change, 02 or 82, and the elements that it stores in these settings.
fn work_change(settings: &mut Settings, request: &Request) -> (Waiting, u16) {
    let mut response = start_response(request, 0x02);
    let mut stored = 0;
    for (address, values) in request.addresses().zip(request.values()) {
        match parameter::change(settings, &address, &values) {
            Ok(elements) => {
                stored += elements;
                append(&mut response, &[FORMAT_ZERO, 0]);
            }
            Err(error) => append_error(&mut response, error),
        }
    }
    if response.bytes[1] & FAILED == 0 {
        response = start_response(request, 0x02);
    }
    (response, stored)
}

fn start_response(request: &Request, identifier: u8) -> Waiting {
    let mut response = Waiting { bytes: [0; BLOCK_MAX], length: 0 };
    append(&mut response, &[request.reference, identifier, request.axis, request.count]);
    response
}

fn append(response: &mut Waiting, bytes: &[u8]) {
    let end = response.length + bytes.len();
    response.bytes[response.length..end].copy_from_slice(bytes);
    response.length = end;
}

/// Adds an error block, and with it the response is 81 or 82.
fn append_error(response: &mut Waiting, error: u8) {
    append(response, &[FORMAT_ERROR, 1, 0, error]);
    response.bytes[1] |= FAILED;
}
