//! The C face of the proved library, through `host/serve`: a program for the library's processor that makes the calls asked of it.

use crate::host;
use std::fmt;
use std::io::{BufReader, BufWriter, Read, Write};
use std::process::{ChildStdin, ChildStdout, Stdio};
use std::sync::Mutex;

/// The answer of a cycle.
#[derive(Clone, Copy, Debug, PartialEq, Eq)]
pub struct Cycled {
    /// Effective setpoint in revolutions per minute.
    pub rpm: i32,
    /// ZSW1.
    pub status: u16,
    /// 1, 2, 3, 4, 51 or 52.
    pub state: u8,
    /// Refusal number, 0 for none.
    pub number: u8,
}

/// The answer of a frame or of the merged call.
#[derive(Clone, Copy, Debug, PartialEq, Eq)]
pub struct Framed {
    /// Bytes of the reply, 0 for an empty one.
    pub length: u16,
    /// Elements stored.
    pub stored: u16,
    /// Refusal number, 0 for none.
    pub number: u8,
}

/// The versions that are kept: the numbers `oldest` to `oldest + kept - 1`.
#[derive(Clone, Copy, Debug, PartialEq, Eq)]
pub struct Listed {
    /// The oldest number, or the first to come where none is kept.
    pub oldest: u16,
    /// How many are kept.
    pub kept: u16,
    /// Refusal number, 0 for none.
    pub number: u8,
}

/// The answer of a going back.
#[derive(Clone, Copy, Debug, PartialEq, Eq)]
pub struct Returned {
    /// Elements stored.
    pub stored: u16,
    /// The number of the new version.
    pub version: u16,
    /// Refusal number, 0 for none.
    pub number: u8,
}

impl fmt::Display for Listed {
    fn fmt(&self, f: &mut fmt::Formatter) -> fmt::Result {
        write!(f, "{} {} {}", self.number, self.oldest, self.kept)
    }
}

impl fmt::Display for Returned {
    fn fmt(&self, f: &mut fmt::Formatter) -> fmt::Result {
        write!(f, "{} {} {}", self.number, self.stored, self.version)
    }
}

const SIZE: u8 = 0;
const FRESH: u8 = 1;
const CYCLE: u8 = 2;
const FRAME: u8 = 3;
const EXCHANGE: u8 = 4;
const CHECK: u8 = 5;
const VERSIONS: u8 = 6;
const GO_BACK: u8 = 7;

/// What is sent of a call, beside the memories.
#[derive(Default)]
struct Asked {
    owner: u32,
    flags: u32,
    words: [u16; 4],
}

struct Heard {
    size: u64,
    cycled: Cycled,
    framed: Framed,
}

struct Server {
    to: BufWriter<ChildStdin>,
    from: BufReader<ChildStdout>,
}

static SERVER: Mutex<Option<Server>> = Mutex::new(None);

/// Starts the program, if it does not run yet. Every call starts it, and fails where it does not start.
// Nobody waits for it: it ends with this program, when its input does.
#[allow(clippy::zombie_processes)]
pub fn start() -> Result<(), String> {
    let mut server = SERVER.lock().expect("an earlier call failed");
    if server.is_none() {
        let mut command = host::program("serve")?;
        command.stdin(Stdio::piped());
        let mut child = command.spawn().map_err(|error| host::unstarted(&command, &error))?;
        let to = BufWriter::with_capacity(1 << 16, child.stdin.take().expect("piped"));
        let from = BufReader::with_capacity(1 << 16, child.stdout.take().expect("piped"));
        *server = Some(Server { to, from });
    }
    Ok(())
}

impl Server {
    fn ask(&mut self, kind: u8, asked: &Asked, station: &[u8], frame: &[u8], reply: &[u8]) -> std::io::Result<()> {
        self.to.write_all(&[kind])?;
        let lengths = [station.len() as u32, asked.owner, asked.flags, frame.len() as u32, reply.len() as u32];
        for n in lengths {
            self.to.write_all(&n.to_le_bytes())?;
        }
        for w in asked.words {
            self.to.write_all(&w.to_le_bytes())?;
        }
        self.to.write_all(station)?;
        self.to.write_all(frame)?;
        self.to.write_all(reply)?;
        self.to.flush()
    }

    fn hear(&mut self, station: &mut [u8], reply: &mut [u8]) -> std::io::Result<Heard> {
        let mut b = [0; 20];
        self.from.read_exact(&mut b)?;
        self.from.read_exact(station)?;
        self.from.read_exact(reply)?;
        let word = |at: usize| u16::from_le_bytes([b[at], b[at + 1]]);
        Ok(Heard {
            size: u64::from_le_bytes([b[0], b[1], b[2], b[3], b[4], b[5], b[6], b[7]]),
            cycled: Cycled {
                rpm: i32::from_le_bytes([b[8], b[9], b[10], b[11]]),
                status: word(12),
                state: b[18],
                number: b[19],
            },
            framed: Framed { length: word(14), stored: word(16), number: b[19] },
        })
    }
}

fn call(kind: u8, asked: &Asked, station: &mut [u8], frame: &[u8], reply: &mut [u8]) -> Heard {
    start().expect("the program that makes the calls starts");
    let mut server = SERVER.lock().expect("an earlier call failed");
    let server = server.as_mut().expect("started");
    server
        .ask(kind, asked, station, frame, reply)
        .and_then(|()| server.hear(station, reply))
        .expect("the program that makes the calls ended")
}

/// Bytes of a station's memory.
pub fn size() -> usize {
    call(SIZE, &Asked::default(), &mut [], &[], &mut []).size as usize
}

/// Makes a fresh station; 0, or 2 for memory of another size.
pub fn fresh(station: &mut [u8]) -> u8 {
    call(FRESH, &Asked::default(), station, &[], &mut []).cycled.number
}

/// Runs one control cycle of an axis.
pub fn cycle(station: &mut [u8], axis: u32, flags: u32, stw1: u16, nsoll: i16, nist: i16, fault: u16) -> Cycled {
    let asked = Asked { owner: axis, flags, words: [stw1, nsoll as u16, nist as u16, fault] };
    call(CYCLE, &asked, station, &[], &mut []).cycled
}

/// Works one frame of a farm.
pub fn frame(station: &mut [u8], farm: u32, frame: &[u8], reply: &mut [u8]) -> Framed {
    send(FRAME, station, farm, frame, reply)
}

/// Works one write of a farm and fetches its response.
pub fn exchange(station: &mut [u8], farm: u32, frame: &[u8], reply: &mut [u8]) -> Framed {
    send(EXCHANGE, station, farm, frame, reply)
}

/// Lists a farm's versions that are kept.
pub fn versions(station: &[u8], farm: u32) -> Listed {
    let mut lent = station.to_vec();
    let heard = send(VERSIONS, &mut lent, farm, &[], &mut []);
    assert_eq!(lent, station, "a list wrote to the station");
    Listed { oldest: heard.length, kept: heard.stored, number: heard.number }
}

/// Goes back to a version of a farm.
pub fn go_back(station: &mut [u8], farm: u32, version: u32) -> Returned {
    let asked = Asked { owner: farm, flags: version, ..Asked::default() };
    let heard = call(GO_BACK, &asked, station, &[], &mut []).framed;
    Returned { stored: heard.stored, version: heard.length, number: heard.number }
}

/// Holds a response block against a request block: 0 for yes, else the number of the first check that failed.
pub fn check(request: &[u8], response: &[u8]) -> u8 {
    let mut lent = response.to_vec();
    let number = call(CHECK, &Asked::default(), &mut [], request, &mut lent).cycled.number;
    assert_eq!(lent, response, "a check wrote to the response");
    number
}

fn send(kind: u8, station: &mut [u8], farm: u32, frame: &[u8], reply: &mut [u8]) -> Framed {
    let asked = Asked { owner: farm, ..Asked::default() };
    call(kind, &asked, station, frame, reply).framed
}
