//! Made-up records of every form, for tests.

use crate::journal::{Inputs, Record, FRAME_ROOM};
use crate::layout::{Block, Values};
use crate::sending::{Sending, FETCH, INDEX, WRITE};
use twin::block::format_size;
use twin::{Address, BLOCK_MAX};

/// The formats that there are.
const FORMATS: [u8; 9] = [0x41, 2, 5, 0x42, 3, 6, 0x43, 4, 7];
/// Parameters of every type, and two that there are not.
const PARAMETERS: [u16; 10] = [930, 947, 965, 9901, 10101, 10111, 30001, 30004, 7, 65535];

/// Numbers without an order, the same for the same seed.
pub struct Random(u64);

impl Random {
    /// From a seed that is not 0.
    pub fn new(seed: u64) -> Random {
        Random(seed)
    }

    /// A number below another.
    pub fn below(&mut self, most: usize) -> usize {
        self.0 ^= self.0 << 13;
        self.0 ^= self.0 >> 7;
        self.0 ^= self.0 << 17;
        (self.0 >> 16) as usize % most
    }

    fn one<T: Copy>(&mut self, of: &[T]) -> T {
        of[self.below(of.len())]
    }

    fn byte(&mut self) -> u8 {
        self.below(256) as u8
    }

    /// Often 0, or at an end.
    fn word(&mut self) -> u16 {
        let any = self.below(65536) as u16;
        self.one(&[0, 0, 1, 0x7FFF, 0x8000, 0xFFFF, any, any])
    }

    /// So many bytes.
    pub fn bytes(&mut self, count: usize) -> Vec<u8> {
        (0..count).map(|_| self.byte()).collect()
    }

    fn address(&mut self) -> Address {
        let (any, few) = (self.byte(), self.below(4) as u8);
        Address {
            attribute: self.one(&[0x10, 0x10, 0x10, 0x20, 0x30, any]),
            elements: self.one(&[0, 1, 1, 2, 255, any]),
            pnu: self.one(&PARAMETERS),
            sub_index: self.one(&[0, few.into(), 65281, 65534, 65535]),
        }
    }

    fn values(&mut self) -> Values {
        let format = self.one(&FORMATS);
        let size = format_size(format).unwrap();
        let count = self.one(&[0, 1, 1, 2, 3, 20]);
        let value = |random: &mut Random| u32::from(random.word()) << 16 | u32::from(random.word());
        Values { format, size, values: (0..count).map(|_| value(self) >> (32 - 8 * size)).collect() }
    }

    /// A readable request.
    pub fn request(&mut self) -> Block {
        let identifier = self.one(&[0x01, 0x02]);
        let most = self.one(&[1, 3, 10, 39]);
        let (reference, axis, count) = (1 + self.below(255) as u8, self.byte(), 1 + self.below(most));
        let mut block = Block { reference, identifier, axis, count: 0, addresses: Vec::new(), values: Vec::new() };
        for _ in 0..count {
            let mut longer = block.clone();
            longer.count += 1;
            longer.addresses.push(self.address());
            longer.values.extend((identifier == 0x02).then(|| self.values()));
            block = if longer.length() <= BLOCK_MAX { longer } else { block };
        }
        block
    }

    /// The write of a readable request.
    pub fn write(&mut self) -> Vec<u8> {
        let block = self.request().bytes();
        [&[WRITE, 0, INDEX, block.len() as u8], block.as_slice()].concat()
    }

    /// A frame, often almost one that can be said in words.
    fn frame(&mut self) -> Vec<u8> {
        let (any, length) = (self.byte(), self.below(FRAME_ROOM + 1));
        let mut frame = match self.below(4) {
            0 => FETCH.to_vec(),
            1 => [&FETCH[..3], &[any]].concat(),
            2 => self.write(),
            _ => return self.bytes(length),
        };
        let at = self.below(frame.len());
        match self.below(6) {
            0 => frame[at] = any,
            1 => frame.truncate(at),
            2 if frame.len() < FRAME_ROOM => frame.push(any & 1),
            _ => {}
        }
        frame
    }

    /// A record of any kind.
    pub fn record(&mut self) -> Record {
        let owner = self.byte();
        let flags = self.one(&[0, 0, 1, 2, 3, 4, 255]);
        match self.below(4) {
            0 => {
                let (stw1, nsoll, nist) = (self.word(), self.word() as i16, self.word() as i16);
                Record::Cycle(owner, Inputs { flags, stw1, nsoll, nist, fault: self.word() })
            }
            1 => Record::Frame(owner, Sending::Alone, self.frame()),
            2 => Record::Frame(owner, Sending::Merged, self.frame()),
            _ => Record::GoBack(owner, self.word()),
        }
    }
}
