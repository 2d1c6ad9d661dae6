//! What an answer was meant to be.

use super::fields::{Field, STATUS};
use tools::layout::Block;
use tools::sending::{INDEX, READ, WRITE};

/// What an answer was meant to be.
pub(crate) struct Answer {
    pub(crate) number: u8,
    pub(crate) stored: u16,
    pub(crate) length: u32,
    pub(crate) block: Option<Block>,
}

impl Answer {
    /// The answer that stands in a reply.
    pub(crate) fn of(number: u8, stored: u16, reply: &[u8]) -> Answer {
        match reply {
            [READ, 0, INDEX, length, block @ ..] if number == 0 => {
                Answer { number, stored, length: u32::from(*length), block: Block::of_response(block) }
            }
            [WRITE, 0, INDEX, length] if number == 0 => {
                Answer { number, stored, length: u32::from(*length), block: None }
            }
            _ => Answer { number, stored, length: 0, block: None },
        }
    }

    /// The status, by the table of refusals.
    pub(crate) fn status(&self, reads: bool) -> [Field; 4] {
        let code = match self.number {
            0 => 0,
            5 => 0xB2,
            6 => 0xB0,
            7 => 0xB1,
            8 => 0xB5,
            9 => 0xB7,
            10 => 0xB8,
            11 => 0xB6,
            15 => 0xA1,
            _ if reads => 0xA0,
            _ => 0xA1,
        };
        let (function, decode) = match (self.number, reads) {
            (0, _) => (0, 0),
            (_, true) => (0xDE, 0x80),
            (_, false) => (0xDF, 0x80),
        };
        let numbers = [function, decode, code, self.number.into()];
        std::array::from_fn(|at| (STATUS[at], numbers[at]))
    }
}
