//! What numbers of the library and of the profile are called.

/// A state of the drive, by its code.
pub fn state(code: u8) -> &'static str {
    match code {
        1 => "switching on inhibited",
        2 => "ready",
        3 => "switched on",
        4 => "operation",
        51 => "ramp stop",
        52 => "quick stop",
        _ => "unknown state",
    }
}

/// Refusal number of a write whose block is not readable.
pub const UNREADABLE: u8 = 10;

/// Why a call was refused, by its number; 8 is another reason for a read than for a write.
pub fn refusal(number: u8, reads: bool) -> &'static str {
    match number {
        1 => "no such farm or axis",
        2 => "the farm's part is damaged",
        3 => "too little room for the reply",
        4 => "not a frame to be taken here",
        5 => "the frame's slot is not 0",
        6 => "the frame's index is not 47",
        7 => "the frame's length byte is wrong",
        8 if reads => "no response waits",
        8 => "a response waits that was not fetched",
        9 => "response is longer than wanted",
        UNREADABLE => "block is not readable",
        11 => "denied, not its axis",
        12 => "unknown flags",
        14 => "version is not kept",
        15 => "version numbers are used up",
        _ => "unknown number",
    }
}

/// Why an address of a request failed, by its error word.
pub fn error(word: u16) -> &'static str {
    match word {
        0x00 => "no such parameter",
        0x01 => "parameter is read only",
        0x02 => "outside its limits",
        0x03 => "no such element",
        0x04 => "parameter is no array",
        0x05 => "wrong format",
        0x09 => "no description",
        0x0F => "no text",
        0x15 => "response would be too long",
        0x16 => "address is not permitted",
        0x18 => "wrong number of values",
        _ => "unknown error",
    }
}

#[cfg(test)]
mod tests {
    use super::*;

    #[test]
    fn states_that_there_are() {
        let names = ["switching on inhibited", "ready", "switched on", "operation", "ramp stop", "quick stop"];
        assert_eq!([1, 2, 3, 4, 51, 52].map(state), names);
        assert_eq!([0, 5, 50, 53].map(state), ["unknown state"; 4]);
    }

    #[test]
    fn every_refusal_and_error_has_a_name() {
        let numbers = (1..=12).chain([14, 15]);
        assert!(numbers.clone().all(|number| refusal(number, false) != refusal(0, false)));
        assert!(numbers.clone().all(|number| number == 8 || refusal(number, true) == refusal(number, false)));
        assert_ne!(refusal(8, true), refusal(8, false));
        let words = [0x00, 0x01, 0x02, 0x03, 0x04, 0x05, 0x09, 0x0F, 0x15, 0x16, 0x18];
        assert!(words.iter().all(|word| error(*word) != error(0xFFFF)));
    }
}
