//! Control words and status words, told by their bits.

/// Bit 7 of STW1: acknowledge.
pub const ACKNOWLEDGE: u16 = 1 << 7;
/// Bit 10 of STW1: control by PLC. Where it is 0 the word is not accepted.
pub const BY_PLC: u16 = 1 << 10;
/// Bit 3 of ZSW1: a fault that is not acknowledged.
pub const FAULT: u16 = 1 << 3;

/// What a bit says: where it is 1, and where it is 0, which for some is nothing.
type Bit = (&'static str, &'static str);

/// STW1, bit 0 first: what is commanded.
const CONTROL: [Bit; 16] = [
    ("switch on", "switch off"),
    ("no coast stop", "coast stop"),
    ("no quick stop", "quick stop"),
    ("enable operation", "disable operation"),
    ("enable ramp generator", "reset ramp generator"),
    ("unfreeze setpoint", "freeze setpoint"),
    ("enable setpoint", "disable setpoint"),
    ("acknowledge", ""),
    ("bit 8", ""),
    ("bit 9", ""),
    ("control by PLC", "no control by PLC"),
    ("bit 11", ""),
    ("bit 12", ""),
    ("bit 13", ""),
    ("bit 14", ""),
    ("bit 15", ""),
];

/// ZSW1, bit 0 first: what is.
const STATUS: [Bit; 16] = [
    ("ready to switch on", ""),
    ("ready to operate", ""),
    ("operation enabled", ""),
    ("fault", ""),
    ("no coast stop", "coast stop"),
    ("no quick stop", "quick stop"),
    ("switching on inhibited", ""),
    ("warning", ""),
    ("at its setpoint", "not at its setpoint"),
    ("control requested", ""),
    ("speed reached", ""),
    ("bit 11", ""),
    ("bit 12", ""),
    ("bit 13", ""),
    ("bit 14", ""),
    ("bit 15", ""),
];

/// A control word in hex, and its bits in words.
pub fn control(word: u16) -> String {
    told("STW1", word, &CONTROL)
}

/// A status word in hex, and its bits in words.
pub fn status(word: u16) -> String {
    told("ZSW1", word, &STATUS)
}

fn told(name: &str, word: u16, bits: &[Bit; 16]) -> String {
    let said = (0..).zip(bits).map(|(at, (one, zero))| if word >> at & 1 == 1 { *one } else { *zero });
    let said: Vec<&str> = said.filter(|words| !words.is_empty()).collect();
    format!("{name} {word:04X} ({})", said.join(", "))
}

#[cfg(test)]
mod tests {
    use super::*;

    #[test]
    fn the_words_of_document_01() {
        let enabled = "enable operation, enable ramp generator, unfreeze setpoint, enable setpoint, control by PLC";
        assert_eq!(control(0x047E), format!("STW1 047E (switch off, no coast stop, no quick stop, {enabled})"));
        assert_eq!(control(0x047F), format!("STW1 047F (switch on, no coast stop, no quick stop, {enabled})"));
        assert_eq!(control(0x047D), format!("STW1 047D (switch on, coast stop, no quick stop, {enabled})"));
        let stopped = "no coast stop, no quick stop, at its setpoint, control requested";
        assert_eq!(status(0x0331), format!("ZSW1 0331 (ready to switch on, {stopped})"));
        let running = "no coast stop, no quick stop, not at its setpoint, control requested";
        let ready = "ready to switch on, ready to operate, operation enabled";
        assert_eq!(status(0x0237), format!("ZSW1 0237 ({ready}, {running})"));
        let inhibited = "coast stop, no quick stop, switching on inhibited, at its setpoint, control requested";
        assert_eq!(status(0x0360), format!("ZSW1 0360 ({inhibited})"));
    }

    #[test]
    fn every_bit_says_something() {
        for tell in [control, status] {
            let none = tell(0);
            let words: Vec<String> = (0..16).map(|bit| tell(1 << bit)).collect();
            assert!(words.iter().all(|word| word[10..] != none[10..]), "{words:?}");
        }
        assert!(control(0).ends_with(", no control by PLC)"));
        assert!(control(0xFFFF)
            .contains("acknowledge, bit 8, bit 9, control by PLC, bit 11, bit 12, bit 13, bit 14, bit 15)"));
    }
}
