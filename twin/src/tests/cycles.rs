use crate::cycle::rpm;
use crate::{Cycled, State, Station, CODES};

/// A control word of bits 0 to 3 and the bits 4, 5, 6 and 10.
const ON: u16 = 0x047F;

fn accepted(state: u8, status: u16, rpm: i32) -> Cycled {
    Cycled { rpm, status, state, number: 0 }
}

fn refused(number: u8) -> Cycled {
    Cycled { rpm: 0, status: 0, state: 0, number }
}

fn in_operation() -> Station {
    let mut station = Station::fresh();
    for word in [0x047E, ON, ON] {
        station.cycle(1, 0, word, 0, 0, 0);
    }
    assert_eq!(station.axes[0].state, State::S4);
    station
}

#[test]
fn the_four_worked_cycles() {
    let mut station = Station::fresh();
    assert_eq!(station.cycle(1, 0, 0x047E, 0, 0, 0), accepted(2, 0x0331, 0));
    assert_eq!(station.cycle(1, 0, 0x047F, 0, 0, 0), accepted(3, 0x0333, 0));
    assert_eq!(station.cycle(1, 0, 0x047F, 0x2000, 0, 0), accepted(4, 0x0237, 750));
    assert_eq!(station.cycle(1, 0, 0x047D, 0, 0, 0), accepted(1, 0x0360, 0));
    let part = &station.axes[0];
    assert_eq!((part.last_word, part.last_setpoint, part.effective, part.status), (0x047D, 0, 0, 0x0360));
    assert!(station.axes[1..] == Station::fresh().axes[1..]);
}

#[test]
fn refusals_in_order_change_nothing() {
    let mut station = Station::fresh();
    station.axes[1].p930 = 2;
    let before = station.clone();
    for axis in [0, 17, 257, 258, u32::MAX] {
        assert_eq!(station.cycle(axis, 4, ON, 1, 2, 3), refused(1));
    }
    assert_eq!(station.cycle(2, 4, ON, 1, 2, 3), refused(2));
    for flags in [4, 256, 259, u32::MAX] {
        assert_eq!(station.cycle(1, flags, ON, 1, 2, 3), refused(12));
    }
    assert!(station == before);
    assert_eq!(station.cycle(16, 3, ON, 1, 2, 3).number, 0);
    assert_eq!(station.cycle(1, 0, ON, 1, 2, 3).number, 0, "only the own part is tested");
}

#[test]
fn rpm_figures() {
    let worked = [(16384, 1500), (-16384, -1500), (-1, 0), (1, 0), (32767, 2999), (-32768, -3000), (0x2000, 750)];
    for (effective, expected) in worked {
        assert_eq!(rpm(effective, 1500), expected);
    }
    assert_eq!(rpm(-32768, 60000), -120000);
    assert_eq!(rpm(32767, 60000), 119996);
    assert_eq!(rpm(-16385, 1), -1);
    assert_eq!(rpm(-16383, 1), 0);
}

#[test]
fn rpm_in_a_cycle() {
    for (setpoint, expected) in [(16384, 1500), (-16384, -1500), (-1, 0), (32767, 2999), (-32768, -3000)] {
        assert_eq!(in_operation().cycle(1, 0, ON, setpoint, 0, 0).rpm, expected);
    }
}

#[test]
fn distance_sets_bit_8() {
    for (setpoint, nist, near) in
        [(164, 0, true), (165, 0, false), (-164, 0, true), (-165, 0, false), (32767, -32768, false), (1000, 836, true)]
    {
        let status = in_operation().cycle(1, 0, ON, setpoint, nist, 0).status;
        assert_eq!(status & 0x0100 != 0, near, "{setpoint} {nist}");
    }
}

#[test]
fn size_of_the_actual_speed_sets_bit_10() {
    for (nist, fast) in [(16383, false), (16384, true), (-16383, false), (-16384, true), (-32768, true)] {
        assert_eq!(Station::fresh().cycle(3, 0, 0, 0, nist, 0).status & 0x0400 != 0, fast, "{nist}");
    }
}

#[test]
fn warning_is_bit_7_and_every_other_bit_is_fixed() {
    assert_eq!(Station::fresh().cycle(1, 2, 0, 0, 0, 0), accepted(1, 0x03C0, 0));
    assert_eq!(Station::fresh().cycle(1, 0, 0xFFFF, 0, 0, 0), accepted(1, 0x0370, 0));
    assert_eq!(Station::fresh().cycle(1, 0, 0xFFFF, 0, 0, 9), accepted(1, 0x0378, 0));
}

/// The transition table written a second way: the first rule whose mask of (b0, b1, b2, b3, t) holds.
#[test]
fn every_transition() {
    use State::*;
    const ANY: char = '.';
    let rules: [(State, &str, State); 20] = [
        (S1, "011..", S2),
        (S2, ".0...", S1),
        (S2, "..0..", S1),
        (S2, "1....", S3),
        (S3, ".0...", S1),
        (S3, "..0..", S1),
        (S3, "0....", S2),
        (S3, "...1.", S4),
        (S4, ".0...", S1),
        (S4, "..0..", S52),
        (S4, "0....", S51),
        (S4, "...0.", S3),
        (S51, ".0...", S1),
        (S51, "..0..", S52),
        (S51, "1..1.", S4),
        (S51, "....1", S2),
        (S51, "...0.", S2),
        (S52, ".0...", S1),
        (S52, "....1", S1),
        (S52, "...0.", S1),
    ];
    for state in State::ALL {
        for case in 0..32u16 {
            let inputs: Vec<bool> = (0..5).map(|i| case >> i & 1 == 1).collect();
            let holds = |mask: &str| mask.chars().zip(&inputs).all(|(c, b)| c == ANY || (c == '1') == *b);
            let expected = rules.iter().find(|rule| rule.0 == state && holds(rule.1)).map_or(state, |rule| rule.2);
            let mut station = Station::fresh();
            station.axes[4].state = state;
            let cycled = station.cycle(5, u32::from(inputs[4]), 0x0400 | case & 0x0F, 0, 0, 0);
            assert_eq!(cycled.state, expected.code(), "{state:?} {case:05b}");
            assert_eq!(station.axes[4].state, expected);
        }
    }
}

#[test]
fn a_fault_forces_s1_from_every_state() {
    for state in State::ALL {
        let mut station = Station::fresh();
        station.axes[0].state = state;
        assert_eq!(station.cycle(1, 0, 0x047E, 0, 0, 7).state, 1);
    }
}

#[test]
fn traps_of_the_states() {
    let mut station = Station::fresh();
    assert_eq!(station.cycle(1, 0, ON, 0, 0, 0).state, 1, "047F does not lead out of S1");
    assert_eq!(station.cycle(1, 0, 0x047E, 0, 0, 0).state, 2);
    assert_eq!(station.cycle(1, 0, ON, 0, 0, 0).state, 3, "not straight to S4");
}

#[test]
fn without_bit_10_the_last_word_and_setpoint_stand_in() {
    let mut station = in_operation();
    assert_eq!(station.cycle(1, 0, ON, 0x2000, 0, 0).rpm, 750);
    let cycled = station.cycle(1, 3, 0x0000, 0x1000, 0x2000, 0);
    assert_eq!(cycled, accepted(4, 0x03B7, 750));
    let part = &station.axes[0];
    assert_eq!((part.last_word, part.last_setpoint, part.actual), (ON, 0x2000, 0x2000));
    assert_eq!(Station::fresh().cycle(1, 0, 0x007E, 5, 0, 0).state, 1);
}

#[test]
fn effective_setpoint() {
    let mut station = in_operation();
    station.cycle(1, 0, ON, 400, 0, 0);
    assert_eq!(station.axes[0].effective, 400);
    station.cycle(1, 0, ON & !0x20, 500, 0, 0);
    assert_eq!(station.axes[0].effective, 400, "b5 = 0 holds");
    station.cycle(1, 0, 0, 600, 0, 0);
    assert_eq!((station.axes[0].effective, station.axes[0].last_setpoint), (400, 500), "b5 of the word used");
    for word in [ON & !0x10, ON & !0x40, ON & !0x30, ON & !0x60] {
        let mut station = station.clone();
        station.cycle(1, 0, word, 600, 0, 0);
        assert_eq!(station.axes[0].effective, 0, "{word:04X}");
        station.cycle(1, 0, ON & !0x20, 600, 0, 0);
        assert_eq!(station.axes[0].effective, 0, "the held one is that of the last cycle");
    }
    station.cycle(1, 0, 0x047E, 600, 0, 0);
    assert_eq!((station.axes[0].state, station.axes[0].effective), (State::S51, 0));
}

#[test]
fn faults_are_recorded_once_up_to_eight() {
    let mut station = Station::fresh();
    for code in [11, 12, 11, 0, 13, 14, 15, 16, 17, 18, 19] {
        station.cycle(1, 0, 0x0400, 0, 0, code);
    }
    assert_eq!(station.axes[0].situations[0], [11, 12, 13, 14, 15, 16, 17, 18]);
    assert_eq!(station.axes[0].fault_counter, 8, "the ninth is dropped and does not count");
}

#[test]
fn acknowledge_moves_situations_down() {
    let mut station = Station::fresh();
    for code in 1..=5 {
        station.cycle(1, 0, 0x0400, 0, 0, code);
        assert_eq!(station.cycle(1, 0, 0x0400, 0, 0, 0).status & 8, 8);
        assert_eq!(station.cycle(1, 0, 0x0480, 0, 0, 0).status & 8, 0);
    }
    let part = &station.axes[0];
    assert_eq!(part.situations.map(|codes| codes[0]), [0, 5, 4, 3]);
    assert!(part.situations.iter().all(|codes| codes[1..] == [0; CODES - 1]));
    assert_eq!(part.fault_counter, 10);
}

#[test]
fn an_acknowledge_lets_a_transition_follow_in_the_same_cycle() {
    let mut station = Station::fresh();
    station.cycle(1, 0, 0x0400, 0, 0, 5);
    assert_eq!(station.cycle(1, 0, 0x04FE, 0, 0, 0), accepted(2, 0x0331, 0));
}

#[test]
fn what_is_no_acknowledge() {
    let mut station = Station::fresh();
    station.cycle(1, 0, 0x0480, 0, 0, 5);
    assert_eq!(station.axes[0].situations[0][0], 5);
    station.cycle(1, 0, 0x0480, 0, 0, 0);
    assert_eq!(station.axes[0].situations[0][0], 5, "a held bit 7, its edge used up beside the fault");
    station.cycle(1, 0, 0x0400, 0, 0, 0);
    station.cycle(1, 0, 0x0080, 0, 0, 0);
    assert_eq!(station.axes[0].situations[0][0], 5, "bit 7 without bit 10");
    station.cycle(1, 0, 0x0480, 0, 0, 6);
    assert_eq!(station.axes[0].situations[0][..3], [5, 6, 0], "bit 7 beside a fault code");
    assert_eq!(station.axes[0].fault_counter, 2);
    let mut empty = Station::fresh();
    empty.cycle(1, 0, 0x0480, 0, 0, 0);
    assert_eq!(empty.axes[0].fault_counter, 0, "nothing to acknowledge");
}

#[test]
fn the_counter_wraps() {
    let mut station = Station::fresh();
    station.axes[0].fault_counter = 65535;
    station.cycle(1, 0, 0x0400, 0, 0, 5);
    assert_eq!(station.axes[0].fault_counter, 0);
    station.axes[0].fault_counter = 65535;
    station.cycle(1, 0, 0x0480, 0, 0, 0);
    assert_eq!(station.axes[0].fault_counter, 0);
}
