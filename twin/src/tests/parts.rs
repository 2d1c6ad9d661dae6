use super::hex;
use crate::{well_formed, Axis, Settings, State, Versions, Waiting, BLOCK_MAX};

/// Whether a fresh part with this change is well-formed for axis 1.
fn after(change: impl FnOnce(&mut Axis)) -> bool {
    let mut part = Axis::fresh();
    change(&mut part);
    well_formed(&part, 1)
}

fn waiting(text: &str) -> Option<Waiting> {
    let block = hex(text);
    let mut bytes = [0; BLOCK_MAX];
    bytes[..block.len()].copy_from_slice(&block);
    Some(Waiting { bytes, length: block.len() })
}

#[test]
fn fresh_is_well_formed_for_every_axis() {
    assert!((1..=16).all(|axis| well_formed(&Axis::fresh(), axis)));
}

#[test]
fn fixed_parameters() {
    assert!(!after(|part| part.p930 = 0));
    assert!(!after(|part| part.p930 = 0x0101));
    assert!(!after(|part| part.p965 = [3, 42]));
    assert!(!after(|part| part.p965 = [41, 3]));
}

#[test]
fn limits() {
    assert!(after(|part| part.settings.p10111 = 1));
    assert!(!after(|part| part.settings.p10111 = 0));
    assert!(after(|part| part.settings.p10111 = 60000));
    assert!(!after(|part| part.settings.p10111 = 60001));
    assert!(after(|part| part.settings.p30001 = [3000; 4]));
    assert!((0..4).all(|i| !after(|part| part.settings.p30001[i] = 3001)));
    assert!(after(|part| part.settings.p30002 = 16384));
    assert!(!after(|part| part.settings.p30002 = 16385));
    assert!(after(|part| part.settings.p30003 = 32767));
    assert!(!after(|part| part.settings.p30003 = 32768));
    assert!(after(|part| part.settings.p30004 = [-100_000, 100_000]));
    assert!((0..2).all(|i| !after(|part| part.settings.p30004[i] = 100_001)));
    assert!((0..2).all(|i| !after(|part| part.settings.p30004[i] = -100_001)));
    assert!((0..2).all(|i| !after(|part| part.settings.p30004[i] = i32::MIN)));
}

#[test]
fn situations() {
    for i in 0..4 {
        assert!(after(|part| part.situations[i] = [8, 7, 6, 5, 4, 3, 2, 1]));
        assert!(after(|part| part.situations[i] = [8, 65535, 0, 0, 0, 0, 0, 0]));
        assert!(!after(|part| part.situations[i] = [0, 0, 0, 0, 0, 0, 0, 1]));
        assert!(!after(|part| part.situations[i] = [1, 0, 2, 0, 0, 0, 0, 0]));
        assert!(!after(|part| part.situations[i] = [1, 2, 1, 0, 0, 0, 0, 0]));
        assert!(!after(|part| part.situations[i] = [9, 7, 6, 5, 4, 3, 2, 9]));
    }
    assert!(after(|part| part.situations = [[5, 0, 0, 0, 0, 0, 0, 0]; 4]), "each situation for itself");
}

#[test]
fn versions() {
    let kept = |settings: Settings| Versions { dropped: 0, kept: [settings].into() };
    assert!(after(|part| part.versions = kept(Settings::fresh())));
    assert!(after(|part| part.versions = Versions { dropped: 65519, kept: vec![Settings::fresh(); 16].into() }));
    assert!(after(|part| part.versions = kept(Settings { p10111: 60000, p30001: [3000; 4], ..Settings::fresh() })));
    assert!(!after(|part| part.versions = kept(Settings { p10111: 60001, ..Settings::fresh() })));
    assert!(!after(|part| part.versions = kept(Settings { p30001: [0, 0, 0, 3001], ..Settings::fresh() })));
}

#[test]
fn other_fields_may_hold_anything() {
    assert!(after(|part| {
        part.state = State::S52;
        part.last_word = 0xFFFF;
        part.last_setpoint = i16::MIN;
        part.effective = i16::MAX;
        part.status = 0xFFFF;
        part.actual = i16::MIN;
        part.fault_counter = 0xFFFF;
        part.settings.p9900 = 0xFFFF;
        part.settings.p9901 = [0xFFFF; 8];
    }));
}

#[test]
fn waiting_responses() {
    assert!(after(|part| part.waiting = waiting("07 82 01 01 44 01 00 02")));
    assert!(!after(|part| part.waiting = waiting("07 82 02 01 44 01 00 02")), "another axis");
    assert!(!after(|part| part.waiting = waiting("07 82 01 01 44 01 00 02 00")), "a byte left over");
    assert!(!after(|part| part.waiting = waiting("07 82 01 01 44 01 00")));
    assert!(!after(|part| part.waiting = waiting("")));
    assert!(!after(|part| {
        part.waiting = waiting("07 02 01 01");
        part.waiting.as_mut().unwrap().bytes[239] = 1;
    }));
    assert!(!after(|part| {
        part.waiting = waiting("07 02 01 01");
        part.waiting.as_mut().unwrap().length = 241;
    }));
    assert!(!after(|part| {
        part.waiting = waiting("07 02 01 01");
        part.waiting.as_mut().unwrap().length = usize::MAX;
    }));
}

#[test]
fn fill_bytes_of_waiting_responses() {
    assert!(after(|part| part.waiting = waiting("07 01 01 01 41 01 03 00")));
    assert!(after(|part| part.waiting = waiting("07 01 01 01 41 02 03 29")));
    assert!(
        after(|part| part.waiting = waiting("07 01 01 02 41 03 01 02 03 00 42 01 00 01")),
        "not ours, but readable"
    );
    let unreadable = [
        ("07 01 01 01 41 01 03", "the zero after it is outside the block"),
        ("07 01 01 01 41 01 03 01", "another byte"),
        ("07 01 01 01 41 01 03 00 00", "a second one"),
        ("07 01 01 01 41 02 03 29 00", "one after an even count"),
        ("07 01 01 02 41 01 03 42 01 00 01", "none in the middle"),
        ("07 01 01 02 41 01 03 FF 42 01 00 01", "another byte in the middle"),
        ("07 81 01 02 41 01 03 44 01 00 02", "none before an error block"),
        ("07 82 01 02 40 00 00 44 01 00 02", "one after 40 00"),
        ("07 82 01 02 44 01 00 02 00 40 00", "one after an error block"),
    ];
    for (block, why) in unreadable {
        assert!(!after(|part| part.waiting = waiting(block)), "{why}");
    }
}

#[test]
fn state_codes() {
    assert_eq!(State::ALL.map(State::code), [1, 2, 3, 4, 51, 52]);
    assert!(State::ALL.iter().all(|state| State::from_code(state.code()) == Some(*state)));
    assert_eq!((0..=255).filter_map(State::from_code).count(), 6);
}
