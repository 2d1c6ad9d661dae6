//! All settings of a farm: the parameters that can be written, by the twin's table.

use crate::layout::Block;
use twin::{Address, Parameter};

/// The numbers of the parameters that are settings, in their order.
pub fn parameters() -> impl Iterator<Item = u16> {
    (0..=u16::MAX).filter(|pnu| Parameter::find(*pnu).is_some_and(|parameter| parameter.limits().is_some()))
}

/// The elements of a parameter.
pub fn elements(pnu: u16) -> u16 {
    Parameter::find(pnu).and_then(Parameter::array_length).unwrap_or(1) as u16
}

/// All settings, each by its parameter and its index.
pub fn all() -> Vec<(u16, u16)> {
    parameters().flat_map(|pnu| (0..elements(pnu)).map(move |index| (pnu, index))).collect()
}

/// The request block that asks an axis for all of them.
pub fn request(axis: u8) -> Block {
    let address = |pnu| Address { attribute: 0x10, elements: elements(pnu) as u8, pnu, sub_index: 0 };
    let addresses: Vec<_> = parameters().map(address).collect();
    Block { reference: 1, identifier: 0x01, axis, count: addresses.len() as u8, addresses, values: Vec::new() }
}

/// The values in the response block to it, in the order of `all`; none where it is unreadable or has an error.
pub fn values(block: &[u8]) -> Option<Vec<i32>> {
    let block = Block::of_response(block).filter(|block| block.identifier == 0x01)?;
    // A word fills the low half of its 32 bits; a double word, the only signed one, is all of them.
    Some(block.values.iter().flat_map(|values| &values.values).map(|value| *value as i32).collect())
}

#[cfg(test)]
mod tests {
    use super::*;
    use crate::notation;

    #[test]
    fn the_settings_of_the_table() {
        assert_eq!(parameters().collect::<Vec<_>>(), [9900, 9901, 10111, 30001, 30002, 30003, 30004]);
        let all = all();
        assert_eq!((all.len(), all[0], all[8], all[10], all[17]), (18, (9900, 0), (9901, 7), (30001, 0), (30004, 1)));
    }

    #[test]
    fn people_are_told_what_can_be_set() {
        let help = include_str!("../help/who.txt");
        let told: Vec<_> = help.lines().filter_map(|line| line.strip_prefix("    ")).collect();
        assert_eq!(told.len(), parameters().count());
        for (pnu, line) in parameters().zip(told) {
            let (low, high) = Parameter::find(pnu).and_then(Parameter::limits).unwrap();
            let elements = notation::elements(pnu, 0, elements(pnu) as u8);
            let words: Vec<_> = line.split_whitespace().take(4).collect();
            assert_eq!(words, [elements, low.to_string(), "to".to_string(), high.to_string()]);
        }
    }

    #[test]
    fn the_read_of_all_settings() {
        let block = request(9).bytes();
        assert_eq!(block[..4], [1, 1, 9, 7]);
        assert_eq!(block[4..16], [0x10, 1, 0x26, 0xAC, 0, 0, 0x10, 8, 0x26, 0xAD, 0, 0]);
        assert_eq!(block.len(), 46);
    }

    #[test]
    fn words_have_no_sign_and_double_words_have() {
        let block = [1, 1, 9, 2, 0x42, 1, 0xFF, 0xFF, 0x43, 1, 0xFF, 0xFF, 0xFF, 0xEC];
        assert_eq!(values(&block), Some(vec![65535, -20]));
        assert_eq!(values(&[1, 0x81, 9, 1, 0x44, 1, 0, 0]), None);
        assert_eq!(values(&block[..9]), None);
    }
}
