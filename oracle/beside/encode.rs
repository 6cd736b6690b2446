//! The bytes of a trace, from the numbers in it.
use crate::cases::numbers_of;
use crate::numbers;
use summerset::plain::{Config, Event};

/// In groups of seven bits, the low group first, the high bit set on all but the last.
pub fn groups(mut number: u64) -> Vec<u8> {
    let mut bytes = Vec::new();
    while number >= 0x80 {
        bytes.push(number as u8 | 0x80);
        number >>= 7;
    }
    bytes.push(number as u8);
    bytes
}

/// The number of groups that are as above.
pub fn number(groups: &[u8]) -> u64 {
    groups.iter().rev().fold(0, |number, group| number << 7 | u64::from(group & 0x7f))
}

fn bytes(numbers: &[u64]) -> Vec<u8> {
    numbers.iter().flat_map(|number| groups(*number)).collect()
}

pub fn header(config: &Config) -> Vec<u8> {
    bytes(&numbers_of(config))
}

pub fn event(event: &Event) -> Vec<u8> {
    bytes(&numbers::event(event))
}
