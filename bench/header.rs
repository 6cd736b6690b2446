//! The constants of the C header.
const TEXT: &str = include_str!("../include/njimbaros.h");

pub fn number(name: &str) -> u64 {
    let value = |line: &str| {
        let mut words = line.split_whitespace();
        (words.next() == Some("#define") && words.next() == Some(name)).then(|| words.next()?.parse().ok())?
    };
    TEXT.lines().find_map(value).unwrap_or_else(|| panic!("{name} is no number of the header"))
}
