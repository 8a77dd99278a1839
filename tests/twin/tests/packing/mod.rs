//! Rule files put together field by field.

/// What outputs hold before a call.
pub const FILLER: u8 = 0xa5;

/// Packs values of given widths, with zero bits up to a whole byte.
pub fn pack(fields: &[(u32, usize)]) -> Vec<u8> {
    let text: String = fields.iter().map(|&(value, width)| format!("{value:0width$b}")).collect();
    let padded = format!("{text:0<width$}", width = text.len().div_ceil(8) * 8);
    padded.as_bytes().chunks(8).map(|bits| bits.iter().fold(0, |byte, bit| byte << 1 | (bit - b'0'))).collect()
}

pub fn header(symbols: u32, w0: u32, rules: u32) -> Vec<(u32, usize)> {
    vec![(2, 4), (symbols, 8), (w0, 16), (rules, 10)]
}

pub fn symbol(arity: u32, ac: u32, weight: u32, rank: u32) -> Vec<(u32, usize)> {
    vec![(arity, 3), (ac, 1), (weight, 16), (rank, 8)]
}

pub fn node(number: u32) -> Vec<(u32, usize)> {
    vec![(0, 1), (number, 8)]
}

pub fn variable(number: u32) -> Vec<(u32, usize)> {
    vec![(1, 1), (number, 4)]
}

/// A book of a constant 0 and a symbol 1 of arity 1, with w0 = 1; its rules start at bit 94.
pub fn book(rules: u32, nodes: &[(u32, usize)]) -> Vec<u8> {
    pack(&[header(2, 1, rules), symbol(0, 0, 1, 7), symbol(1, 0, 1, 3), nodes.to_vec()].concat())
}

/// The words of that book without rules.
pub const SHEET: [u16; 12] = [2, 2, 1, 0, 0, 0, 1, 7, 1, 0, 1, 3];
