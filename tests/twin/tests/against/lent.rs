//! Memory lent to a call, between guards that the call must neither read nor change.

/// The elements before and after what is lent.
const GUARD: usize = 3;

/// A byte or a word.
pub trait Element: Copy + PartialEq {
    /// The low bits of a number.
    fn cut(number: u32) -> Self;
}

impl Element for u8 {
    fn cut(number: u32) -> Self {
        number as u8
    }
}

impl Element for u16 {
    fn cut(number: u32) -> Self {
        number as u16
    }
}

/// What an output holds before a call: elements that differ from place to place.
pub fn pattern<T: Element>(len: usize) -> Vec<T> {
    (0..len as u32).map(|index| T::cut(index.wrapping_mul(0x9e37_79b1) >> 16)).collect()
}

/// What stands around lent memory.
#[derive(Clone, Copy)]
pub enum Around {
    Zeros,
    Ones,
}

/// Memory with guards around its content.
#[derive(PartialEq)]
pub struct Lent<T> {
    memory: Vec<T>,
}

impl<T: Element> Lent<T> {
    pub fn new(content: &[T], around: Around) -> Self {
        let guard = match around {
            Around::Zeros => [T::cut(0); GUARD],
            Around::Ones => [T::cut(u32::MAX); GUARD],
        };
        Lent { memory: [&guard, content, &guard].concat() }
    }

    pub fn content(&self) -> &[T] {
        &self.memory[GUARD..self.memory.len() - GUARD]
    }

    pub fn content_mut(&mut self) -> &mut [T] {
        let end = self.memory.len() - GUARD;
        &mut self.memory[GUARD..end]
    }
}
