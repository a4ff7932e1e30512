//! A buffer that is lent, with bytes before and after it that must not be
//! touched.

use super::Compared;
use crate::random::Random;

const BORDER: usize = 64;

pub struct Lent {
    bytes: Vec<u8>,
    start: usize,
    length: usize,
    border: u8,
}

impl Lent {
    /// At any place in memory, odd ones included.
    pub fn new(random: &mut Random, lent: &[u8]) -> Lent {
        let border = random.draw() as u8;
        let start = BORDER + random.index(8);
        let mut bytes = vec![border; start];
        bytes.reserve_exact(lent.len() + BORDER);
        bytes.extend(lent);
        bytes.resize(start + lent.len() + BORDER, border);
        Lent {
            bytes,
            start,
            length: lent.len(),
            border,
        }
    }

    pub fn bytes(&self) -> &[u8] {
        &self.bytes[self.start..][..self.length]
    }

    pub fn bytes_mut(&mut self) -> &mut [u8] {
        &mut self.bytes[self.start..][..self.length]
    }

    /// Whether it has the expected bytes and all is whole around it.
    pub fn holds(&self, name: &str, expected: &[u8]) -> Compared<()> {
        if !self.is_border_whole() {
            return Err(format!("a byte outside the lent {name} has changed"));
        }
        if self.bytes() == expected {
            return Ok(());
        }
        let mut pairs = self.bytes().iter().zip(expected);
        let at = pairs.position(|(left, right)| left != right);
        let at = at.expect("buffers of one length");
        let (byte, other) = (self.bytes()[at], expected[at]);
        Err(format!(
            "byte {at} of the {name} is {byte}, the model has {other}"
        ))
    }

    fn is_border_whole(&self) -> bool {
        let (before, rest) = self.bytes.split_at(self.start);
        let after = &rest[self.length..];
        before.iter().chain(after).all(|&byte| byte == self.border)
    }
}
