//! Which of a node's leaving channels take a record, the channels being read once.

use super::super::layout::*;
use crate::plan::{Channel, Plan, Window};
use crate::record::MATERIALS;

/// Every fourth bit: the first channel's, by material.
const FIRST: u64 = 0x1111_1111_1111_1111;

pub struct Sets {
    count: usize,
    /// As the masks give them, four bits a material.
    by_mask: u64,
    /// Of the channels that ask for more than a material.
    asked: [Asked; Plan::MOST_AT_A_NODE],
    asked_count: usize,
}

#[derive(Clone, Copy)]
struct Asked {
    place: u8,
    modulus: u8,
    remainder: u8,
    window: Window,
}

impl Sets {
    /// The channels in their order.
    pub fn new(leaving: impl Iterator<Item = Channel>) -> Sets {
        let none = Asked {
            place: 0,
            modulus: 1,
            remainder: 0,
            window: Window::ALL,
        };
        let mut sets = Sets {
            count: 0,
            by_mask: 0,
            asked: [none; Plan::MOST_AT_A_NODE],
            asked_count: 0,
        };
        for channel in leaving {
            sets.add(&channel);
        }
        sets
    }

    fn add(&mut self, channel: &Channel) {
        self.by_mask |= by_material(channel.mask) << self.count;
        if channel.modulus != 1 || channel.window != Window::ALL {
            self.asked[self.asked_count] = Asked {
                place: self.count as u8,
                modulus: channel.modulus,
                remainder: channel.remainder,
                window: channel.window,
            };
            self.asked_count += 1;
        }
        self.count += 1;
    }

    /// Of the sound record at the start of the slot.
    #[inline]
    pub fn of(&self, slot: &[u8]) -> u8 {
        let material = slot[MATERIAL];
        if material >= MATERIALS {
            // A tick.
            return (1 << self.count) - 1;
        }
        let mut set = (self.by_mask >> (4 * material)) as u8 & 0xF;
        if self.asked_count > 0 {
            let piece = number_at(slot, PIECE);
            let mass = u16::from_be_bytes([slot[MASS], slot[MASS + 1]]);
            for asked in &self.asked[..self.asked_count] {
                set &= !(u8::from(!asked.has(piece, mass)) << asked.place);
            }
        }
        set
    }
}

impl Asked {
    fn has(&self, piece: u32, mass: u16) -> bool {
        let is_counted =
            self.modulus == 1 || piece % u32::from(self.modulus) == u32::from(self.remainder);
        self.window.has(mass) & is_counted
    }
}

/// The bits of a mask, each moved to the first of its material's four.
fn by_material(mask: u16) -> u64 {
    let mut bits = u64::from(mask);
    bits = (bits | bits << 24) & 0x0000_00FF_0000_00FF;
    bits = (bits | bits << 12) & 0x000F_000F_000F_000F;
    bits = (bits | bits << 6) & 0x0303_0303_0303_0303;
    (bits | bits << 3) & FIRST
}
