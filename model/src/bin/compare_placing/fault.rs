// The ways in which a replay table can break its limits or order (22). Each
// breaks a table that would otherwise have a placing.

use model::placing::tables::placeable;
use model::placing::{Item, Table, GREATEST, MOST_ITEMS};
use model::random::Random;

use crate::call::{Call, Numbers};

#[derive(Clone, Copy, Debug)]
pub enum Slice {
    Rows,
    Times,
    Fixed,
    Floors,
}

#[derive(Clone, Copy, Debug)]
pub enum Fault {
    TooManyItems,
    LowAboveHigh,
    HighTooLarge,
    RowTooLarge,
    TimeZero,
    TimeTooLarge,
    FloorTooLarge,
    RowsFall,
    TimesEqual,
    TimesFall,
    FixedAtLow,
    FixedAboveHigh,
    FixedWithFloor,
    Shorter(Slice),
    Longer(Slice),
}

impl Fault {
    pub const ALL: [Fault; 21] = [
        Fault::TooManyItems,
        Fault::LowAboveHigh,
        Fault::HighTooLarge,
        Fault::RowTooLarge,
        Fault::TimeZero,
        Fault::TimeTooLarge,
        Fault::FloorTooLarge,
        Fault::RowsFall,
        Fault::TimesEqual,
        Fault::TimesFall,
        Fault::FixedAtLow,
        Fault::FixedAboveHigh,
        Fault::FixedWithFloor,
        Fault::Shorter(Slice::Rows),
        Fault::Shorter(Slice::Times),
        Fault::Shorter(Slice::Fixed),
        Fault::Shorter(Slice::Floors),
        Fault::Longer(Slice::Rows),
        Fault::Longer(Slice::Times),
        Fault::Longer(Slice::Fixed),
        Fault::Longer(Slice::Floors),
    ];

    /// The table before it is broken.
    pub fn sound_table(self, random: &mut Random) -> Table {
        let count = match self {
            Fault::TooManyItems if random.one_in(2) => MOST_ITEMS + 1,
            Fault::TooManyItems => random.between(66, 300) as usize,
            _ => random.between(4, 64) as usize,
        };
        loop {
            let width = count as u32 + random.between(0, 40);
            let low = match random.index(3) {
                0 => 1,
                1 => GREATEST - width,
                _ => random.between(1, GREATEST - width),
            };
            let table = placeable(random, low, low + width, count);
            if offers_a_place_for_every_fault(&table.items) {
                return table;
            }
        }
    }

    /// Breaks a call made of such a table.
    pub fn apply(self, random: &mut Random, call: &mut Call) {
        let count = call.rows.lent;
        match self {
            Fault::TooManyItems => {}
            Fault::LowAboveHigh => {
                call.fixed.held.fill(0);
                if random.one_in(2) {
                    empty(call);
                }
                if random.one_in(2) {
                    (call.low, call.high) = (call.high, call.low);
                } else {
                    call.low = random.pick(&[call.high + 1, GREATEST + 1, u32::MAX]);
                }
            }
            Fault::HighTooLarge => {
                call.high = too_large(random);
                if random.one_in(4) {
                    empty(call);
                }
            }
            Fault::RowTooLarge => {
                let row = random.pick(&[4, 4, 5, 256, 1 << 31, u32::MAX]);
                let last = call.rows.held[count - 1];
                let whole_row = random.one_in(2);
                call.rows.held[count - 1] = row;
                if whole_row {
                    call.rows
                        .held
                        .iter_mut()
                        .filter(|each| **each == last)
                        .for_each(|each| *each = row);
                }
            }
            Fault::TimeZero => {
                let firsts =
                    |index: usize| index == 0 || call.rows.held[index - 1] != call.rows.held[index];
                let index = pick_index(random, count, firsts);
                call.times.held[index] = 0;
            }
            Fault::TimeTooLarge => {
                let lasts = |index: usize| {
                    index + 1 == count || call.rows.held[index + 1] != call.rows.held[index]
                };
                let index = pick_index(random, count, lasts);
                call.times.held[index] = too_large(random);
            }
            Fault::FloorTooLarge => {
                let index = pick_index(random, count, |index| call.fixed.held[index] == 0);
                call.floors.held[index] = too_large(random);
            }
            Fault::RowsFall => {
                if random.one_in(2) {
                    (0..count).for_each(|index| call.times.held[index] = index as u32 + 1);
                }
                let borders =
                    |index: usize| index > 0 && call.rows.held[index - 1] != call.rows.held[index];
                let border = pick_index(random, count, borders);
                if random.one_in(2) {
                    call.rows.held.swap(border - 1, border);
                } else {
                    for numbers in inputs(call) {
                        numbers.held.rotate_left(border);
                    }
                }
            }
            Fault::TimesEqual => {
                let index = pick_second_of_row(random, call);
                call.times.held[index] = call.times.held[index - 1];
            }
            Fault::TimesFall => {
                let index = pick_second_of_row(random, call);
                call.times.held.swap(index - 1, index);
            }
            Fault::FixedAtLow => {
                let index = random.index(count);
                let below = random.between(1, call.low);
                call.fixed.held[index] = random.pick(&[call.low, below]);
                call.floors.held[index] = 0;
            }
            Fault::FixedAboveHigh => {
                let index = random.index(count);
                call.fixed.held[index] = random.pick(&[call.high + 1, 1 << 31, u32::MAX]);
                call.floors.held[index] = 0;
            }
            Fault::FixedWithFloor => {
                let index = pick_index(random, count, |index| call.fixed.held[index] != 0);
                let below = random.between(1, call.fixed.held[index] - 1);
                call.floors.held[index] = random.pick(&[1, below, below, GREATEST]);
            }
            Fault::Shorter(slice) => {
                let less = random.between(1, 3) as usize;
                let lent = if random.one_in(8) { 0 } else { count - less };
                chosen(call, slice).lent = lent;
            }
            Fault::Longer(slice) => {
                for _ in 0..random.between(1, 3) {
                    let next = match slice {
                        Slice::Rows => 3,
                        Slice::Times => GREATEST,
                        Slice::Fixed | Slice::Floors => 0,
                    };
                    let numbers = chosen(call, slice);
                    numbers.held.push(next);
                    numbers.lent += 1;
                }
            }
        }
    }
}

fn offers_a_place_for_every_fault(items: &[Item]) -> bool {
    let pairs = || items.windows(2);
    items.iter().any(Item::is_free)
        && items.iter().any(|item| !item.is_free())
        && pairs().any(|pair| pair[0].row == pair[1].row)
        && pairs().any(|pair| pair[0].row != pair[1].row)
}

fn too_large(random: &mut Random) -> u32 {
    let any = random.between(GREATEST + 1, u32::MAX);
    random.pick(&[
        GREATEST + 1,
        GREATEST + 1,
        GREATEST + 2,
        (1 << 31) - 1,
        1 << 31,
        u32::MAX,
        any,
    ])
}

fn empty(call: &mut Call) {
    for numbers in inputs(call) {
        numbers.lent = 0;
    }
}

fn inputs(call: &mut Call) -> [&mut Numbers; 4] {
    [
        &mut call.rows,
        &mut call.times,
        &mut call.fixed,
        &mut call.floors,
    ]
}

fn chosen(call: &mut Call, slice: Slice) -> &mut Numbers {
    match slice {
        Slice::Rows => &mut call.rows,
        Slice::Times => &mut call.times,
        Slice::Fixed => &mut call.fixed,
        Slice::Floors => &mut call.floors,
    }
}

fn pick_second_of_row(random: &mut Random, call: &Call) -> usize {
    let rows = call.rows.passed();
    pick_index(random, rows.len(), |index| {
        index > 0 && rows[index - 1] == rows[index]
    })
}

fn pick_index(random: &mut Random, count: usize, suits: impl Fn(usize) -> bool) -> usize {
    let indexes: Vec<usize> = (0..count).filter(|&index| suits(index)).collect();
    random.pick(&indexes)
}
