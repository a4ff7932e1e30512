//! Document 01, "The line": a node's rule and its 4 bytes.

use crate::record::{Record, MATERIALS};

/// "A node's rule is one of three: keep, relabel or cap."
#[derive(Clone, Copy, Debug, PartialEq, Eq)]
pub enum Rule {
    Keep,
    /// "Material p becomes q."
    Relabel {
        from: u8,
        to: u8,
    },
    /// "A mass above q becomes q."
    Cap {
        greatest: u16,
    },
}

impl Rule {
    pub const LENGTH: usize = 4;

    /// "Rule bytes: kind, p, q (2 bytes). Keep is kind 0, p = q = 0. Relabel is
    /// kind 1: both 0..15. Cap is kind 2, p = 0: q 1..65535."
    pub fn read(bytes: [u8; Rule::LENGTH]) -> Option<Rule> {
        let [kind, first, high, low] = bytes;
        let second = u16::from_be_bytes([high, low]);
        match kind {
            0 if first == 0 && second == 0 => Some(Rule::Keep),
            1 if first < MATERIALS && second < u16::from(MATERIALS) => Some(Rule::Relabel {
                from: first,
                to: low,
            }),
            2 if first == 0 && second >= 1 => Some(Rule::Cap { greatest: second }),
            _ => None,
        }
    }

    pub fn write(&self) -> [u8; Rule::LENGTH] {
        match *self {
            Rule::Keep => [0, 0, 0, 0],
            Rule::Relabel { from, to } => [1, from, 0, to],
            Rule::Cap { greatest } => {
                let [high, low] = greatest.to_be_bytes();
                [2, 0, high, low]
            }
        }
    }

    pub fn apply(&self, record: Record) -> Record {
        match *self {
            Rule::Relabel { from, to } if record.material == from => Record {
                material: to,
                ..record
            },
            Rule::Cap { greatest } if record.mass > greatest => Record {
                mass: greatest,
                ..record
            },
            _ => record,
        }
    }
}

#[cfg(test)]
mod tests {
    use super::Rule;
    use crate::plan::practice::WRONG_RULES;
    use crate::record::Record;

    #[test]
    fn four_bytes() {
        let sound = [
            ([0, 0, 0, 0], Rule::Keep),
            ([1, 15, 0, 15], Rule::Relabel { from: 15, to: 15 }),
            ([1, 0, 0, 3], Rule::Relabel { from: 0, to: 3 }),
            ([2, 0, 0, 1], Rule::Cap { greatest: 1 }),
            ([2, 0, 255, 255], Rule::Cap { greatest: 65535 }),
        ];
        for (bytes, rule) in sound {
            assert_eq!(Rule::read(bytes), Some(rule));
            assert_eq!(rule.write(), bytes);
        }
        for bytes in WRONG_RULES {
            assert_eq!(Rule::read(bytes), None);
        }
    }

    #[test]
    fn applied() {
        let record = Record {
            piece: 7,
            material: 3,
            mass: 100,
        };
        assert_eq!(Rule::Keep.apply(record), record);
        assert_eq!(Rule::Relabel { from: 3, to: 9 }.apply(record).material, 9);
        assert_eq!(Rule::Relabel { from: 9, to: 3 }.apply(record), record);
        assert_eq!(Rule::Cap { greatest: 99 }.apply(record).mass, 99);
        assert_eq!(Rule::Cap { greatest: 100 }.apply(record), record);
    }

    /// Of a tick: "every rule leaves it as it is".
    #[test]
    fn applied_to_a_tick() {
        let pairs = (0..16).flat_map(|from| (0..16).map(move |to| (from, to)));
        let relabels = pairs.map(|(from, to)| Rule::Relabel { from, to });
        let caps = (1..=u16::MAX).map(|greatest| Rule::Cap { greatest });
        for rule in [Rule::Keep].into_iter().chain(relabels).chain(caps) {
            assert_eq!(rule.apply(Record::TICK), Record::TICK, "{rule:?}");
        }
    }
}
