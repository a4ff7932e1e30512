//! Document 01, "The line", and request 2026-05: a record and its 8 bytes.

/// "Material 0..15."
pub const MATERIALS: u8 = 16;

#[derive(Clone, Copy, Debug, PartialEq, Eq)]
pub struct Record {
    pub piece: u32,
    pub material: u8,
    /// "Mass in tenths of a gram."
    pub mass: u16,
}

impl Record {
    pub const LENGTH: usize = 8;

    /// "A record with material 255, piece 0 and mass 0 is a tick." No rule names its
    /// material or caps its mass: "every rule leaves it as it is".
    pub const TICK: Record = Record {
        piece: 0,
        material: 255,
        mass: 0,
    };

    /// "A record is 8 bytes: piece number (4), material 0..15, a zero byte,
    /// mass in tenths of a gram (2)."
    pub fn read(bytes: [u8; Record::LENGTH]) -> Option<Record> {
        let [first, second, third, fourth, material, zero, high, low] = bytes;
        let record = Record {
            piece: u32::from_be_bytes([first, second, third, fourth]),
            material,
            mass: u16::from_be_bytes([high, low]),
        };
        (record.is_sound() && zero == 0).then_some(record)
    }

    pub fn write(&self) -> [u8; Record::LENGTH] {
        let [first, second, third, fourth] = self.piece.to_be_bytes();
        let [high, low] = self.mass.to_be_bytes();
        [first, second, third, fourth, self.material, 0, high, low]
    }

    /// "Refusal 17 and the state check let this one record through."
    #[inline]
    pub fn is_sound(&self) -> bool {
        self.material < MATERIALS || self.is_tick()
    }

    #[inline]
    pub fn is_tick(&self) -> bool {
        self.material == Record::TICK.material && *self == Record::TICK
    }
}

#[cfg(test)]
mod tests {
    use super::Record;

    #[test]
    fn eight_bytes() {
        let bytes = [0x01, 0x02, 0x03, 0x04, 15, 0, 0x05, 0x06];
        let record = Record::read(bytes).unwrap();
        assert_eq!(record.piece, 0x01020304);
        assert_eq!(record.material, 15);
        assert_eq!(record.mass, 0x0506);
        assert_eq!(record.write(), bytes);
        assert_eq!(Record::read([0, 0, 0, 0, 16, 0, 0, 0]), None);
        assert_eq!(Record::read([0, 0, 0, 0, 15, 1, 0, 0]), None);
    }

    #[test]
    fn tick() {
        let bytes = [0, 0, 0, 0, 255, 0, 0, 0];
        let tick = Record::read(bytes).unwrap();
        assert_eq!((tick.piece, tick.material, tick.mass), (0, 255, 0));
        assert!(tick.is_tick() && tick.is_sound());
        assert_eq!(tick, Record::TICK);
        assert_eq!(tick.write(), bytes);
        for (at, byte) in [
            (0, 1),
            (3, 1),
            (3, 255),
            (4, 16),
            (4, 127),
            (4, 254),
            (5, 1),
            (5, 255),
            (6, 1),
            (7, 1),
        ] {
            let mut almost = bytes;
            almost[at] = byte;
            assert_eq!(Record::read(almost), None, "{almost:?}");
        }
        // Piece 0 and mass 0 of a material are no tick.
        for material in [0, 15] {
            let record = Record::read([0, 0, 0, 0, material, 0, 0, 0]).unwrap();
            assert!(!record.is_tick());
        }
    }
}
