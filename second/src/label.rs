//! Labels: sets of marks "line holds" and "line fails" (document 01, "Labels and the order of the rules").

/// Bit i of the low half: line i holds. Bit i of the high half: line i fails.
#[derive(Clone, Copy, PartialEq, Eq, Debug, Default)]
pub struct Label(pub u64);

impl Label {
    pub const EMPTY: Label = Label(0);

    pub fn holds(line: u8) -> Label {
        Label(1 << line)
    }

    pub fn fails(line: u8) -> Label {
        Label(1 << (32 + line))
    }

    pub fn join(self, other: Label) -> Label {
        Label(self.0 | other.0)
    }

    /// The marks of this label that the other lacks.
    pub fn without(self, other: Label) -> Label {
        Label(self.0 & !other.0)
    }

    pub fn is_empty(self) -> bool {
        self.0 == 0
    }

    pub fn has_all(self, other: Label) -> bool {
        self.0 & other.0 == other.0
    }

    pub fn has_any(self, other: Label) -> bool {
        self.0 & other.0 != 0
    }

    /// The lines that hold.
    pub fn holding(self) -> u32 {
        self.0 as u32
    }

    /// The lines that fail.
    pub fn failing(self) -> u32 {
        (self.0 >> 32) as u32
    }

    /// The lines with any mark.
    pub fn marked(self) -> u32 {
        self.holding() | self.failing()
    }

    /// The marks on the given lines only.
    pub fn on(self, lines: u32) -> Label {
        Label(self.0 & (lines as u64 | (lines as u64) << 32))
    }
}

/// The numbers of the bits set, ascending.
pub fn bits(mut mask: u32) -> impl Iterator<Item = usize> {
    std::iter::from_fn(move || {
        if mask == 0 {
            return None;
        }
        let low = mask.trailing_zeros() as usize;
        mask &= mask - 1;
        Some(low)
    })
}
