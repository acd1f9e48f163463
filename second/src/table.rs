//! An open-addressing table from 64-bit sets of marks to small numbers. It is emptied in one stroke by raising
//! the stamp, since a cause list empties it thousands of times.

pub struct Table {
    keys: Vec<u64>,
    /// stamp in the high half, value in the low half; an older stamp means an empty slot
    slots: Vec<u64>,
    stamp: u32,
    used: usize,
}

impl Default for Table {
    fn default() -> Self {
        Table::new()
    }
}

impl Table {
    pub fn new() -> Table {
        Table { keys: vec![0; 256], slots: vec![0; 256], stamp: 1, used: 0 }
    }

    pub fn clear(&mut self) {
        self.used = 0;
        if self.stamp == u32::MAX {
            self.slots.fill(0);
            self.stamp = 0;
        }
        self.stamp += 1;
    }

    /// The slot that holds the key, or the empty one where it belongs.
    fn slot(&self, key: u64) -> usize {
        let mask = self.keys.len() - 1;
        let mut at = (key.wrapping_mul(0x9e37_79b9_7f4a_7c15) >> 32) as usize & mask;
        while self.is_used(at) && self.keys[at] != key {
            at = (at + 1) & mask;
        }
        at
    }

    fn is_used(&self, at: usize) -> bool {
        (self.slots[at] >> 32) as u32 == self.stamp
    }

    pub fn get(&self, key: u64) -> Option<u32> {
        let at = self.slot(key);
        self.is_used(at).then(|| self.slots[at] as u32)
    }

    /// The value already there, or None after the given value was put there.
    pub fn get_or_put(&mut self, key: u64, value: u32) -> Option<u32> {
        let mut at = self.slot(key);
        if self.is_used(at) {
            return Some(self.slots[at] as u32);
        }
        if 2 * self.used >= self.keys.len() {
            self.grow();
            at = self.slot(key);
        }
        self.keys[at] = key;
        self.slots[at] = (self.stamp as u64) << 32 | value as u64;
        self.used += 1;
        None
    }

    fn grow(&mut self) {
        let size = 2 * self.keys.len();
        let keys = std::mem::replace(&mut self.keys, vec![0; size]);
        let slots = std::mem::replace(&mut self.slots, vec![0; size]);
        for (key, slot) in keys.into_iter().zip(slots) {
            if (slot >> 32) as u32 == self.stamp {
                let at = self.slot(key);
                self.keys[at] = key;
                self.slots[at] = slot;
            }
        }
    }
}
