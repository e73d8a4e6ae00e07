//! Lent bytes between two guards, so that a write beside them is seen.

/// The byte of the guards.
const GUARD: u8 = 0xc3;

/// Bytes to lend, with a guard before and behind them.
pub struct Guarded {
    room: Vec<u8>,
    from: usize,
    length: usize,
}

impl Guarded {
    /// A copy of these bytes, so many bytes behind the beginning of the room: the address is aligned or not.
    pub fn new(bytes: &[u8], shift: usize) -> Guarded {
        let from = 64 + shift;
        let mut room = vec![GUARD; from + bytes.len() + 64];
        room[from..from + bytes.len()].copy_from_slice(bytes);
        Guarded { room, from, length: bytes.len() }
    }

    /// Where the bytes begin.
    pub fn pointer(&mut self) -> *mut u8 {
        self.room[self.from..].as_mut_ptr()
    }

    pub fn length(&self) -> usize {
        self.length
    }

    pub fn bytes(&self) -> &[u8] {
        &self.room[self.from..self.from + self.length]
    }

    /// Whether both guards are as they were.
    pub fn guards_stand(&self) -> bool {
        self.room[..self.from].iter().chain(&self.room[self.from + self.length..]).all(|&b| b == GUARD)
    }
}
