//! The answers and their numbers. Document 01, "What is answered".

/// What a call answers. Each case but `Done` and `Waits` leaves everything unchanged.
#[derive(Clone, Copy, PartialEq, Eq, Debug)]
pub enum Answer {
    /// 0: applied, saved, loaded or read; with the number applied in the call, the
    /// number dropped, and the bytes written to the caller's buffer.
    Done { applied: usize, dropped: usize, written: usize },
    /// 1: message, edit or way not in the layout, or the device's number not 1 to 8.
    NotInLayout,
    /// 2: counter not above every deps entry.
    NotAboveDeps,
    /// 3: counter not above seen entry r (a repeat, or older).
    NotAboveSeen,
    /// 4: own deps entry below seen entry r.
    OwnDepsBelowSeen,
    /// 5: not ready, now waiting.
    Waits,
    /// 6: not ready, and the same id waits already.
    WaitsAlready,
    /// 7: not ready, 64 wait.
    TooManyWait,
    /// 8: an element id in the way isn't covered by deps, or isn't an element of that list.
    NotAnElement,
    /// 9: insert after an element whose id is not smaller.
    PrevNotSmaller,
    /// 10: the document after this operation would be over a limit.
    OverLimit,
    /// 11: local edit, a seen entry is 4294967295.
    CountersUsedUp,
    /// 12: the sheet breaks a rule, first at this line.
    BreaksAt { line: usize },
    /// 13: the caller's buffer is too short, this many bytes are needed.
    BufferShort { needed: usize },
    /// 14: way unknown, place without marks, or no such index.
    NotThere,
}

impl Answer {
    /// The number in document 01's table.
    pub fn number(&self) -> u8 {
        match self {
            Answer::Done { .. } => 0,
            Answer::NotInLayout => 1,
            Answer::NotAboveDeps => 2,
            Answer::NotAboveSeen => 3,
            Answer::OwnDepsBelowSeen => 4,
            Answer::Waits => 5,
            Answer::WaitsAlready => 6,
            Answer::TooManyWait => 7,
            Answer::NotAnElement => 8,
            Answer::PrevNotSmaller => 9,
            Answer::OverLimit => 10,
            Answer::CountersUsedUp => 11,
            Answer::BreaksAt { .. } => 12,
            Answer::BufferShort { .. } => 13,
            Answer::NotThere => 14,
        }
    }
}

/// Writes `bytes` at the start of `buffer`, or answers 13 and writes nothing.
pub fn fill(buffer: &mut [u8], bytes: &[u8]) -> Answer {
    match buffer.get_mut(..bytes.len()) {
        None => Answer::BufferShort { needed: bytes.len() },
        Some(start) => {
            start.copy_from_slice(bytes);
            Answer::Done { applied: 0, dropped: 0, written: bytes.len() }
        }
    }
}
