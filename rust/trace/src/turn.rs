//! One step of a schedule.

/// One step, as the program's input has it: the low four bits are the thread
/// number, the top bit says that new fails.
#[derive(Clone, Copy, Debug, PartialEq, Eq)]
pub struct Turn(pub u8);

impl Turn {
    /// The highest thread number that a turn can name.
    pub const HIGHEST: u8 = 0x0F;

    pub fn new(thread: u8, fails: bool) -> Turn {
        Turn(thread & Turn::HIGHEST | if fails { 0x80 } else { 0 })
    }

    pub fn thread(self) -> u8 {
        self.0 & Turn::HIGHEST
    }

    pub fn fails(self) -> bool {
        self.0 & 0x80 != 0
    }
}
