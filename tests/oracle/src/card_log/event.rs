//! An event of a tick, as the numbers of a line and as its entry in the log.

/// The command bytes.
pub const RETIRED: u8 = 0x80;
pub const WRITTEN: u8 = 0x81;
pub const LOADED: u8 = 0x82;
pub const STORED: u8 = 0x83;

/// What happened.
#[derive(Debug, Clone, Copy, PartialEq, Eq)]
pub enum Event {
    /// The instruction at an address retired.
    Retired(u32),
    /// A register got a word.
    Written(u32, u32),
    Loaded(Access),
    Stored(Access),
}

/// A load with the word as answered, or a store with the word cut to its width.
#[derive(Debug, Clone, Copy, PartialEq, Eq)]
pub struct Access {
    pub address: u32,
    pub width: u32,
    pub word: u32,
}

/// Gives the four numbers of an event in a line, all 0 for none.
pub fn numbers(event: Option<Event>) -> [u32; 4] {
    match event {
        None => [0; 4],
        Some(Event::Retired(address)) => [RETIRED.into(), address, 0, 0],
        Some(Event::Written(register, word)) => [WRITTEN.into(), register, word, 0],
        Some(Event::Loaded(access)) => access.numbers_behind(LOADED),
        Some(Event::Stored(access)) => access.numbers_behind(STORED),
    }
}

impl Event {
    /// Appends the entry: the command, then its numbers, high byte first.
    pub fn put(self, log: &mut Vec<u8>) {
        match self {
            Event::Retired(address) => {
                log.push(RETIRED);
                log.extend(address.to_be_bytes());
            }
            Event::Written(register, word) => {
                log.extend([WRITTEN, register as u8]);
                log.extend(word.to_be_bytes());
            }
            Event::Loaded(access) => access.put_behind(LOADED, log),
            Event::Stored(access) => access.put_behind(STORED, log),
        }
    }
}

impl Access {
    /// Gives the four numbers behind a command.
    fn numbers_behind(self, command: u8) -> [u32; 4] {
        [command.into(), self.address, self.width, self.word]
    }

    /// Appends the entry with a command.
    fn put_behind(self, command: u8, log: &mut Vec<u8>) {
        log.push(command);
        log.extend(self.address.to_be_bytes());
        log.push(self.width as u8);
        log.extend(self.word.to_be_bytes());
    }
}
