//! The answer to the question for a special register's word, RULES 25.2.

use crate::row::{Row, join};

/// What the caller says of the special register that a tick asks for.
#[derive(Debug, Clone, Copy, PartialEq, Eq)]
pub enum Special {
    NotGiven,
    NoSuchRegister,
    Word(u32),
}

impl Special {
    /// Tells whether there is an answer, a word or no such register.
    pub fn is_given(self) -> bool {
        self != Special::NotGiven
    }
}

impl Row for Special {
    fn put(&self, out: &mut Vec<u32>) {
        out.extend(match *self {
            Special::NotGiven => [0, 0],
            Special::NoSuchRegister => [1, 0],
            Special::Word(word) => [2, word],
        });
    }

    fn take(numbers: &mut &[u32]) -> Option<Self> {
        match <[u32; 2]>::take(numbers)? {
            [0, 0] => Some(Special::NotGiven),
            [1, 0] => Some(Special::NoSuchRegister),
            [2, word] => Some(Special::Word(word)),
            _ => None,
        }
    }

    fn names(prefix: &str, out: &mut Vec<String>) {
        out.extend([join(prefix, "kind"), join(prefix, "word")]);
    }
}
