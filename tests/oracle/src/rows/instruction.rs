//! Instructions in their three forms: fetched, decoded and offered.

use crate::cpu_pipeline::harness::Numbers;
use crate::row::{Row, join};

impl Row for Numbers {
    fn put(&self, out: &mut Vec<u32>) {
        out.push(self.variant);
        self.fields.put(out);
    }

    fn take(numbers: &mut &[u32]) -> Option<Self> {
        Some(Self {
            variant: Row::take(numbers)?,
            fields: Row::take(numbers)?,
        })
    }

    fn names(prefix: &str, out: &mut Vec<String>) {
        out.push(join(prefix, "variant"));
        out.extend((1..=3).map(|place| join(prefix, format_args!("f{place}"))));
    }
}

/// A fetched instruction.
#[derive(Debug, Clone, Copy, PartialEq, Eq)]
pub enum Raw {
    Normal(Numbers),
    Short(u32),
}

/// A decoded instruction.
#[derive(Debug, Clone, Copy, PartialEq, Eq)]
pub enum Decoded {
    Normal(Numbers),
    Short(Numbers),
}

/// What the caller offers a tick.
#[derive(Debug, Clone, Copy, PartialEq, Eq)]
pub enum Offer {
    Nothing,
    Normal(Numbers),
    Short(u32),
}

/// Appends a tag and a halfword, filled up to five numbers.
fn put_halfword(tag: u32, halfword: u32, out: &mut Vec<u32>) {
    out.extend([tag, halfword, 0, 0, 0]);
}

/// Takes a halfword and the three zeros behind it.
fn take_halfword(numbers: &mut &[u32]) -> Option<u32> {
    let halfword = u32::take(numbers)?;
    (halfword <= 0xffff && <[u32; 3]>::take(numbers)? == [0; 3]).then_some(halfword)
}

/// Names a tag and the four numbers behind it.
fn names_behind_tag(prefix: &str, out: &mut Vec<String>) {
    out.push(join(prefix, "kind"));
    Numbers::names(prefix, out);
}

impl Row for Raw {
    fn put(&self, out: &mut Vec<u32>) {
        match self {
            Raw::Normal(instruction) => {
                out.push(0);
                instruction.put(out);
            }
            Raw::Short(halfword) => put_halfword(1, *halfword, out),
        }
    }

    fn take(numbers: &mut &[u32]) -> Option<Self> {
        match u32::take(numbers)? {
            0 => Numbers::take(numbers).map(Raw::Normal),
            1 => take_halfword(numbers).map(Raw::Short),
            _ => None,
        }
    }

    fn names(prefix: &str, out: &mut Vec<String>) {
        names_behind_tag(prefix, out);
    }
}

impl Row for Decoded {
    fn put(&self, out: &mut Vec<u32>) {
        let (tag, instruction) = match self {
            Decoded::Normal(instruction) => (0, instruction),
            Decoded::Short(instruction) => (1, instruction),
        };
        out.push(tag);
        instruction.put(out);
    }

    fn take(numbers: &mut &[u32]) -> Option<Self> {
        match u32::take(numbers)? {
            0 => Numbers::take(numbers).map(Decoded::Normal),
            1 => Numbers::take(numbers).map(Decoded::Short),
            _ => None,
        }
    }

    fn names(prefix: &str, out: &mut Vec<String>) {
        names_behind_tag(prefix, out);
    }
}

impl Row for Offer {
    fn put(&self, out: &mut Vec<u32>) {
        match self {
            Offer::Nothing => out.extend([0; 5]),
            Offer::Normal(instruction) => {
                out.push(1);
                instruction.put(out);
            }
            Offer::Short(halfword) => put_halfword(2, *halfword, out),
        }
    }

    fn take(numbers: &mut &[u32]) -> Option<Self> {
        match u32::take(numbers)? {
            0 => (<[u32; 4]>::take(numbers)? == [0; 4]).then_some(Offer::Nothing),
            1 => Numbers::take(numbers).map(Offer::Normal),
            2 => take_halfword(numbers).map(Offer::Short),
            _ => None,
        }
    }

    fn names(prefix: &str, out: &mut Vec<String>) {
        names_behind_tag(prefix, out);
    }
}
