//! Groups of numbers in the order in which a line holds them.

/// A group that is written to a line and read from it number by number.
pub trait Row: Sized {
    /// Appends the group's numbers.
    fn put(&self, out: &mut Vec<u32>);

    /// Takes the group off the front of the numbers, or nothing if they do not fit.
    fn take(numbers: &mut &[u32]) -> Option<Self>;

    /// Appends the names of the group's numbers.
    fn names(prefix: &str, out: &mut Vec<String>);
}

/// Names a part of a group.
pub fn join(prefix: &str, name: impl std::fmt::Display) -> String {
    if prefix.is_empty() {
        name.to_string()
    } else {
        format!("{prefix}.{name}")
    }
}

impl Row for u32 {
    fn put(&self, out: &mut Vec<u32>) {
        out.push(*self);
    }

    fn take(numbers: &mut &[u32]) -> Option<Self> {
        let (first, rest) = numbers.split_first()?;
        *numbers = rest;
        Some(*first)
    }

    fn names(prefix: &str, out: &mut Vec<String>) {
        out.push(prefix.to_string());
    }
}

impl Row for bool {
    fn put(&self, out: &mut Vec<u32>) {
        out.push(u32::from(*self));
    }

    fn take(numbers: &mut &[u32]) -> Option<Self> {
        match u32::take(numbers)? {
            0 => Some(false),
            1 => Some(true),
            _ => None,
        }
    }

    fn names(prefix: &str, out: &mut Vec<String>) {
        out.push(prefix.to_string());
    }
}

impl Row for u64 {
    fn put(&self, out: &mut Vec<u32>) {
        out.extend([(*self >> 32) as u32, *self as u32]);
    }

    fn take(numbers: &mut &[u32]) -> Option<Self> {
        let high = u64::from(u32::take(numbers)?);
        Some((high << 32) | u64::from(u32::take(numbers)?))
    }

    fn names(prefix: &str, out: &mut Vec<String>) {
        out.extend([join(prefix, "high"), join(prefix, "low")]);
    }
}

impl<T: Row + Copy + Default, const N: usize> Row for [T; N] {
    fn put(&self, out: &mut Vec<u32>) {
        self.iter().for_each(|item| item.put(out));
    }

    fn take(numbers: &mut &[u32]) -> Option<Self> {
        let mut items = [T::default(); N];
        for item in &mut items {
            *item = T::take(numbers)?;
        }
        Some(items)
    }

    fn names(prefix: &str, out: &mut Vec<String>) {
        (0..N).for_each(|place| T::names(&join(prefix, place), out));
    }
}

/// Makes a struct whose fields follow one another in a line.
macro_rules! row {
    ($(#[$note:meta])* $name:ident { $($field:ident: $kind:ty),* $(,)? }) => {
        $(#[$note])*
        #[derive(Debug, Clone, Copy, PartialEq, Eq)]
        pub struct $name {
            $(pub $field: $kind),*
        }

        impl crate::row::Row for $name {
            fn put(&self, out: &mut Vec<u32>) {
                $(self.$field.put(out);)*
            }

            fn take(numbers: &mut &[u32]) -> Option<Self> {
                Some(Self { $($field: crate::row::Row::take(numbers)?),* })
            }

            fn names(prefix: &str, out: &mut Vec<String>) {
                $(<$kind>::names(&crate::row::join(prefix, stringify!($field)), out);)*
            }
        }
    };
}

pub(crate) use row;
