//! Log macros that write nothing.

/// Drops a log line.
macro_rules! silent {
    ($($words:tt)*) => {
        ()
    };
}

pub(crate) use silent as error;
pub(crate) use silent as info;
