//! What a check for trades is given.

use crate::row::row;

row! {
    /// How much of the sheet held and of the list held is lent, and what every entry of the list is before, of 16 bits.
    LentList {
        sheet_length: u32,
        length: u32,
        fill: u32,
    }
}
