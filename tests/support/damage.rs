//! Changed bytes.

/// Adds `amount` to the byte at `offset`, past 255 from 0 on.
pub fn change_byte(bytes: &mut [u8], offset: usize, amount: u8) {
    if let Some(byte) = bytes.get_mut(offset) {
        *byte = byte.wrapping_add(amount);
    }
}
