//! Fields of a plan's bytes, most significant bit first.

/// The number in a field of `width` bits from bit `at` on.
pub(crate) fn field(bytes: &[u8], at: usize, width: usize) -> u32 {
    (at..at + width).fold(0, |number, bit| number << 1 | u32::from(bytes[bit / 8] >> (7 - bit % 8) & 1))
}

/// Puts a number into a field of `width` bits from bit `at` on, over whatever stood there.
pub(crate) fn put(bytes: &mut [u8], at: usize, width: usize, number: u32) {
    for i in 0..width {
        let (bit, one) = (at + i, number >> (width - 1 - i) & 1 == 1);
        let mask = 0x80 >> (bit % 8);
        bytes[bit / 8] = if one { bytes[bit / 8] | mask } else { bytes[bit / 8] & !mask };
    }
}

#[cfg(test)]
mod tests {
    use super::{field, put};

    #[test]
    fn a_field_is_what_was_put_and_nothing_else_changes() {
        for fill in [0x00, 0xFF, 0xA5] {
            for at in 0..20 {
                for width in 0..=12 {
                    let mut bytes = [fill; 4];
                    let number = 0xB37 & ((1 << width) - 1);
                    put(&mut bytes, at, width, number);
                    assert_eq!(field(&bytes, at, width), number);
                    assert_eq!(field(&bytes, 0, at), field(&[fill; 4], 0, at));
                    assert_eq!(field(&bytes, at + width, 32 - at - width), field(&[fill; 4], at + width, 32 - at - width));
                }
            }
        }
    }

    #[test]
    fn most_significant_bit_first() {
        let mut bytes = [0; 3];
        for (at, width, number) in [(0, 2, 0), (2, 3, 2), (5, 8, 1), (13, 8, 2)] {
            put(&mut bytes, at, width, number);
        }
        assert_eq!(bytes, [0x10, 0x08, 0x10]);
    }
}
