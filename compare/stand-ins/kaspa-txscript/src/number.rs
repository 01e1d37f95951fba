//! Number form (document 01, section 1): lowest byte first, the top bit of the
//! last byte is the sign, zero is empty.

#[derive(Clone, Copy, Debug, PartialEq, Eq)]
pub enum SerializationError {
    /// More than eight bytes.
    TooLong,
    /// A last byte of 00 or 80 that the byte before it does not call for.
    NotMinimal,
    /// A wanted size: part of the real function, not of document 01.
    SizeNotSupported,
}

/// At most nine bytes: eight of magnitude and one more for the sign.
#[derive(Clone, Copy, Debug)]
pub struct NumberBytes {
    bytes: [u8; 9],
    len: usize,
}

impl std::ops::Deref for NumberBytes {
    type Target = [u8];

    #[inline]
    fn deref(&self) -> &[u8] {
        &self.bytes[..self.len]
    }
}

#[inline]
pub fn serialize_i64(number: i64, size: Option<usize>) -> Result<NumberBytes, SerializationError> {
    if size.is_some() {
        return Err(SerializationError::SizeNotSupported);
    }
    let mut result = NumberBytes { bytes: [0; 9], len: 0 };
    let mut magnitude = number.unsigned_abs();
    while magnitude > 0 {
        result.bytes[result.len] = (magnitude & 0xff) as u8;
        result.len += 1;
        magnitude >>= 8;
    }
    if result.len > 0 {
        // The sign needs a bit of its own.
        if result.bytes[result.len - 1] & 0x80 != 0 {
            result.len += 1;
        }
        if number < 0 {
            result.bytes[result.len - 1] |= 0x80;
        }
    }
    Ok(result)
}

#[inline]
pub fn deserialize_i64(bytes: &[u8]) -> Result<i64, SerializationError> {
    if bytes.len() > 8 {
        return Err(SerializationError::TooLong);
    }
    let Some((&last, lower)) = bytes.split_last() else {
        return Ok(0);
    };
    if last & 0x7f == 0 && lower.last().is_none_or(|byte| byte & 0x80 == 0) {
        return Err(SerializationError::NotMinimal);
    }
    let magnitude = lower.iter().rev().fold(i64::from(last & 0x7f), |sum, &byte| sum << 8 | i64::from(byte));
    Ok(if last & 0x80 != 0 { -magnitude } else { magnitude })
}

#[cfg(test)]
mod tests {
    use super::*;

    #[test]
    fn writes_the_number_form() {
        let cases: [(i64, &[u8]); 14] = [
            (0, &[]),
            (1, &[0x01]),
            (-1, &[0x81]),
            (16, &[0x10]),
            (127, &[0x7f]),
            (-127, &[0xff]),
            (128, &[0x80, 0x00]),
            (-128, &[0x80, 0x80]),
            (255, &[0xff, 0x00]),
            (256, &[0x00, 0x01]),
            (-256, &[0x00, 0x81]),
            (32768, &[0x00, 0x80, 0x00]),
            (i64::MAX, &[0xff, 0xff, 0xff, 0xff, 0xff, 0xff, 0xff, 0x7f]),
            (i64::MIN, &[0x00, 0x00, 0x00, 0x00, 0x00, 0x00, 0x00, 0x80, 0x80]),
        ];
        for (number, bytes) in cases {
            assert_eq!(&*serialize_i64(number, None).unwrap(), bytes, "{number}");
            if bytes.len() <= 8 {
                assert_eq!(deserialize_i64(bytes), Ok(number), "{bytes:02x?}");
            }
        }
    }

    #[test]
    fn refuses_what_is_no_number() {
        let not_minimal: [&[u8]; 7] =
            [&[0x00], &[0x80], &[0x01, 0x00], &[0x01, 0x80], &[0x7f, 0x00], &[0xff, 0x00, 0x00], &[0, 0, 0, 0, 0, 0, 0, 0x80]];
        for bytes in not_minimal {
            assert_eq!(deserialize_i64(bytes), Err(SerializationError::NotMinimal), "{bytes:02x?}");
        }
        assert_eq!(deserialize_i64(&[1; 9]), Err(SerializationError::TooLong));
        assert_eq!(deserialize_i64(&[0; 9]), Err(SerializationError::TooLong));
    }

    #[test]
    fn reads_back_what_it_writes_and_nothing_else() {
        // Every byte string of up to three bytes is either refused or the one form of its number.
        let mut read = 0;
        for len in 0..=3u32 {
            for code in 0..256u32.pow(len) {
                let bytes = &code.to_le_bytes()[..len as usize];
                if let Ok(number) = deserialize_i64(bytes) {
                    assert_eq!(&*serialize_i64(number, None).unwrap(), bytes);
                    read += 1;
                }
            }
        }
        // Three bytes hold the magnitudes below 2^23 with either sign.
        assert_eq!(read, 2 * (1 << 23) - 1);
    }

    #[test]
    fn number_form_round_trips_at_every_bit() {
        for bit in 0..63 {
            for near in -2..=2 {
                let number = (1i64 << bit).saturating_add(near);
                for number in [number, -number] {
                    assert_eq!(deserialize_i64(&serialize_i64(number, None).unwrap()), Ok(number));
                }
            }
        }
    }
}
