//! CRC16-MODBUS: start FFFF, reflected, feedback A001, no final change.

/// The CRC16-MODBUS of `bytes`.
pub fn crc16(bytes: &[u8]) -> u16 {
    bytes.iter().fold(0xFFFF, |crc, &byte| {
        (0..8).fold(crc ^ u16::from(byte), |crc, _| match crc & 1 {
            1 => (crc >> 1) ^ 0xA001,
            _ => crc >> 1,
        })
    })
}

#[cfg(test)]
mod tests {
    use super::crc16;

    /// The same sum by the parameters of the Rocksoft model: polynomial 8005, both reflections.
    fn by_model(bytes: &[u8]) -> u16 {
        let mut sum: u16 = 0xFFFF;
        for byte in bytes {
            sum ^= u16::from(byte.reverse_bits()) << 8;
            for _ in 0..8 {
                let out = sum & 0x8000 != 0;
                sum <<= 1;
                if out {
                    sum ^= 0x8005;
                }
            }
        }
        sum.reverse_bits()
    }

    #[test]
    fn agrees_with_the_model() {
        let bytes: Vec<u8> = (0..=255).chain((0..=255).rev()).collect();
        for end in 0..=bytes.len() {
            assert_eq!(crc16(&bytes[..end]), by_model(&bytes[..end]));
        }
    }
}
