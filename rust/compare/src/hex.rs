//! Bytes in hexadecimal, two digits a byte.

pub fn hex(bytes: &[u8]) -> String {
    bytes.iter().map(|byte| format!("{byte:02x}")).collect()
}

pub fn bytes(hex: &str) -> Result<Vec<u8>, String> {
    let digits = hex.as_bytes();
    if !digits.len().is_multiple_of(2) {
        return Err("an odd number of hexadecimal digits".to_string());
    }
    digits.chunks(2).map(|pair| Ok(16 * digit(pair[0])? + digit(pair[1])?)).collect()
}

fn digit(digit: u8) -> Result<u8, String> {
    let value = (digit as char).to_digit(16);
    value.map(|value| value as u8).ok_or(format!("`{}` is no hexadecimal digit", digit as char))
}

#[cfg(test)]
mod tests {
    use super::*;

    #[test]
    fn there_and_back() {
        assert_eq!(hex(&[0, 0x4f, 255]), "004fff");
        assert_eq!(bytes("004fff"), Ok(vec![0, 0x4f, 255]));
        assert!(bytes("0").is_err());
        assert!(bytes("0g").is_err());
    }
}
