//! Bytes in hexadecimal; `-` stands for none, `00*4096` for one byte so many
//! times.

pub fn show(bytes: &[u8]) -> String {
    if bytes.is_empty() {
        return "-".to_string();
    }
    bytes.iter().map(|byte| format!("{byte:02x}")).collect()
}

pub fn parse(text: &str) -> Option<Vec<u8>> {
    if text == "-" {
        return Some(Vec::new());
    }
    if let Some((byte, times)) = text.split_once('*') {
        return Some(vec![u8::from_str_radix(byte, 16).ok()?; times.parse().ok()?]);
    }
    if !text.is_ascii() || !text.len().is_multiple_of(2) {
        return None;
    }
    let pair = |at: usize| u8::from_str_radix(&text[at..at + 2], 16).ok();
    (0..text.len()).step_by(2).map(pair).collect()
}
