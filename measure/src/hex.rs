//! Bytes as hexadecimal text.

use second::form;
use second::sheet::Sheet;

pub fn hex(bytes: &[u8]) -> String {
    bytes.iter().map(|byte| format!("{byte:02x}")).collect()
}

pub fn sheet_hex(sheet: &Sheet) -> String {
    hex(&form::bytes(&form::numbers(sheet)))
}

pub fn bytes(text: &str) -> Option<Vec<u8>> {
    if text.len() % 2 == 1 || !text.is_ascii() {
        return None;
    }
    (0..text.len() / 2).map(|at| u8::from_str_radix(&text[2 * at..2 * at + 2], 16).ok()).collect()
}
