//! Texts of public keys, which are strict base64.

const KEY_TEXT: usize = 44;
const ALPHABET: &[u8; 64] = b"ABCDEFGHIJKLMNOPQRSTUVWXYZabcdefghijklmnopqrstuvwxyz0123456789+/";

fn sextet(byte: u8) -> Option<u32> {
    let value = match byte {
        b'A'..=b'Z' => byte - b'A',
        b'a'..=b'z' => byte - b'a' + 26,
        b'0'..=b'9' => byte - b'0' + 52,
        b'+' => 62,
        b'/' => 63,
        _ => return None,
    };
    Some(u32::from(value))
}

/// The 32 bytes of a key text: strict base64, with its padding and no stray bits.
pub fn key_of(text: &[u8]) -> Option<[u8; 32]> {
    if text.len() != KEY_TEXT || text[KEY_TEXT - 1] != b'=' {
        return None;
    }
    let mut key = [0; 32];
    let (groups, tail) = text[..KEY_TEXT - 1].split_at(40);
    for (group, bytes) in groups.chunks_exact(4).zip(key.chunks_exact_mut(3)) {
        let mut bits = 0;
        for byte in group {
            bits = bits << 6 | sextet(*byte)?;
        }
        bytes.copy_from_slice(&bits.to_be_bytes()[1..]);
    }
    let mut bits = 0;
    for byte in tail {
        bits = bits << 6 | sextet(*byte)?;
    }
    if bits & 3 != 0 {
        return None;
    }
    key[30..].copy_from_slice(&(bits >> 2).to_be_bytes()[2..]);
    Some(key)
}

/// Appends the text of a key.
pub fn write_key(key: &[u8; 32], out: &mut Vec<u8>) {
    let mut push = |bits: u32, count: u32| {
        out.extend((0..count).map(|place| ALPHABET[(bits >> (18 - 6 * place) & 63) as usize]));
    };
    for bytes in key[..30].chunks_exact(3) {
        push(u32::from_be_bytes([0, bytes[0], bytes[1], bytes[2]]), 4);
    }
    push(u32::from_be_bytes([0, key[30], key[31], 0]), 3);
    out.push(b'=');
}
