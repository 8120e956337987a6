//! Text and value bytes of an accepted timestamp.

use super::fields::Fields;

pub fn text(fields: &Fields) -> Vec<u8> {
    let time = fields.time;
    let mut text = format!("{:04}", time.year);
    if fields.precision >= 1 {
        text += &format!("-{:02}", time.month);
    }
    if fields.precision >= 2 {
        text += &format!("-{:02}", time.day);
    }
    text += "T";
    if fields.precision >= 3 {
        text += &format!("{:02}:{:02}", time.hour, time.minute);
        if fields.precision >= 4 {
            text += &format!(":{:02}", fields.second);
        }
        if fields.digits > 0 {
            text += &format!(".{:0width$}", coefficient(fields), width = fields.digits as usize);
        }
        text += &match fields.offset {
            None => "-00:00".to_string(),
            Some(minutes) => {
                let sign = if minutes < 0 { '-' } else { '+' };
                let size = minutes.unsigned_abs();
                format!("{sign}{:02}:{:02}", size / 60, size % 60)
            }
        };
    }
    text.into_bytes()
}

/// The fraction's digits as a number.
fn coefficient(fields: &Fields) -> u64 {
    fields.attoseconds as u64 / 10u64.pow(18 - fields.digits as u32)
}

/// The value of the fields, given in UTC beside their offset.
pub fn value(utc: &Fields) -> Vec<u8> {
    let body = body(utc);
    let mut bytes = match body.len() {
        0..=13 => vec![0x60 + body.len() as u8],
        length => [vec![0x6E], var_uint(length as u64)].concat(),
    };
    bytes.extend(body);
    bytes
}

/// The body of the fields, given in UTC beside their offset.
pub fn body(utc: &Fields) -> Vec<u8> {
    let mut bytes = match utc.offset {
        None => vec![0xC0],
        Some(minutes) => var_int(minutes < 0, minutes.unsigned_abs() as u64),
    };
    let time = utc.time;
    let given = [time.year, time.month, time.day, time.hour, time.minute, utc.second];
    let count = [1, 2, 3, 5, 6][utc.precision as usize];
    for field in &given[..count] {
        bytes.extend(var_uint(*field as u64));
    }
    if utc.digits > 0 {
        bytes.extend(var_int(true, utc.digits));
        bytes.extend(int(coefficient(utc)));
    }
    bytes
}

/// Big-endian, fewest bytes, 00 before a set high bit, nothing for zero.
fn int(value: u64) -> Vec<u8> {
    let bytes: Vec<u8> = value.to_be_bytes().into_iter().skip_while(|byte| *byte == 0).collect();
    match bytes.first() {
        Some(first) if first & 0x80 != 0 => [vec![0], bytes].concat(),
        _ => bytes,
    }
}

/// Seven bits a byte, highest first, 80 on the last.
pub fn var_uint(value: u64) -> Vec<u8> {
    groups(value, 7)
}

/// The same with six bits in the first byte, and the sign in 40 of it.
pub fn var_int(negative: bool, magnitude: u64) -> Vec<u8> {
    let mut bytes = groups(magnitude, 6);
    if negative {
        bytes[0] |= 0x40;
    }
    bytes
}

/// Groups of seven bits, fewest bytes, of which the first has room for that many bits.
fn groups(mut value: u64, first_bits: u32) -> Vec<u8> {
    let mut bytes = Vec::new();
    while value >= 1 << first_bits {
        bytes.push((value % 128) as u8);
        value /= 128;
    }
    bytes.push(value as u8);
    bytes[0] |= 0x80;
    bytes.reverse();
    bytes
}
