//! All short ends of bytes, and all changes of one or two of them. `case` takes each.

/// The bytes, and with every end of up to that many of those given.
pub fn all_ends(bytes: &mut Vec<u8>, ends: &[u8], most: usize, case: &mut impl FnMut(&[u8])) {
    case(bytes);
    if most > 0 {
        for byte in ends {
            bytes.push(*byte);
            all_ends(bytes, ends, most - 1, case);
            bytes.pop();
        }
    }
}

/// Every run of up to that many bytes.
pub fn all_short(most: usize, case: &mut impl FnMut(&[u8])) {
    let bytes: Vec<u8> = (0..=255).collect();
    all_ends(&mut Vec::new(), &bytes, most, case);
}

/// Every beginning and every end, every byte in every place and after the last, each byte left out, each twice.
pub fn one_changed(bytes: &[u8], case: &mut impl FnMut(&[u8])) {
    for place in 0..bytes.len() {
        let (before, after) = bytes.split_at(place);
        case(before);
        case(after);
        case(&[before, &after[1..]].concat());
        case(&[before, &after[..1], after].concat());
        every_byte(bytes, place, case);
    }
    every_byte(&[bytes, &[0]].concat(), bytes.len(), case);
}

/// Every bit turned, one at a time.
pub fn one_bit_changed(bytes: &[u8], case: &mut impl FnMut(&[u8])) {
    let mut bytes = bytes.to_vec();
    for place in 0..bytes.len() {
        for bit in 0..8 {
            bytes[place] ^= 1 << bit;
            case(&bytes);
            bytes[place] ^= 1 << bit;
        }
    }
}

/// Every two bytes in every two neighbouring places.
pub fn two_changed(bytes: &[u8], case: &mut impl FnMut(&[u8])) {
    let mut bytes = bytes.to_vec();
    for place in 1..bytes.len() {
        let good = bytes[place - 1];
        for byte in 0..=255 {
            bytes[place - 1] = byte;
            every_byte(&bytes, place, case);
        }
        bytes[place - 1] = good;
    }
}

fn every_byte(bytes: &[u8], place: usize, case: &mut impl FnMut(&[u8])) {
    let mut bytes = bytes.to_vec();
    for byte in 0..=255 {
        bytes[place] = byte;
        case(&bytes);
    }
}
