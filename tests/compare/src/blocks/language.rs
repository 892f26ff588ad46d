//! What the words of every block are made of: bytes, numbers, sizes.

/// A slip in a repeat count is found before it fills the memory.
pub const MOST_BYTES: usize = 1 << 20;

pub fn once<T>(field: &mut Option<T>, value: T) -> Result<(), String> {
    match field.replace(value) {
        None => Ok(()),
        Some(_) => Err("this word stands twice".into()),
    }
}

pub fn number(word: &str) -> Option<usize> {
    let all_digits = word.bytes().all(|byte| byte.is_ascii_digit());
    word.parse().ok().filter(|_| all_digits)
}

pub fn refusal(words: &[&str]) -> Result<u64, String> {
    match words {
        [word] => number(word).filter(|&number| number > 0),
        _ => None,
    }
    .map(|number| number as u64)
    .ok_or("no refusal's number".into())
}

/// The sizes of two buffers.
pub fn buffers(words: &[&str]) -> Result<(usize, usize), String> {
    match words {
        [first, end] => size(first).zip(size(end)),
        _ => None,
    }
    .ok_or("no two sizes".into())
}

/// The size of a call's only buffer.
pub fn buffer(words: &[&str]) -> Result<usize, String> {
    match words {
        [word] => size(word),
        _ => None,
    }
    .ok_or("not one size".into())
}

fn size(word: &str) -> Option<usize> {
    number(word).filter(|&size| size <= MOST_BYTES)
}

/// The bytes, if there are as many as belong.
pub fn of_len(bytes: Vec<u8>, len: usize) -> Result<Vec<u8>, String> {
    match bytes.len() == len {
        true => Ok(bytes),
        false => Err(format!("{} bytes where {len} belong", bytes.len())),
    }
}

pub fn bytes(words: &[&str]) -> Result<Vec<u8>, String> {
    let mut all = Vec::new();
    for word in words {
        all.extend(group(word).ok_or(format!("'{word}' is no group of bytes"))?);
    }
    Ok(all)
}

/// `12AB`, `00*17`, `0000-1403` or `01-3F*12`.
fn group(word: &str) -> Option<Vec<u8>> {
    let (digits, times) = match word.split_once('*') {
        Some((digits, times)) => (digits, number(times)?),
        None => (word, 1),
    };
    let bytes = match digits.split_once('-') {
        Some((first, last)) => every_number(&bytes_of(first)?, &bytes_of(last)?)?,
        None => bytes_of(digits)?,
    };
    let fits = times > 0 && bytes.len().checked_mul(times)? <= MOST_BYTES;
    fits.then(|| bytes.repeat(times))
}

/// Every number from one to the other, each in their one or two bytes.
fn every_number(first: &[u8], last: &[u8]) -> Option<Vec<u8>> {
    let value = |bytes: &[u8]| {
        bytes
            .iter()
            .rfold(0, |sum, &byte| 256 * sum + usize::from(byte))
    };
    let (from, to) = (value(first), value(last));
    if first.len() != last.len() || first.len() > 2 || from >= to {
        return None;
    }
    let numbers = (from..=to).flat_map(|number| number.to_le_bytes().into_iter().take(first.len()));
    Some(numbers.collect())
}

fn bytes_of(digits: &str) -> Option<Vec<u8>> {
    let values: Option<Vec<u8>> = digits
        .chars()
        .map(|digit| digit.to_digit(16).map(|value| value as u8))
        .collect();
    let values = values.filter(|values| !values.is_empty() && values.len() % 2 == 0)?;
    Some(
        values
            .chunks(2)
            .map(|pair| 16 * pair[0] + pair[1])
            .collect(),
    )
}
