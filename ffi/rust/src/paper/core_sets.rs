//! Core sets in the List and Mask formats of Linux cpuset(7), written from request 2's words.
#![forbid(unsafe_code)]

use crate::layout::{answer, Reading, Written};

/// A refusal's number and offset.
type Fault = (u8, usize);

/// How many cores a limit allows: a set has 64 bits.
fn cores(limit: u8) -> usize {
    usize::from(limit).min(64)
}

fn reading(found: Result<u64, Fault>) -> Reading {
    let (number, offset) = found.err().unwrap_or((answer::DONE, 0));
    Reading {
        number,
        offset,
        set: found.unwrap_or(0),
    }
}

pub fn read_list(text: &[u8], limit: u8) -> Reading {
    reading(list(text, cores(limit)))
}

pub fn read_mask(text: &[u8], limit: u8) -> Reading {
    reading(mask(text, cores(limit)))
}

/// Between commas stand numbers and ranges; only the empty text has none.
fn list(text: &[u8], cores: usize) -> Result<u64, Fault> {
    let mut set = 0;
    let mut start = 0;
    for part in text.split(|&c| c == b',').filter(|_| !text.is_empty()) {
        set |= item(part, cores).map_err(|(number, offset)| (number, start + offset))?;
        start += part.len() + 1;
    }
    Ok(set)
}

/// A number, or a range that does not run backward. Offsets count from the item's start.
fn item(part: &[u8], cores: usize) -> Result<u64, Fault> {
    let (first, end) = number(part, 0, cores)?;
    let second = end + 1;
    let (last, end) = match part.get(end) {
        Some(b'-') => number(part, second, cores)?,
        _ => (first, end),
    };
    if last < first {
        return Err((answer::BACKWARD, second));
    }
    if end < part.len() {
        return Err((answer::UNEXPECTED, end));
    }
    Ok((first..=last).fold(0, |set, core| set | 1 << core))
}

/// The core whose number stands at the place, and where its digits end.
fn number(part: &[u8], at: usize, cores: usize) -> Result<(usize, usize), Fault> {
    let digits = part[at..].iter().take_while(|c| c.is_ascii_digit()).count();
    if digits == 0 {
        return Err((answer::UNEXPECTED, at));
    }
    let text = std::str::from_utf8(&part[at..at + digits]).unwrap();
    // What is too long for a machine word without its zeros is above every limit.
    let value = match text.trim_start_matches('0') {
        "" => 0,
        shortest => shortest.parse().unwrap_or(usize::MAX),
    };
    if value >= cores {
        return Err((answer::ABOVE_LIMIT, at));
    }
    Ok((value, at + digits))
}

/// Exactly as many words as the limit needs, the highest first: so does the core count down.
fn mask(text: &[u8], cores: usize) -> Result<u64, Fault> {
    let words = cores.div_ceil(32);
    let size = (9 * words).saturating_sub(1);
    let mut set = 0;
    let mut lowest = 32 * words;
    for offset in 0..size {
        let &c = text.get(offset).ok_or((answer::UNEXPECTED, offset))?;
        if offset % 9 == 8 {
            if c != b',' {
                return Err((answer::UNEXPECTED, offset));
            }
            continue;
        }
        let digit = char::from(c).to_digit(16);
        let digit = u64::from(digit.ok_or((answer::UNEXPECTED, offset))?);
        lowest -= 4;
        set |= digit << lowest;
        if names_above(set, cores) {
            return Err((answer::ABOVE_LIMIT, offset));
        }
    }
    if text.len() > size {
        return Err((answer::UNEXPECTED, size));
    }
    Ok(set)
}

fn names_above(set: u64, cores: usize) -> bool {
    (cores..64).any(|core| set >> core & 1 == 1)
}

pub fn write_list(set: u64, limit: u8, buffer: &mut [u8]) -> Written {
    write(set, limit, &list_text(set), buffer)
}

pub fn write_mask(set: u64, limit: u8, buffer: &mut [u8]) -> Written {
    write(set, limit, &mask_text(set, limit), buffer)
}

fn write(set: u64, limit: u8, text: &str, buffer: &mut [u8]) -> Written {
    if names_above(set, cores(limit)) {
        return Written::refused(answer::ABOVE_LIMIT);
    }
    let length = text.len();
    let Some(start) = buffer.get_mut(..length) else {
        return Written::refused(answer::OUTPUT_SHORT);
    };
    start.copy_from_slice(text.as_bytes());
    Written::done(length)
}

/// Ascending, each longest run of two or more as a range.
pub fn list_text(set: u64) -> String {
    let mut runs: Vec<(u32, u32)> = Vec::new();
    for core in (0..64).filter(|core| set >> core & 1 == 1) {
        match runs.last_mut() {
            Some((_, last)) if *last + 1 == core => *last = core,
            _ => runs.push((core, core)),
        }
    }
    let texts: Vec<String> = runs
        .iter()
        .map(|(first, last)| match first == last {
            true => format!("{first}"),
            false => format!("{first}-{last}"),
        })
        .collect();
    texts.join(",")
}

/// Eight lower-case digits to a word, the highest word first.
pub fn mask_text(set: u64, limit: u8) -> String {
    let words = 0..cores(limit).div_ceil(32);
    let texts: Vec<String> = words
        .rev()
        .map(|word| format!("{:08x}", (set >> (32 * word)) as u32))
        .collect();
    texts.join(",")
}
