// The judge of documents 01 and 02 written for clarity, one moment after the other: what the proved one is compared with, and timed beside.
use crate::hashmap::{check, Refused};
use crate::library::{Answer, Recording};

pub fn judge(table: &[u32], recording: Recording, scratch: &mut [u64]) -> Result<Answer, Refused> {
    let Recording { samples, start, driven } = recording;
    let rule = check(table, false, 16383)?;
    match samples.len() {
        0 => return Err((13, 0)),
        4097.. => return Err((14, 0)),
        count if count <= start => return Err((15, 0)),
        _ => {}
    }
    if driven > 32 {
        return Err((22, 0));
    }
    let undriven = |w: &u32| matches!(w >> 28, 3 | 4) && (w & 0x3FFF) as usize > driven;
    if let Some(j) = rule.iter().position(undriven) {
        return Err((21, j + 1));
    }
    let words = (samples.len() + 63) / 64;
    if scratch.len() < rule.len() * words {
        return Err((16, 0));
    }
    for (j, &w) in rule.iter().enumerate() {
        let (rows, row) = scratch.split_at_mut(j * words);
        // The row of an operand; a field that is no operand has none.
        let operand = |n: u32| rows.get((n as usize).saturating_sub(1) * words..).unwrap_or(&[]);
        write_row(w, operand(w >> 14 & 0x3FFF), operand(w & 0x3FFF), samples, start, &mut row[..words]);
    }
    let row = &scratch[(rule.len() - 1) * words..];
    let held = (0..samples.len()).filter(|&i| bit(row, i)).count();
    let failing = (0..samples.len()).find(|&i| !bit(row, i)).unwrap_or(samples.len());
    Ok((bit(row, 0), held, failing))
}

fn bit(row: &[u64], i: usize) -> bool {
    row[i / 64] >> (i % 64) & 1 == 1
}

fn set(row: &mut [u64], i: usize, value: bool) {
    row[i / 64] = row[i / 64] & !(1 << (i % 64)) | (value as u64) << (i % 64);
}

// The row of one word, from those of its operands.
fn write_row(w: u32, a: &[u64], b: &[u64], samples: &[u32], start: usize, row: &mut [u64]) {
    row.fill(0);
    let kind = w >> 28;
    let letter = |i: usize| samples[i] >> ((w & 0x3FFF) - 1) & 1 == 1;
    let after = |i: usize| if i + 1 < samples.len() { i + 1 } else { start };
    if matches!(kind, 8..=11 | 13..=14) {
        return write_fixpoint(kind, a, b, samples.len(), start, row);
    }
    for i in 0..samples.len() {
        let value = match kind {
            1 => false,
            2 => true,
            3 => letter(i),
            4 => !letter(i),
            5 => bit(a, i) && bit(b, i),
            6 => bit(a, i) || bit(b, i),
            7 => bit(b, after(i)),
            12 => !bit(b, i),
            _ => !bit(a, i) || bit(b, i),
        };
        set(row, i, value);
    }
}

// U, W, R, M, F and G: once down to the loop start for the value there, then over all moments from that value on. The greatest
// ones begin with true.
fn write_fixpoint(kind: u32, a: &[u64], b: &[u64], moments: usize, start: usize, row: &mut [u64]) {
    let mut next = matches!(kind, 9 | 10 | 14);
    for lowest in [start, 0] {
        for i in (lowest..moments).rev() {
            next = match kind {
                8..=9 => bit(b, i) || bit(a, i) && next,
                10..=11 => bit(b, i) && (bit(a, i) || next),
                13 => bit(b, i) || next,
                _ => bit(b, i) && next,
            };
            set(row, i, next);
        }
    }
}
