//! A rule followed during a show, sample by sample.
use crate::refusal::Call;
use crate::{check, ffi, Refusal, MOST_WORDS};
use std::mem::swap;

/// What remains of a plain table's rule after a sample that drives letters 1 to `driven`, the front part of `result`: it holds from the next
/// moment on exactly if the rule holds at this one. What stands past it stays. It takes up to 16,383 words, and n words become at most
/// 3 n + 3, beside the header. It is folded, so that it may be the one word true or false. The bits of the sample above the driven ones are
/// never looked at. Refused as 12, every word of the slice is 0; refused otherwise, it is as it was. A table of over 512 words takes some
/// 736 KB of stack.
///
/// ```
/// // p1 U p2 waits for p2 while p1 holds, and is kept by p2, or broken by neither
/// let until = [0x001E_8003, 0x3000_0001, 0x3000_0002, 0x8000_4002];
/// let mut result = [0; 13];
/// assert_eq!(showrule::after(&until, 0b01, 2, &mut result)?, until);
/// assert_eq!(showrule::after(&until, 0b10, 2, &mut result)?, [0x001F_C001, 0x2000_0000]);
/// assert_eq!(showrule::after(&until, 0b00, 2, &mut result)?, [0x001F_C001, 0x1000_0000]);
/// # Ok::<(), showrule::Refusal>(())
/// ```
pub fn after<'a>(table: &[u32], sample: u32, driven: usize, result: &'a mut [u32]) -> Result<&'a [u32], Refusal> {
    let (mut length, mut place) = (0, 0);
    let number = unsafe {
        ffi::showrule_after(
            table.as_ptr(),
            table.len(),
            sample,
            driven,
            result.as_mut_ptr(),
            result.len(),
            &mut length,
            &mut place,
        )
    };
    Call { table, limit: MOST_WORDS, room: result.len(), driven, ..Call::default() }.answer(number, place)?;
    Ok(&result[..length])
}

/// A rule that is followed over many samples, in two lent slices: each step reads what remains in one, and writes what remains after the
/// sample to the other ([`after`]). Where a step is refused, the rule is kept as it was.
///
/// ```
/// use showrule::{Following, Limits, Rule};
/// // whenever p1, sooner or later p2, until p3 ends the show
/// let rule: Rule = "((p1 -> (true U p2)) W p3)".parse()?;
/// let (mut plain, mut first, mut second) = ([0; Limits::DESK.plain_room()], [0; 100], [0; 100]);
/// let plain = showrule::plain_form(&rule, Limits::DESK, &mut plain)?;
/// let mut following = Following::new(plain, 3, &mut first, &mut second)?;
/// following.step(0b001)?;
/// assert_eq!(showrule::to_text(following.rule(), 100)?, "((true U p2) & ((!p1 | (true U p2)) W p3))");
/// following.step(0b010)?;
/// assert_eq!(following.rule(), plain);
/// following.step(0b100)?;
/// assert_eq!(following.decided(), Some(true));
/// # Ok::<(), Box<dyn std::error::Error>>(())
/// ```
#[derive(Debug)]
pub struct Following<'a> {
    /// What remains is its front part, of this length.
    now: &'a mut [u32],
    length: usize,
    next: &'a mut [u32],
    driven: usize,
}

impl<'a> Following<'a> {
    /// Begins with a plain table, which is copied to the first slice, over samples that drive letters 1 to `driven`. Refused by the checks
    /// of a table, or by 12 where the slice is too short for it, and then nothing is written. A rule that names a higher letter is refused
    /// by the first step.
    pub fn new(table: &[u32], driven: usize, first: &'a mut [u32], second: &'a mut [u32]) -> Result<Following<'a>, Refusal> {
        check(table, true, MOST_WORDS)?;
        let (length, room) = (table.len(), first.len());
        first.get_mut(..length).ok_or(Refusal::ResultTooShort { room })?.copy_from_slice(table);
        Ok(Following { now: first, length, next: second, driven })
    }

    /// What remains of the rule, a plain table with its header.
    pub fn rule(&self) -> &[u32] {
        &self.now[..self.length]
    }

    /// What remains after the show's next sample. Refused, by 12 or for the driven count, the rule is kept: a longer slice can be lent by
    /// beginning anew with it.
    pub fn step(&mut self, sample: u32) -> Result<&[u32], Refusal> {
        self.length = after(&self.now[..self.length], sample, self.driven, self.next)?.len();
        swap(&mut self.now, &mut self.next);
        Ok(self.rule())
    }

    /// Whether the rule held from the beginning, where the samples so far decide it as far as folding sees: what remains is the one word true
    /// or false.
    pub fn decided(&self) -> Option<bool> {
        match self.rule() {
            [_, 0x1000_0000] => Some(false),
            [_, 0x2000_0000] => Some(true),
            _ => None,
        }
    }
}
