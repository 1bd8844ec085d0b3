//! One input of every step: a text, a table, limits, a sample, a recording, tallies, and the rooms of the slices that are lent.
use reference::header::words;
use reference::limits::Limits;
use reference::recording::Recording;
use reference::steps::Tally;
use std::fmt;

#[derive(Clone, PartialEq, Eq, Debug)]
pub struct Input {
    /// Of reading a text, which has nothing to do with the table.
    pub text: Vec<u8>,
    pub text_table: usize,
    /// With its header, or what stands in its place.
    pub table: Vec<u32>,
    /// Of the house: for the text, the plain form, the normal form and the whole way.
    pub limits: Limits,
    /// Of the check by itself.
    pub plain_only: bool,
    pub limit: usize,
    /// Of the class step.
    pub bytes: usize,
    /// Of the plain-form step, of the normal-form step, of the dialect, of the step by a sample, and the two of the whole way.
    pub plain: usize,
    pub normal: usize,
    pub dialect: usize,
    pub after: usize,
    pub form_plain: usize,
    pub form: usize,
    /// Of the step by a sample and of a move, which drives as many letters as the recording.
    pub sample: u32,
    /// Of the automaton's states, of a move, and the state whose move it is.
    pub states: usize,
    pub moved: usize,
    pub state: usize,
    /// Of the judge and the row call.
    pub samples: Vec<u32>,
    pub start: usize,
    pub driven: usize,
    /// The bits of the samples above the driven ones, in a second call that must answer the same.
    pub undriven: u32,
    pub scratch: usize,
    /// One for each desk, and the desk that the judgement names.
    pub tallies: Vec<Tally>,
    pub desk: usize,
    /// The recording that the first is compared with.
    pub others: Vec<u32>,
    pub other_start: usize,
    pub other_driven: usize,
}

impl Input {
    pub fn recording(&self) -> Recording<'_> {
        Recording { samples: &self.samples, start: self.start, driven: self.driven }
    }

    pub fn other_recording(&self) -> Recording<'_> {
        Recording { samples: &self.others, start: self.other_start, driven: self.other_driven }
    }

    /// The samples with other bits above the driven ones.
    pub fn redriven(&self) -> Vec<u32> {
        (0..).zip(&self.samples).map(|(i, &sample)| self.with_others(sample, i)).collect()
    }

    /// The sample with other bits above the driven ones.
    pub fn redriven_sample(&self) -> u32 {
        self.with_others(self.sample, 0)
    }

    fn with_others(&self, sample: u32, i: u32) -> u32 {
        let above = if self.driven < 32 { u32::MAX << self.driven } else { 0 };
        sample & !above | self.undriven.rotate_left(i % 32) & above
    }

    /// What shrinking makes smaller.
    pub fn size(&self) -> (usize, usize, usize, u64) {
        let rooms = self.text_table + self.bytes + self.plain + self.normal + self.dialect + self.after;
        let rooms = rooms + self.states + self.moved + self.form_plain + self.form + self.scratch;
        let numbers =
            words(&self.table).iter().map(|&w| w as u64).sum::<u64>() + self.text.iter().map(|&b| b as u64).sum::<u64>();
        let rest = self.start as u64
            + self.driven.min(1 << 40) as u64
            + self.other_start.min(1 << 40) as u64
            + self.other_driven.min(1 << 40) as u64
            + self.limits.written.min(1 << 40) as u64
            + self.limits.until_like.min(1 << 40) as u64
            + self.desk.min(1 << 40) as u64
            + self.state.min(1 << 40) as u64
            + self.tallies.iter().map(|tally| 1 + tally.judged as u64 + tally.held as u64).sum::<u64>()
            + self.limit.min(1 << 40) as u64
            + self.plain_only as u64;
        let bits = self.samples.iter().chain(&self.others).chain([&self.undriven, &self.sample]).chain(self.table.first());
        let bits: u64 = bits.map(|s| s.count_ones() as u64).sum();
        let long = self.text.len() + self.table.len() + self.samples.len() + self.others.len();
        (long, self.table.len(), rooms, numbers + rest + bits)
    }
}

impl fmt::Display for Input {
    fn fmt(&self, f: &mut fmt::Formatter) -> fmt::Result {
        let hex = |words: &[u32]| words.iter().map(|w| format!(" {w:08X}")).collect::<String>();
        writeln!(f, "text of {} bytes: \"{}\", room {}", self.text.len(), self.text.escape_ascii(), self.text_table)?;
        writeln!(f, "table, {} words with its header:{}", self.table.len(), hex(&self.table))?;
        writeln!(f, "limits: {} words, {} until-like words", self.limits.written, self.limits.until_like)?;
        writeln!(f, "check: plain only {}, limit {}", self.plain_only, self.limit)?;
        writeln!(
            f,
            "rooms: bytes {}, plain {}, normal {}, dialect {}, remainder {}, whole way {} and {}, scratch {}",
            self.bytes, self.plain, self.normal, self.dialect, self.after, self.form_plain, self.form, self.scratch
        )?;
        writeln!(f, "rooms: states {}, move {}", self.states, self.moved)?;
        writeln!(f, "state {}, sample {:08X}, {} letters driven", self.state, self.sample, self.driven)?;
        let (samples, start, driven) = (self.samples.len(), self.start, self.driven);
        writeln!(f, "recording of {samples} samples, loop start {start}, {driven} letters driven:{}", hex(&self.samples))?;
        let (samples, start, driven) = (self.others.len(), self.other_start, self.other_driven);
        writeln!(f, "compared with {samples} samples, loop start {start}, {driven} letters driven:{}", hex(&self.others))?;
        writeln!(f, "bits above the driven ones in a second call: {:08X}", self.undriven)?;
        let tallies: String = self.tallies.iter().map(|tally| format!(" {} of {},", tally.held, tally.judged)).collect();
        write!(f, "tallies of {} desks, held of judged:{tallies} desk {} named", self.tallies.len(), self.desk)
    }
}
