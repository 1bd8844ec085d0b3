//! A case of the case runner: how it is written for the runner, and what the runner must print.
use reference::checks::Refusal;
use reference::edges::{chain_of_next, headed};
use reference::limits::Limits;
use reference::recording::Recording;
use reference::steps::{self, Form, Judgement, Tally};

/// The runner's memory for the table of a text or a plain form, and for any form.
pub const PLAIN_ROOM: usize = 520;
pub const FORM_ROOM: usize = 16_400;

#[derive(Clone, Copy, PartialEq, Eq)]
pub enum Step {
    Check = 1,
    Class,
    Plain,
    Normal,
    Form,
    Judge,
    Row,
    Text,
    Dialect,
    Compare,
    After,
    States,
    Move,
}

#[derive(Clone)]
pub struct Case {
    pub label: String,
    pub step: Step,
    /// The words of the table: those of a chain (letter 1, then X of the word before), then listed ones, then one of all replaced. Of a
    /// text its bytes are listed, and of a comparison the first recording's samples.
    pub chain: usize,
    pub listed: Vec<u32>,
    pub replaced: Option<(usize, u32)>,
    pub header: Header,
    /// Of the house.
    pub limits: Limits,
    /// Rooms of the lent slices; of a comparison the first recording's loop start and driven count.
    pub room: usize,
    pub second: usize,
    pub plain: bool,
    pub limit: usize,
    pub samples: Samples,
    pub start: usize,
    pub driven: usize,
    /// How many desks have a tally, the number of the desk that is named, and its tally; of a step by a sample and of a
    /// move `judged` is the sample, and of a move `desk` is the state's number.
    pub desks: usize,
    pub desk: usize,
    pub tally: Tally,
}

/// What stands before the words.
#[derive(Clone)]
pub enum Header {
    /// Their header.
    Theirs,
    Other(u32),
    /// Nothing: they are a text, or no table.
    None,
}

#[derive(Clone)]
pub enum Samples {
    Listed(Vec<u32>),
    /// So many that a seed makes.
    Made(usize, u32),
}

impl Case {
    /// Of a table with these words, under their header, in a house that keeps to the desk's limits.
    pub fn new(label: &str, step: Step, words: &[u32], room: usize) -> Case {
        Case {
            label: label.into(),
            step,
            chain: 0,
            listed: words.to_vec(),
            replaced: None,
            header: if step == Step::Compare { Header::None } else { Header::Theirs },
            limits: Limits::DESK,
            room,
            second: 0,
            plain: false,
            limit: 0,
            samples: Samples::Listed(vec![]),
            start: 0,
            driven: 0,
            desks: 3,
            desk: 1,
            tally: Tally { judged: 0, held: 0 },
        }
    }

    /// Of a text, which is listed in place of a table: a word for each byte.
    pub fn of_text(label: &str, text: &[u8], room: usize) -> Case {
        let bytes: Vec<u32> = text.iter().map(|&byte| byte.into()).collect();
        Case { header: Header::None, ..Case::new(label, Step::Text, &bytes, room) }
    }

    /// In a house with these limits.
    pub fn within(self, limits: Limits) -> Case {
        let label = format!("limits {} and {}, {}", limits.written, limits.until_like, self.label);
        Case { label, limits, ..self }
    }

    /// The case as the runner reads it (crates/case_input/src/lib.rt).
    pub fn words(&self) -> Vec<u32> {
        // the header is the first of the listed words, and stands before the chain; the word that is replaced is counted with it
        let header = self.header();
        let listed = [&header[..], &self.listed].concat();
        let (place, word) = self.replaced.map_or((0, 0), |(place, word)| (header.len() + place, word));
        let (samples, count, seed) = match &self.samples {
            Samples::Listed(samples) => (samples.clone(), samples.len(), 0),
            Samples::Made(count, seed) => (vec![], *count, *seed),
        };
        let number = |n: usize| u32::try_from(n).expect("a word");
        let mut words = vec![self.step as u32, number(self.chain), number(listed.len()), number(place), word];
        words.extend([self.limits.written, self.limits.until_like, self.room, self.second].map(number));
        words.extend([self.plain as u32, number(self.limit)]);
        words.extend([count, self.start, self.driven, self.desks, self.desk].map(number));
        words.extend([self.tally.judged, self.tally.held, seed]);
        words.extend(listed);
        words.extend(samples);
        words
    }

    fn after_header(&self) -> Vec<u32> {
        let mut words = [chain_of_next(self.chain), self.listed.clone()].concat();
        if let Some((place, word)) = self.replaced {
            words[place - 1] = word;
        }
        words
    }

    /// The header, where there is one.
    fn header(&self) -> Vec<u32> {
        match self.header {
            Header::Theirs => headed(&self.after_header())[..1].to_vec(),
            Header::Other(header) => vec![header],
            Header::None => vec![],
        }
    }

    fn table(&self) -> Vec<u32> {
        [self.header(), self.after_header()].concat()
    }

    fn samples(&self) -> Vec<u32> {
        match &self.samples {
            Samples::Listed(samples) => samples.clone(),
            Samples::Made(count, seed) => record(*seed, *count),
        }
    }

    fn recording<'a>(&self, samples: &'a [u32]) -> Recording<'a> {
        Recording { samples, start: self.start, driven: self.driven }
    }

    /// The line that the runner must print: the step, then what it replies.
    pub fn prints(&self) -> String {
        let numbers: Vec<String> = [self.step as u64].into_iter().chain(self.reply()).map(|n| n.to_string()).collect();
        numbers.join(" ")
    }

    /// Number and place, the lent numbers, and a sum over the whole of each lent slice.
    fn reply(&self) -> Vec<u64> {
        let table = self.table();
        match self.step {
            Step::Check => answer(&steps::check(&table, self.plain, self.limit)).to_vec(),
            Step::Class => {
                let mut bytes = vec![0xEE; 16_400];
                let said = answer(&steps::classify(&table, &mut bytes[..self.room]));
                [&said[..], &[sum(bytes.iter().map(|&b| b.into()))]].concat()
            }
            Step::Text => {
                let text: Vec<u8> = table.iter().map(|&byte| u8::try_from(byte).expect("a byte")).collect();
                self.made(PLAIN_ROOM, |result| steps::text(&text, self.limits, result))
            }
            Step::Plain => self.made(PLAIN_ROOM, |result| steps::plain(&table, self.limits, result)),
            Step::Normal => {
                let (mut source, mut result) = (table.clone(), vec![0xEEEE_EEEE; FORM_ROOM]);
                source.resize(FORM_ROOM, 0);
                let made = steps::normal(&table, self.limits, &mut result[..self.room]);
                let part = match made {
                    Ok(Form::Source(length)) => &source[..length],
                    Ok(Form::Result(length)) => &result[..length],
                    Err(_) => &[],
                };
                [&answer(&made)[..], &[part.len() as u64, words(part), words(&source), words(&result)]].concat()
            }
            Step::Dialect => self.made(FORM_ROOM, |result| steps::dialect(&table, result)),
            Step::After => self.made(FORM_ROOM, |result| steps::after(&table, self.tally.judged, self.driven, result)),
            Step::States => self.made(FORM_ROOM, |result| steps::states(&table, result)),
            Step::Move => self.made(FORM_ROOM, |result| steps::moved(&table, self.desk, self.tally.judged, self.driven, result)),
            Step::Form => {
                let (mut plain, mut result) = (vec![0xEEEE_EEEE; PLAIN_ROOM], vec![0xEEEE_EEEE; FORM_ROOM]);
                let made = steps::form(&table, self.limits, &mut plain[..self.room], &mut result[..self.second]);
                [&answer(&made)[..], &stands(&made), &[words(&plain), words(&result)]].concat()
            }
            Step::Judge => {
                let mut scratch = vec![u64::MAX; 2_100];
                // the tallies of other desks are full
                let mut tallies = vec![Tally { judged: u32::MAX, held: 0 }; self.desks];
                tallies.iter_mut().skip(self.desk).take(1).for_each(|tally| *tally = self.tally);
                let samples = self.samples();
                let recording = self.recording(&samples);
                let judged = steps::judge(&table, recording, &mut scratch[..self.room], &mut tallies, self.desk);
                let tally = tallies.get(self.desk).unwrap_or(&self.tally);
                let j = judged.unwrap_or(Judgement { holds: false, moments: 0, failing: 0 });
                let told =
                    [j.holds as u64, j.moments as u64, j.failing as u64, tally.judged.into(), tally.held.into(), rows(&scratch)];
                [&answer(&judged)[..], &told].concat()
            }
            Step::Row => {
                let mut scratch = vec![u64::MAX; 2_100];
                let samples = self.samples();
                let part = steps::row(&table, self.recording(&samples), &mut scratch[..self.room]);
                let said = answer(&part);
                let part = &scratch[part.unwrap_or(0..0)];
                [&said[..], &[part.len() as u64, rows(part), rows(&scratch)]].concat()
            }
            Step::Compare => {
                let samples = self.samples();
                let first = Recording { samples: &table, start: self.room, driven: self.second };
                let compared = steps::compare(first, self.recording(&samples));
                let same = compared == Ok(None);
                [&answer(&compared)[..], &[same as u64, compared.ok().flatten().unwrap_or(0) as u64]].concat()
            }
        }
    }

    /// The reply of a step that makes words in a slice, which held a pattern.
    fn made(&self, room: usize, step: impl FnOnce(&mut [u32]) -> Result<usize, Refusal>) -> Vec<u64> {
        let mut result = vec![0xEEEE_EEEE; room];
        let made = step(&mut result[..self.room]);
        [&answer(&made)[..], &[made.unwrap_or(0) as u64, words(&result)]].concat()
    }
}

fn answer<T>(answer: &Result<T, Refusal>) -> [u64; 2] {
    let refusal = answer.as_ref().err().copied().unwrap_or(Refusal { number: 0, place: 0 });
    [refusal.number as u64, refusal.place as u64]
}

/// The length of a form, 0 where it is refused, and whether it is the source table.
fn stands(form: &Result<Form, Refusal>) -> [u64; 2] {
    let form = form.unwrap_or(Form::Result(0));
    [form.length() as u64, form.is_source() as u64]
}

/// A sum in which the place of every element counts.
fn sum(values: impl Iterator<Item = u64>) -> u64 {
    values.fold(0, |x, value| (x * 31 + value) % (1 << 32))
}

fn words(slice: &[u32]) -> u64 {
    sum(slice.iter().map(|&w| w.into()))
}

fn rows(scratch: &[u64]) -> u64 {
    sum(scratch.iter().map(|w| w % (1 << 32) * 3 + (w >> 32)))
}

/// Samples that look random: letter 1 holds mostly, letter 2 seldom, letter 3 half the time.
fn record(seed: u32, n: usize) -> Vec<u32> {
    let mut x = seed as u64 % (1 << 31);
    let mut sample = || {
        x = (x * 1_103_515_245 + 12_345) % (1 << 31);
        let (mostly, seldom) = (!(x / 65_536).is_multiple_of(8), (x / 524_288).is_multiple_of(64));
        mostly as u32 + 2 * seldom as u32 + 4 * (x / 256 % 2) as u32
    };
    (0..n).map(|_| sample()).collect()
}
