//! Two recordings held against each other: loops of many lengths and starts, the same show unrolled in other ways, near misses at every
//! edge of the moments that decide it, bits beyond the driven ones, and every refusal with its place in the order.
use crate::case::{Case, Samples, Step};

pub fn cases() -> Vec<Case> {
    [unrolled(), near_misses(), long(), driven(), refused()].concat()
}

/// Samples that look random in their low three bits.
fn show(n: usize, seed: usize) -> Vec<u32> {
    (0..n).map(|i| ((i * i * 7 + i * seed + i / 3) % 8) as u32).collect()
}

fn case(label: &str, first: (&[u32], usize, usize), second: (&[u32], usize, usize)) -> Case {
    Case {
        samples: Samples::Listed(second.0.to_vec()),
        start: second.1,
        driven: second.2,
        second: first.2,
        ..Case::new(label, Step::Compare, first.0, first.1)
    }
}

/// A case each way round.
fn both(label: &str, first: (&[u32], usize, usize), second: (&[u32], usize, usize)) -> [Case; 2] {
    [case(label, first, second), case(&format!("{label}, the other way round"), second, first)]
}

/// The first n samples of a lead-in and a loop, read on.
fn read_on(lead: &[u32], round: &[u32], n: usize) -> Vec<u32> {
    lead.iter().chain(round.iter().cycle()).copied().take(n).collect()
}

/// One show, the loop entered later by one recording, and gone round more often.
fn unrolled() -> Vec<Case> {
    let mut cases = Vec::new();
    for lead in [0, 1, 3] {
        for round in [1, 2, 3, 5] {
            let (before, around) = (show(lead, 5), show(round, 11));
            let first = read_on(&before, &around, lead + round);
            for later in [0, 1, 4] {
                for times in [1, 2, 3] {
                    let second = read_on(&before, &around, lead + later + times * round);
                    let label = format!("{lead} samples, then {round} for ever; {later} later, {times} times");
                    cases.extend(both(&label, (&first, lead, 3), (&second, lead + later, 3)));
                }
            }
        }
    }
    cases
}

/// Loops of two lengths that differ at one moment alone, among those that decide it.
fn near_misses() -> Vec<Case> {
    let mut cases = Vec::new();
    for (p, q, s, t) in [(1, 2, 0, 0), (2, 3, 0, 1), (3, 5, 2, 0), (4, 6, 1, 3), (5, 4, 0, 0)] {
        let around = vec![2; p];
        for at in 0..t + q {
            let mut second = vec![2; t + q];
            second[at] = 6;
            let label = format!("loops of {p} and {q} from {s} and {t}, moment {at} differs");
            cases.extend(both(&label, (&read_on(&around, &around, s + p), s, 3), (&second, t, 3)));
        }
        // the first sample that a loop of one length cannot have is as far off as any can be
        let (p, q) = (p + q, q);
        let first: Vec<u32> = (0..p).map(|i| u32::from(i + 1 == p)).collect();
        let second: Vec<u32> = (0..q).map(|_| 0).collect();
        cases.extend(both(&format!("a one after {p} samples"), (&first, 0, 1), (&second, 0, 1)));
    }
    // words that agree for as long as two words of periods p and q can: Fibonacci words, and periods next to each other
    let mut fibonacci = vec![vec![0u32], vec![0, 1]];
    for n in 2..9 {
        fibonacci.push([fibonacci[n - 1].clone(), fibonacci[n - 2].clone()].concat());
    }
    for pair in fibonacci.windows(2) {
        cases.extend(both(&format!("Fibonacci, {}", pair[1].len()), (&pair[0], 0, 1), (&pair[1], 0, 1)));
    }
    cases
}

/// As many samples as are taken, against a single one, and against one fewer.
fn long() -> Vec<Case> {
    let (quiet, mut last, mut shorter) = ([0; 4096], [0; 4096], [0; 4095]);
    (last[4095], shorter[4094]) = (1, 1);
    let one: (&[u32], usize, usize) = (&[0], 0, 32);
    vec![
        case("one sample, and 4096 like it", one, (&quiet, 4095, 32)),
        case("one sample, and the last of 4096 differs", one, (&last, 0, 32)),
        case("the last of 4096 differs, then one sample", (&last, 4095, 32), one),
        case("the last of 4096, and of 4095", (&last, 0, 1), (&shorter, 0, 1)),
    ]
}

/// Driven counts at their edges: a bit that is driven, and one that is not, differs.
fn driven() -> Vec<Case> {
    let mut cases = Vec::new();
    for driven in [0, 1, 2, 16, 31, 32] {
        for bit in [0, 1, 2, 15, 16, 30, 31] {
            let label = format!("{driven} driven, bit {bit} differs at moment 2");
            let second = [0, u32::MAX, 0x1234_5678 ^ 1 << bit];
            cases.push(case(&label, (&[0, u32::MAX, 0x1234_5678], 1, driven), (&second, 1, driven)));
        }
    }
    cases
}

/// Each refusal of either recording, and each before the later ones; then 27.
fn refused() -> Vec<Case> {
    let (none, two, many): (&[u32], &[u32], &[u32]) = (&[], &[1, 0], &[0; 4097]);
    let faulty = [(none, 0, 33), (two, 2, 33), (two, 0, 33), (two, 0, u32::MAX as usize), (two, 1, 2)];
    let mut cases = both("refused, too many samples", (many, 4097, 33), (two, 0, 1)).to_vec();
    cases.push(case("refused, no sample, then too many", (none, 0, 33), (many, 4097, 33)));
    for (n, first) in faulty.into_iter().enumerate() {
        cases.extend(both(&format!("refused, {n}"), first, (two, 0, 1)));
        for (m, second) in faulty.into_iter().enumerate() {
            cases.push(case(&format!("refused, {n}, then {m}"), first, second));
        }
    }
    for counts in [(0, 1), (1, 0), (31, 32), (32, 0), (7, 7)] {
        cases.push(case(&format!("driven counts {counts:?}"), (two, 0, counts.0), (two, 0, counts.1)));
    }
    cases
}
