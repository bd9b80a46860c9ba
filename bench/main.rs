//! Asks the proved ledger and one in plain Rust the same queries, and holds their answers against each other. Run under callgrind, the
//! counts of the functions `ledger_early`, `ledger_whole`, `plain_early` and `plain_whole` say what each cost (bench/run).

mod plain;

use plain::{Answer, Joined, Ledger, Rule, Short, Sign, Spans, Step};

unsafe extern "C" {
    fn ledger_bench(early: *const u32, early_len: usize, k: u32, spans: *const u32, spans_len: usize, late: *const u32, late_len: usize) -> u32;
}

/// The queries of a case: the early ones make the state, the late ones are measured.
struct Case {
    early: Vec<u32>,
    k: u32,
    spans: Vec<u32>,
    late: Vec<u32>,
}

fn digest(answer: Answer) -> u32 {
    match answer {
        Answer::Released(value) => value,
        Answer::Withheld((low, high), steps) => (low as u32 * 1024 + high as u32).wrapping_mul(1024).wrapping_add(steps as u32),
        Answer::Lost(slot) => slot as u32,
        Answer::Refused(number) => number as u32,
    }
}

fn ask<R: Rule>(ledger: &mut Ledger, table: &mut [u32], log: (&[u32], &[u8]), rule: &R, ranges: &[u32], chain: &mut [Step], sum: u32) -> u32 {
    let mut sum = sum;
    for range in ranges.chunks_exact(2) {
        let answer = ledger.query(table, log, rule, range[0], range[1], chain);
        std::hint::black_box(&mut *chain);
        sum = sum.wrapping_mul(31).wrapping_add(digest(answer));
    }
    sum
}

fn plain(case: &Case, late: &[u32]) -> u32 {
    let values: [u32; 1023] = std::array::from_fn(|i| (i as u32).wrapping_mul(2_654_435_761));
    let log: (&[u32], &[u8]) = (&values, &[1; 1023]);
    let mut table = [0u32; 1024];
    let mut chain = [Step { low: 0, high: 0, sign: Sign::Plus, new: false }; 1023];
    let mut ledger = Ledger::open(&mut table);
    let sum = ask(&mut ledger, &mut table, log, &Short::new(1), &case.early, &mut chain, 0);
    let short = Short::new(case.k);
    let sum = if case.spans.is_empty() {
        ask(&mut ledger, &mut table, log, &short, late, &mut chain, sum)
    } else {
        let list: Vec<(u32, u32)> = case.spans.chunks_exact(2).map(|s| (s[0], s[1])).collect();
        let rule = Joined { first: short, second: Spans { list: &list } };
        ask(&mut ledger, &mut table, log, &rule, late, &mut chain, sum)
    };
    sum.wrapping_mul(31).wrapping_add(ledger.counts.iter().sum())
}

fn proved(case: &Case, late: &[u32]) -> u32 {
    let (e, s) = (&case.early, &case.spans);
    unsafe { ledger_bench(e.as_ptr(), e.len(), case.k, s.as_ptr(), s.len(), late.as_ptr(), late.len()) }
}

#[unsafe(no_mangle)]
#[inline(never)]
fn ledger_early(case: &Case) -> u32 {
    proved(case, &[])
}

#[unsafe(no_mangle)]
#[inline(never)]
fn ledger_whole(case: &Case) -> u32 {
    proved(case, &case.late)
}

#[unsafe(no_mangle)]
#[inline(never)]
fn plain_early(case: &Case) -> u32 {
    plain(case, &[])
}

#[unsafe(no_mangle)]
#[inline(never)]
fn plain_whole(case: &Case) -> u32 {
    plain(case, &case.late)
}

fn random(n: usize) -> Vec<u32> {
    let mut state = 88_172_645_463_325_252u64;
    let mut next = || {
        state ^= state << 13;
        state ^= state >> 7;
        state ^= state << 17;
        (state >> 33) as u32 % 1024
    };
    (0..n)
        .flat_map(|_| {
            let (a, b) = (next(), next());
            [a.min(b), a.max(b)]
        })
        .collect()
}

fn repeated(n: usize, low: u32, high: u32) -> Vec<u32> {
    (0..n).flat_map(|_| [low, high]).collect()
}

/// Two sets of 512, the low and the high half.
fn halves() -> Vec<u32> {
    (0..1024).filter(|i| i % 512 != 0).flat_map(|i| [i / 512 * 512, i]).collect()
}

fn case(name: &str) -> Option<Case> {
    let many = 10;
    Some(match name {
        "random" => Case { early: vec![], k: 8, spans: vec![], late: random(65_535) },
        "search-short" => Case { early: halves(), k: 2, spans: vec![], late: repeated(many, 0, 1023) },
        "search-spans" => {
            let spans = (0..31).flat_map(|i| [i, i + 1]).chain([511, 1023]).collect();
            Case { early: halves(), k: 1, spans, late: repeated(many, 0, 1023) }
        }
        "chain" => {
            let early = (0..1022).flat_map(|i| [i, i + 1]).collect();
            Case { early, k: 1, spans: vec![0, 1023], late: repeated(many, 1022, 1023) }
        }
        "linked" => {
            let level = |s: u32| (0..1024 / (2 * s)).flat_map(move |i| [2 * s * i, 2 * s * i + s]);
            Case { early: (0..10).flat_map(|i| level(1 << i)).collect(), k: 1, spans: vec![], late: repeated(many, 511, 1023) }
        }
        _ => return None,
    })
}

fn main() {
    let name = std::env::args().nth(1).unwrap_or_default();
    let Some(case) = case(&name) else {
        eprintln!("bench random | search-short | search-spans | chain | linked");
        std::process::exit(1);
    };
    let early = (ledger_early(&case), plain_early(&case));
    let whole = (ledger_whole(&case), plain_whole(&case));
    assert_eq!(early.0, early.1);
    assert_eq!(whole.0, whole.1);
    println!("{name}: {} early and {} late queries, answers {:08x}", case.early.len() / 2, case.late.len() / 2, whole.0);
}
