//! The ledger's machine in plain Rust: the same forest, numbered joins, search and chains, with the checks that safe Rust makes.

#[derive(Clone, Copy, PartialEq, Eq)]
pub enum Sign {
    Plus,
    Minus,
}

#[derive(Clone, Copy)]
pub struct Step {
    pub low: u16,
    pub high: u16,
    pub sign: Sign,
    pub new: bool,
}

impl Step {
    fn start(self) -> u16 {
        if self.sign == Sign::Plus { self.low } else { self.high }
    }

    fn end(self) -> u16 {
        if self.sign == Sign::Plus { self.high } else { self.low }
    }

    fn turned(self) -> Step {
        let sign = if self.sign == Sign::Plus { Sign::Minus } else { Sign::Plus };
        Step { sign, ..self }
    }
}

pub trait Rule {
    fn protects(&self, low: u32, high: u32) -> bool;
}

pub struct Short {
    longest: u32,
}

impl Short {
    pub fn new(k: u32) -> Short {
        Short { longest: if (1..=1024).contains(&k) { k - 1 } else { u32::MAX } }
    }
}

impl Rule for Short {
    fn protects(&self, low: u32, high: u32) -> bool {
        low < high && high - low <= self.longest
    }
}

pub struct Spans<'a> {
    pub list: &'a [(u32, u32)],
}

impl Rule for Spans<'_> {
    fn protects(&self, low: u32, high: u32) -> bool {
        low < high && (self.list.len() > 32 || self.list.iter().any(|&s| s == (low, high)))
    }
}

pub struct Joined<A, B> {
    pub first: A,
    pub second: B,
}

impl<A: Rule, B: Rule> Rule for Joined<A, B> {
    fn protects(&self, low: u32, high: u32) -> bool {
        self.first.protects(low, high) || self.second.protects(low, high)
    }
}

#[derive(Clone, Copy)]
struct Edge {
    low: u16,
    high: u16,
    sign: Sign,
    number: u16,
}

#[derive(Clone, Copy)]
struct Row {
    parent: u16,
    size: u16,
    edge: Option<Edge>,
}

pub enum Answer {
    Released(u32),
    Withheld((u16, u16), usize),
    Lost(usize),
    Refused(u8),
}

pub struct Ledger {
    rows: [Row; 1024],
    joins: u16,
    pub counts: [u32; 4],
}

impl Ledger {
    pub fn open(table: &mut [u32]) -> Ledger {
        table.fill(0);
        let mut rows = [Row { parent: 0, size: 1, edge: None }; 1024];
        for (i, row) in rows.iter_mut().enumerate() {
            row.parent = i as u16;
        }
        Ledger { rows, joins: 0, counts: [0; 4] }
    }

    fn number(&self, b: u16) -> u16 {
        self.rows[b as usize].edge.map_or(1024, |e| e.number)
    }

    fn find(&self, table: &[u32], b: u16) -> (u16, u32) {
        let mut at = b;
        let mut far = 0u32;
        while self.rows[at as usize].edge.is_some() {
            far = far.wrapping_add(table[at as usize]);
            at = self.rows[at as usize].parent;
        }
        (at, far)
    }

    fn leader(&self, b: u16) -> u16 {
        let mut at = b;
        while self.rows[at as usize].edge.is_some() {
            at = self.rows[at as usize].parent;
        }
        at
    }

    fn leaders(&self) -> [u16; 1024] {
        let mut hung = [0u16; 1024];
        for (i, row) in self.rows.iter().enumerate() {
            if let Some(edge) = row.edge {
                hung[edge.number as usize] = i as u16;
            }
        }
        let mut leaders: [u16; 1024] = std::array::from_fn(|i| i as u16);
        for &b in hung[..self.joins as usize].iter().rev() {
            leaders[b as usize] = leaders[self.rows[b as usize].parent as usize];
        }
        leaders
    }

    fn search<R: Rule>(&self, rule: &R, x: u16, y: u16) -> Option<(u16, u16)> {
        let leaders = self.leaders();
        let (mut ours, mut theirs) = ([0u16; 1024], [0u16; 1024]);
        let (mut m, mut n) = (0, 0);
        for (i, &l) in leaders.iter().enumerate() {
            if l == x {
                ours[m] = i as u16;
                m += 1;
            } else if l == y {
                theirs[n] = i as u16;
                n += 1;
            }
        }
        let (mut ours, mut theirs) = (&ours[..m], &theirs[..n]);
        while let (Some((&a, a_rest)), Some((&b, b_rest))) = (ours.split_first(), theirs.split_first()) {
            let (low, others) = if a < b {
                ours = a_rest;
                (a, theirs)
            } else {
                theirs = b_rest;
                (b, ours)
            };
            for &high in others {
                if rule.protects(low as u32, high as u32) {
                    return Some((low, high));
                }
            }
        }
        None
    }

    fn newest(&self, x: u16, y: u16) -> (u16, bool) {
        let (mut p, mut q) = (x, y);
        loop {
            if self.number(p) < self.number(q) {
                let up = self.rows[p as usize].parent;
                if up == q {
                    return (p, true);
                }
                p = up;
            } else {
                let up = self.rows[q as usize].parent;
                if up == p {
                    return (q, false);
                }
                q = up;
            }
        }
    }

    fn fill(&self, x: u16, y: u16, chain: &mut [Step], from: usize) -> usize {
        if x == y {
            return from;
        }
        let (at, forth) = self.newest(x, y);
        let edge = self.rows[at as usize].edge.unwrap();
        let out = Step { low: edge.low, high: edge.high, sign: edge.sign, new: false };
        let step = if forth { out } else { out.turned() };
        let place = self.fill(x, step.start(), chain, from);
        chain[place] = step;
        self.fill(step.end(), y, chain, place + 1)
    }

    fn refusal(&self, a: u16, b: u16, pair: (u16, u16), chain: &mut [Step]) -> usize {
        let up = self.leader(pair.0) == self.leader(a);
        let (near, far, sign) = if up { (a, b, Sign::Plus) } else { (b, a, Sign::Minus) };
        let place = self.fill(pair.0, near, chain, 0);
        chain[place] = Step { low: a, high: b, sign, new: true };
        self.fill(far, pair.1, chain, place + 1)
    }

    fn join(&mut self, table: &mut [u32], a: (u16, u16, u32), b: (u16, u16, u32), sum: u32) {
        let ((low, x, near), (high, y, far)) = (a, b);
        let (own, other) = (self.rows[x as usize].size, self.rows[y as usize].size);
        let yields = if own == other { y < x } else { own < other };
        let rise = sum.wrapping_add(near).wrapping_sub(far);
        let (hung, under, sign, entry) =
            if yields { (x, y, Sign::Plus, rise.wrapping_neg()) } else { (y, x, Sign::Minus, rise) };
        let size = self.rows[hung as usize].size;
        let row = &mut self.rows[hung as usize];
        row.parent = under;
        row.edge = Some(Edge { low, high, sign, number: self.joins });
        self.rows[under as usize].size += size;
        self.joins += 1;
        table[hung as usize] = entry;
    }

    fn fault(slots: usize, table: usize, chain: usize, low: u32, high: u32) -> Option<u8> {
        if slots > 1023 {
            Some(2)
        } else if table < 1024 {
            Some(3)
        } else if chain < 1023 {
            Some(4)
        } else if high as usize > slots {
            Some(5)
        } else if low >= high {
            Some(6)
        } else {
            None
        }
    }

    fn answer<R: Rule>(&mut self, table: &mut [u32], log: (&[u32], &[u8]), rule: &R, low: u32, high: u32, chain: &mut [Step]) -> Answer {
        let slots = log.0.len().min(log.1.len());
        if let Some(number) = Ledger::fault(slots, table.len(), chain.len(), low, high) {
            return Answer::Refused(number);
        }
        let (a, b) = (low as u16, high as u16);
        let (x, near) = self.find(table, a);
        let (y, far) = self.find(table, b);
        if x == y {
            return Answer::Released(far.wrapping_sub(near));
        }
        if let Some(pair) = self.search(rule, x, y) {
            return Answer::Withheld(pair, self.refusal(a, b, pair, chain));
        }
        let mut sum = 0u32;
        for slot in low as usize..high as usize {
            if log.1[slot] != 1 {
                return Answer::Lost(slot);
            }
            sum = sum.wrapping_add(log.0[slot]);
        }
        self.join(table, (a, x, near), (b, y, far), sum);
        Answer::Released(sum)
    }

    pub fn query<R: Rule>(&mut self, table: &mut [u32], log: (&[u32], &[u8]), rule: &R, low: u32, high: u32, chain: &mut [Step]) -> Answer {
        if self.counts.iter().sum::<u32>() >= 65_535 {
            return Answer::Refused(1);
        }
        let answer = self.answer(table, log, rule, low, high, chain);
        let place = match answer {
            Answer::Released(_) => 0,
            Answer::Withheld(..) => 1,
            Answer::Lost(_) => 2,
            Answer::Refused(_) => 3,
        };
        self.counts[place] += 1;
        answer
    }
}
