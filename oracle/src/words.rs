//! The form of a list: little-endian 32-bit words, each case led by the
//! number of words that follow in it. FORMAT.md says what the words are.

/// The NaN that stands for every NaN, at both widths.
pub const NAN32: u32 = 0x7FC0_0000;
pub const NAN64: u64 = 0x7FF8_0000_0000_0000;

/// The bits of a float, with one NaN for all.
pub fn bits32(x: f32) -> u32 {
    if x.is_nan() {
        NAN32
    } else {
        x.to_bits()
    }
}

/// The same for binary64.
pub fn bits64(x: f64) -> u64 {
    if x.is_nan() {
        NAN64
    } else {
        x.to_bits()
    }
}

/// One case under way.
#[derive(Default, Clone)]
pub struct Case(pub Vec<u32>);

impl Case {
    pub fn new() -> Self {
        Case(Vec::new())
    }

    pub fn word(&mut self, w: u32) -> &mut Self {
        self.0.push(w);
        self
    }

    /// A whole number of at most 32 bits.
    pub fn count(&mut self, n: usize) -> &mut Self {
        self.word(u32::try_from(n).expect("a count of a list fits a word"))
    }

    pub fn int(&mut self, n: i32) -> &mut Self {
        self.word(n as u32)
    }

    /// Two words, low first.
    pub fn long(&mut self, n: u64) -> &mut Self {
        self.word(n as u32).word((n >> 32) as u32)
    }

    pub fn float(&mut self, x: f32) -> &mut Self {
        self.word(bits32(x))
    }

    pub fn double(&mut self, x: f64) -> &mut Self {
        self.long(bits64(x))
    }

    pub fn flag(&mut self, yes: bool) -> &mut Self {
        self.word(u32::from(yes))
    }

    pub fn floats(&mut self, xs: &[f32]) -> &mut Self {
        for &x in xs {
            self.float(x);
        }
        self
    }

    /// Bytes, four to a word, the first in the lowest place, padded with 0.
    pub fn bytes(&mut self, bytes: &[u8]) -> &mut Self {
        for part in bytes.chunks(4) {
            let mut four = [0u8; 4];
            four[..part.len()].copy_from_slice(part);
            self.word(u32::from_le_bytes(four));
        }
        self
    }
}

/// One list: its name, its cases as words, and what it counts.
pub struct List {
    pub name: &'static str,
    words: Vec<u32>,
    cases: usize,
    longest: usize,
    counts: std::collections::BTreeMap<String, usize>,
}

impl List {
    pub fn new(name: &'static str) -> Self {
        List {
            name,
            words: Vec::new(),
            cases: 0,
            longest: 0,
            counts: Default::default(),
        }
    }

    pub fn push(&mut self, case: &Case) {
        self.words.push(case.0.len() as u32);
        self.words.extend_from_slice(&case.0);
        self.cases += 1;
        self.longest = self.longest.max(case.0.len());
    }

    /// Counts one more of `what`.
    pub fn tally(&mut self, what: impl Into<String>) {
        self.tally_many(what, 1);
    }

    pub fn tally_many(&mut self, what: impl Into<String>, n: usize) {
        *self.counts.entry(what.into()).or_insert(0) += n;
    }

    pub fn cases(&self) -> usize {
        self.cases
    }

    pub fn counted(&self, what: &str) -> usize {
        self.counts.get(what).copied().unwrap_or(0)
    }

    /// Words written so far; a list stops where it has enough.
    pub fn size(&self) -> usize {
        self.words.len()
    }

    pub fn bytes(&self) -> Vec<u8> {
        self.words.iter().flat_map(|w| w.to_le_bytes()).collect()
    }

    pub fn report(&self) -> String {
        let mut text = format!(
            "{}: {} cases, {} bytes, at most {} words a case\n",
            self.name,
            self.cases,
            4 * self.words.len(),
            self.longest
        );
        for (what, n) in &self.counts {
            text.push_str(&format!("    {n:>6}  {what}\n"));
        }
        text
    }
}
