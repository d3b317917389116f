//! Reads the stored cases' input, and writes answers as their programs print them.

/// What is left of the input.
pub struct Input(pub &'static [u8]);

impl Input {
    pub fn bytes(&mut self, n: usize) -> &'static [u8] {
        let (bytes, rest) = self.0.split_at(n);
        self.0 = rest;
        bytes
    }

    /// A little-endian number of n bytes.
    pub fn number(&mut self, n: usize) -> u64 {
        self.bytes(n).iter().rev().fold(0, |number, &byte| number << 8 | byte as u64)
    }

    /// A name behind its length.
    pub fn name(&mut self) -> &'static str {
        let n = self.number(1) as usize;
        std::str::from_utf8(self.bytes(n)).unwrap()
    }
}

pub fn text_or_refusal<T>(answer: Result<T, u32>, text: impl Fn(T) -> String) -> String {
    answer.map_or_else(|number| format!("REFUSE {number}"), text)
}

/// Each record's answer is its line of the output, or its lines, and there are at least so many records.
pub fn same_lines(input: &'static [u8], output: &str, mut answer: impl FnMut(&mut Input) -> String, least: usize) {
    let mut input = Input(input);
    let mut lines = output.lines();
    let mut count = 0;
    while !input.0.is_empty() {
        for line in answer(&mut input).lines() {
            assert_eq!(Some(line), lines.next());
        }
        count += 1;
    }
    assert_eq!(lines.next(), None);
    assert!(count >= least, "{count} cases");
}
