//! How often each answer was given, so that a test over random input cannot become empty unnoticed. An answer is a
//! number or a text.
use std::collections::BTreeMap;
use std::fmt::Debug;

#[derive(Default)]
pub struct Seen<T = u32>(BTreeMap<T, usize>);

impl<T: Ord + Clone + Debug> Seen<T> {
    pub fn add(&mut self, answer: T) {
        *self.0.entry(answer).or_default() += 1;
    }

    /// Exactly these were given, each at least so many times.
    pub fn each(&self, least: usize, answers: &[T]) {
        println!("{}: answers, and how often: {:?}", crate::test_name(), self.0);
        let mut answers = answers.to_vec();
        answers.sort();
        assert_eq!(self.0.keys().cloned().collect::<Vec<_>>(), answers, "the answers given");
        assert!(self.0.values().all(|&times| times >= least), "an answer was given fewer than {least} times");
    }
}
