//! What the loader answers: as document 01 has it, as C receives it, and as the programs over stored cases print it.
use crate::flash::Step;
use crate::raw_step::RawStep;

#[derive(Clone, Copy, Debug, PartialEq)]
pub enum Answer {
    Step(Step),
    LastStep(Step),
    /// The number that UPDATE was passed over for, or 0.
    Boot(u32),
    Refused(u32),
    /// Of trigger and confirm: nothing is left to be done.
    Finished,
}

/// `frondicare_answer`.
#[repr(C)]
#[derive(Clone, Copy, Debug, PartialEq)]
pub struct RawAnswer {
    pub kind: u32,
    pub number: u32,
    pub op: u32,
    pub value: u32,
    pub at: usize,
    pub to: usize,
}

impl Answer {
    /// A step that is to be carried out.
    pub fn step(self) -> Option<Step> {
        match self {
            Answer::Step(step) | Answer::LastStep(step) => Some(step),
            Answer::Boot(_) | Answer::Refused(_) | Answer::Finished => None,
        }
    }
}

impl From<Answer> for RawAnswer {
    fn from(answer: Answer) -> RawAnswer {
        let (kind, number) = match answer {
            Answer::Step(_) => (0, 0),
            Answer::LastStep(_) => (1, 0),
            Answer::Boot(number) => (2, number),
            Answer::Refused(number) => (3, number),
            Answer::Finished => (4, 0),
        };
        let none = RawStep { op: 0, at: 0, to: 0, value: 0 };
        let RawStep { op, at, to, value } = answer.step().map_or(none, RawStep::from);
        RawAnswer { kind, number, op, value, at, to }
    }
}

pub fn step_text(step: Step) -> String {
    match step {
        Step::Erase { at } => format!("E {at}"),
        Step::Copy { from, to } => format!("C {from} {to}"),
        Step::Byte { at, value } => format!("B {at} {value}"),
        Step::Mark { at } => format!("M {at}"),
    }
}

pub fn answer_text(answer: Answer) -> String {
    match answer {
        Answer::Step(step) => step_text(step),
        Answer::LastStep(step) => format!("LAST {}", step_text(step)),
        Answer::Boot(number) => format!("BOOT {number}"),
        Answer::Refused(number) => format!("REFUSE {number}"),
        Answer::Finished => "FINISHED".to_string(),
    }
}

/// The same without the offsets and values of a step.
pub fn answer_kind(answer: Answer) -> String {
    let text = answer_text(answer);
    let words = text.split(' ').filter(|word| answer.step().is_none() || word.parse::<usize>().is_err());
    words.collect::<Vec<_>>().join(" ")
}
