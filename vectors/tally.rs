//! How many calls of each surface there were, who judged them, and which refusals were met.

use std::collections::BTreeMap;

use crate::names::name;

#[derive(Default)]
struct Surface {
    calls: usize,
    judged: usize,
    /// How often each answer was given: 0, or the number of a refusal.
    answers: BTreeMap<u64, usize>,
}

/// By the code of the call.
#[derive(Default)]
pub struct Tally(BTreeMap<u64, Surface>);

fn told(answers: &BTreeMap<u64, usize>) -> String {
    let refusals = answers.iter().filter(|(&answer, _)| answer > 0);
    let refusals = refusals.map(|(number, times)| format!("{number}: {times}"));
    refusals.collect::<Vec<_>>().join(", ")
}

impl Tally {
    pub fn count(&mut self, code: u64, answer: u64, is_judged: bool) {
        let surface = self.0.entry(code).or_default();
        surface.calls += 1;
        surface.judged += usize::from(is_judged);
        *surface.answers.entry(answer).or_default() += 1;
    }

    /// A line for each surface, and one for all.
    pub fn lines(&self) -> Vec<String> {
        let mut lines =
            vec!["call: calls, judged by the Rust, by plain Rust alone; refusals".into()];
        let mut all = Surface::default();
        for (&code, surface) in &self.0 {
            lines.push(line(name(code), surface));
            all.calls += surface.calls;
            all.judged += surface.judged;
            for (&answer, times) in &surface.answers {
                *all.answers.entry(answer).or_default() += times;
            }
        }
        lines.push(line("all", &all));
        lines
    }
}

fn line(name: &str, surface: &Surface) -> String {
    let Surface {
        calls,
        judged,
        answers,
    } = surface;
    let alone = calls - judged;
    format!(
        "{name:<24}{calls:>9}{judged:>9}{alone:>9}  {}",
        told(answers)
    )
}
