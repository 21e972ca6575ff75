//! What a run of jobs met: answers by line, and jobs by dimension.

use super::program::Printed;
use crate::paper::LARGEST_N;
use crate::tally::row;
use std::collections::BTreeMap;
use std::time::Duration;

/// The first words of a text's lines, but for the points.
const LINES: [&str; 4] = ["job", "nearest", "list", "ratio"];

/// 0 to 23, and bytes that are no job.
const DIMENSIONS: usize = LARGEST_N + 2;

#[derive(Default)]
pub struct Tally {
    /// How often each line has each answer; a refusal's number comes first, for the order.
    answers: [BTreeMap<(u32, String), u64>; LINES.len()],
    by_dimension: [u64; DIMENSIONS],
    /// Jobs whose list was found, by dimension.
    listed: [u64; DIMENSIONS],
    longest: usize,
}

impl Tally {
    pub fn count(&mut self, bytes: &[u8], expected: &Printed) {
        let text = String::from_utf8_lossy(&expected.text);
        let n = oracle::job(bytes).map_or(DIMENSIONS - 1, |job| job.weights.len());
        self.by_dimension[n] += 1;
        self.longest = self.longest.max(text.len());
        for line in text.lines() {
            let words: Vec<&str> = line.split(' ').collect();
            let Some(place) = LINES.iter().position(|first| *first == words[0]) else { continue };
            let answer = match words[..] {
                [_, "refused", number, ..] => (number.parse().unwrap_or(0), format!("refused {number}")),
                ["ratio", verdict] => (0, verdict.into()),
                ["list", ..] => {
                    self.listed[n] += 1;
                    (0, "listed".into())
                }
                _ => (0, "found".into()),
            };
            *self.answers[place].entry(answer).or_default() += 1;
        }
    }

    /// Two markdown tables and a line.
    #[must_use]
    pub fn text(&self, time: Duration) -> String {
        let mut text = String::from("| line | answers |\n|---|---|\n");
        for (line, counts) in LINES.iter().zip(&self.answers) {
            let counts: Vec<String> = counts.iter().map(|((_, words), count)| format!("{words}: {count}")).collect();
            text.push_str(&format!("| {line} | {} |\n", counts.join(", ")));
        }
        text.push_str("\n| n |");
        text.extend((0..=LARGEST_N).map(|n| format!(" {n} |")));
        text.push_str(&format!(" no job |\n|---|{}\n", "---:|".repeat(DIMENSIONS)));
        text.push_str(&row("jobs", &self.by_dimension));
        text.push_str(&row("lists found", &self.listed));
        let (jobs, seconds) = (self.by_dimension.iter().sum::<u64>(), time.as_secs_f64());
        let rate = jobs as f64 / seconds;
        text.push_str(&format!(
            "\n{jobs} jobs, {seconds:.1} s, {rate:.0} a second; the longest text has {} bytes\n",
            self.longest
        ));
        text
    }
}
