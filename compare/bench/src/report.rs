//! The table, as Markdown.
use crate::case::{Against, Case};

pub fn print(cases: &[Case], counts: &[[u64; 2]], times: &[[f64; 2]]) {
    for against in [Against::QuilRs, Against::OneRead, Against::OneForward] {
        let [input, theirs] = match against {
            Against::QuilRs => ["input", "quil-rs's"],
            Against::OneRead => ["tables", "one read"],
            Against::OneForward => ["tables", "one forward"],
        };
        println!("\n| call | {input} | instructions | {theirs} | ratio | ratio of times | goal |");
        println!("|---|---|---:|---:|---:|---:|---|");
        for ((case, count), time) in cases.iter().zip(counts).zip(times) {
            if case.against == against {
                line(case, *count, *time);
            }
        }
    }
}

fn line(case: &Case, [ours, theirs]: [u64; 2], times: [f64; 2]) {
    let (ratio, time) = (ours as f64 / theirs as f64, times[0] / times[1]);
    let goal = case.goal.map_or("", |most| match (ratio <= most, time <= most) {
        (true, true) => "met",
        (false, false) => "missed",
        (true, false) => "met in instructions",
        (false, true) => "met in time",
    });
    println!("| {} | {} | {ours} | {theirs} | {ratio:.2} | {time:.2} | {goal} |", case.call, case.input);
}
