//! The library's calls measured beside quil-rs's, key presses beside one read of the tables, jumps, labels and runs
//! beside one forward: docs/PERFORMANCE.md.
//! Each input is counted in instructions by callgrind, in a second run of this program, and timed here.
mod call_cases;
mod case;
mod check_cases;
mod count;
mod inputs;
mod key_cases;
mod report;
mod run_cases;
mod time;

use case::Case;

/// quil-rs goes down a tree by calling itself.
const STACK: usize = 1 << 28;

/// Each call once, for callgrind; with a text after it, those alone whose call and input have the text.
const ONCE: &str = "--once";

fn cases() -> Vec<Case> {
    [check_cases::all(), call_cases::all(), key_cases::all(), run_cases::all()].into_iter().flatten().collect()
}

fn main() {
    let once = std::env::args().nth(1).as_deref() == Some(ONCE);
    let run = move || {
        if once {
            let text = std::env::args().nth(2).unwrap_or_default();
            cases().iter_mut().filter(|case| case.label().contains(&text)).for_each(count::once);
        } else {
            let mut cases = cases();
            let counts = count::all(&cases, ONCE);
            let times = cases.iter_mut().map(time::least).collect::<Vec<_>>();
            report::print(&cases, &counts, &times);
        }
    };
    let thread = std::thread::Builder::new().stack_size(STACK).spawn(run);
    if thread.expect("a thread").join().is_err() {
        std::process::exit(2);
    }
}
