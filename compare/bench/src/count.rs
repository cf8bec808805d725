//! Instructions of one call each, by callgrind: it collects inside `measured_call` alone and dumps after it, so the
//! n-th dump is the n-th measured call. The count does not depend on what else the machine does.
use crate::case::{hidden, Case};
use std::{path::Path, process::Command};

#[no_mangle]
#[inline(never)]
pub fn measured_call(call: &mut dyn FnMut()) {
    hidden(call)();
}

/// Ours, then theirs, each after a call that is not measured.
pub fn once(case: &mut Case) {
    for call in [&mut case.ours, &mut case.theirs] {
        call();
        measured_call(call);
    }
}

/// Ours and theirs, for each case.
pub fn all(cases: &[Case], once: &str) -> Vec<[u64; 2]> {
    let folder = Path::new("target/bench");
    let _ = std::fs::remove_dir_all(folder);
    std::fs::create_dir_all(folder).expect("target/bench");
    let dumps = folder.join("calls");
    let run = Command::new("valgrind")
        .args(["--tool=callgrind", "--toggle-collect=measured_call", "--dump-after=measured_call"])
        .arg(format!("--callgrind-out-file={}", dumps.display()))
        .arg(std::env::current_exe().expect("this program"))
        .arg(once)
        .output()
        .expect("valgrind is needed: apt-get install valgrind");
    assert!(run.status.success(), "{}", String::from_utf8_lossy(&run.stderr));
    let count = |n: usize| total(&folder.join(format!("calls.{n}")));
    (0..cases.len()).map(|i| [count(2 * i + 1), count(2 * i + 2)]).collect()
}

fn total(dump: &Path) -> u64 {
    let text = std::fs::read_to_string(dump).expect("a dump for each call");
    text.lines()
        .find_map(|line| line.strip_prefix("totals: ").or_else(|| line.strip_prefix("summary: ")))
        .and_then(|count| count.trim().parse().ok())
        .expect("a dump has a total")
}
