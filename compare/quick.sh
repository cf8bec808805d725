# All that the gate does not run, in some minutes; sourced by run, in its folder, after build.sh. Each step says what it shows.

c=../crates/console_c
warnings="-Wall -Wextra -Wpedantic -Wconversion -Wsign-conversion -Wshadow -Wundef -Werror"
as_c="-std=c11 $warnings -Wstrict-prototypes -Wmissing-prototypes"
as_cpp="-std=c++17 $warnings -Wold-style-cast -Wzero-as-null-pointer-constant"

header() {
    cc $as_c -fsyntax-only -x c "$c/console.h" && c++ $as_cpp -fsyntax-only -x c++ "$c/console.h"
}

# c_program NAME: without a warning as C11 and as C++17; built by the line at its head, it writes NAME.expected.
c_program() {
    line=$(sed -n 's|^ \*   \(cc .*\) \*/$|\1|p' "$c/$1.c")
    cc $as_c -fsyntax-only "$c/$1.c" && c++ -std=c++17 $warnings -fsyntax-only -x c++ "$c/$1.c" &&
        [ -n "$line" ] && (cd .. && eval "$line") | cmp - "$c/$1.expected"
}

c_example() { [ "$(wc -l <"$c/example.c")" -le 60 ] && c_program example; }

c_calls() { c_program calls; }

rust_tests() { (cd ../bindings && cargo test -q --offline && cargo test -q --offline --no-default-features); }

rust_example() {
    (cd ../bindings && [ "$(wc -l <examples/step.rs)" -le 60 ] &&
        cargo run -q --offline --example step | cmp - examples/step.expected)
}

comparison() { build -p compare && target/release/compare --random 20000 --limits 50; }

call_lists() { build -p sessions && target/release/sessions --lists 20000; }

conversions() { build -p conversions && target/release/conversions --words 100000; }

wrong_copies() (
    . ./sensitivity.sh
    lines_found
)

damaged_files() {
    (cd ../crates/stepper && rt run -- refusals) && damage/damage.py --runs 50 && damage/where.py
}

chart_files() { python3 ../crates/verdict_digits/model.py --check; }

# step WHAT FUNCTION
step() {
    if $2 >"target/$2.log" 2>&1; then
        say "held: $1"
    else
        say "NOT HELD: $1 (compare/target/$2.log)"
        missed=1
    fi
}

quick() {
    missed=0
    step "console.h as C11 and as C++17, all warnings on" header
    step "the C session of at most 60 lines, built as its page says, writes its example.expected" c_example
    step "the C program of the other calls writes its calls.expected" c_calls
    step "the tests of bindings/, with std and without" rust_tests
    step "the Rust session of at most 60 lines, built as its page says, writes its step.expected" rust_example
    step "a short comparison with quil-rs, and that of all 610 verdicts of the chart, differs nowhere" comparison
    step "20,000 call lists differ nowhere and reach all that they must" call_lists
    step "CONVERT of 100,000 words each way and of the edges is as 02 says, by whole numbers and by decimals" conversions
    step "docs/chart.html, and what the gate holds the chart's programs to, is what the model makes" chart_files
    step "each wrong copy's line is in its file" wrong_copies
    step "damaged example files are read as docs/FORMAT.md says, and a refusal 1, 2, 3, 20, 21 or 22 lies where it is told" damaged_files
    exit $missed
}
