//! console.h's declarations, for `raw` alone. TABLES is six slices: regions, externs, parameters, nodes, arguments,
//! instructions.

macro_rules! console_calls {
    ($(fn $name:ident($($argument:ident: $type:ty),*);)*) => {
        extern "C" {
            $(
                pub fn $name(
                    regions: *const u64, regions_length: usize,
                    externs: *const u64, externs_length: usize,
                    parameters: *const u64, parameters_length: usize,
                    nodes: *const u64, nodes_length: usize,
                    arguments: *const u64, arguments_length: usize,
                    instructions: *const u64, instructions_length: usize,
                    $($argument: $type),*
                ) -> u64;
            )*
        }
    };
}

console_calls! {
    fn console_check(error: *mut u64);

    fn console_frame(row: u64, looked: *mut u64, error: *mut u64);

    fn console_resolve(row: u64, rows: *mut u64, rows_length: usize, count: *mut u64);

    fn console_access(
        row: u64,
        reads: *mut u64,
        reads_length: usize,
        writes: *mut u64,
        writes_length: usize,
        counts: *mut u64
    );

    fn console_journal_length(entries: *mut u64, error: *mut u64);

    fn console_open(
        memory: *mut u64,
        memory_length: usize,
        journal: *const u64,
        journal_length: usize,
        position: *mut u64,
        error: *mut u64
    );

    fn console_forward(
        memory: *mut u64,
        memory_length: usize,
        journal: *mut u64,
        journal_length: usize,
        position: *mut u64,
        reply: *const u64,
        reply_length: usize
    );

    fn console_back(
        memory: *mut u64,
        memory_length: usize,
        journal: *const u64,
        journal_length: usize,
        position: *mut u64
    );

    fn console_run(
        memory: *mut u64,
        memory_length: usize,
        journal: *mut u64,
        journal_length: usize,
        position: *mut u64,
        allowance: u64,
        ran: *mut u64
    );
}

extern "C" {
    pub fn console_reference(
        nodes: *const u64,
        nodes_length: usize,
        first: u64,
        node_count: u64,
        place: *mut u64,
        found: *mut u64,
    ) -> u64;

    pub fn console_references(
        nodes: *const u64,
        nodes_length: usize,
        first: u64,
        node_count: u64,
        place: *mut u64,
        rows: *mut u64,
        rows_length: usize,
        count: *mut u64,
    ) -> u64;
}
