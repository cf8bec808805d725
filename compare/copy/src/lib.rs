//! An unproved copy of the library: crates/*/src without the contracts, compiled as Rust. Sensitivity runs edit such a
//! copy; the proved library itself cannot be had with the edit in it.
use console_c::{access, back, check, forward, frame, journal_length, open, reference, references, resolve, run};
use tables::{Console, FrameCheck, Session, Tables};

pub struct Unproved;

/// Calls a function of the copy with the six tables before its other arguments.
macro_rules! with_tables {
    ($function:path, $tables:expr $(, $more:expr)*) => {
        $function(
            &$tables.regions,
            &$tables.externs,
            &$tables.parameters,
            &$tables.nodes,
            &$tables.arguments,
            &$tables.instructions
            $(, $more)*
        )
    };
}

impl FrameCheck for Unproved {
    fn frame(&self, tables: &Tables, row: u64, looked: &mut [u64; 1], error: &mut [u64; 6]) -> u64 {
        with_tables!(frame::console_frame, tables, row, looked, error)
    }
}

impl Console for Unproved {
    fn check(&self, tables: &Tables, error: &mut [u64; 6]) -> u64 {
        with_tables!(check::console_check, tables, error)
    }

    fn resolve(&self, tables: &Tables, row: u64, rows: &mut [u64], count: &mut [u64; 1]) -> u64 {
        with_tables!(resolve::console_resolve, tables, row, rows, count)
    }

    fn access(&self, tables: &Tables, row: u64, reads: &mut [u64], writes: &mut [u64], counts: &mut [u64; 2]) -> u64 {
        with_tables!(access::console_access, tables, row, reads, writes, counts)
    }

    fn reference(&self, nodes: &[u64], first: u64, count: u64, place: &mut [u64; 1], found: &mut [u64; 3]) -> u64 {
        reference::console_reference(nodes, first, count, place, found)
    }

    fn references(
        &self,
        nodes: &[u64],
        first: u64,
        count: u64,
        place: &mut [u64; 1],
        rows: &mut [u64],
        handed: &mut [u64; 1],
    ) -> u64 {
        references::console_references(nodes, first, count, place, rows, handed)
    }
}

impl Session for Unproved {
    fn journal_length(&self, tables: &Tables, entries: &mut [u64; 1], error: &mut [u64; 6]) -> u64 {
        with_tables!(journal_length::console_journal_length, tables, entries, error)
    }

    fn open(
        &self,
        tables: &Tables,
        memory: &mut [u64],
        journal: &[u64],
        position: &mut [u64; 3],
        error: &mut [u64; 6],
    ) -> u64 {
        with_tables!(open::console_open, tables, memory, journal, position, error)
    }

    fn forward(
        &self,
        tables: &Tables,
        memory: &mut [u64],
        journal: &mut [u64],
        position: &mut [u64; 3],
        reply: &[u64],
    ) -> u64 {
        with_tables!(forward::console_forward, tables, memory, journal, position, reply)
    }

    fn back(&self, tables: &Tables, memory: &mut [u64], journal: &[u64], position: &mut [u64; 3]) -> u64 {
        with_tables!(back::console_back, tables, memory, journal, position)
    }

    fn run(
        &self,
        tables: &Tables,
        memory: &mut [u64],
        journal: &mut [u64],
        position: &mut [u64; 3],
        allowance: u64,
        ran: &mut [u64; 3],
    ) -> u64 {
        with_tables!(run::console_run, tables, memory, journal, position, allowance, ran)
    }
}
