//! The proved library, by the raw calls of `bindings/` (`mugwortlatch::raw`). Its safe calls are left out: the
//! comparison holds every lent word against another machine's, also those that a refusal must not touch, and the
//! enums show only some of them. A slip in their decoding must not hide a wrong word, nor make one.
use mugwortlatch::raw;
use tables::{Console, FrameCheck, Session, Tables};

pub struct Proved;

/// The tables as the bindings take them.
pub fn lent(tables: &Tables) -> mugwortlatch::Tables<'_> {
    mugwortlatch::Tables {
        regions: &tables.regions,
        externs: &tables.externs,
        parameters: &tables.parameters,
        nodes: &tables.nodes,
        arguments: &tables.arguments,
        instructions: &tables.instructions,
    }
}

impl FrameCheck for Proved {
    fn frame(&self, tables: &Tables, row: u64, looked: &mut [u64; 1], error: &mut [u64; 6]) -> u64 {
        raw::frame(&lent(tables), row, looked, error)
    }
}

impl Console for Proved {
    fn check(&self, tables: &Tables, error: &mut [u64; 6]) -> u64 {
        raw::check(&lent(tables), error)
    }

    fn resolve(&self, tables: &Tables, row: u64, rows: &mut [u64], count: &mut [u64; 1]) -> u64 {
        raw::resolve(&lent(tables), row, rows, count)
    }

    fn access(&self, tables: &Tables, row: u64, reads: &mut [u64], writes: &mut [u64], counts: &mut [u64; 2]) -> u64 {
        raw::access(&lent(tables), row, reads, writes, counts)
    }

    fn reference(&self, nodes: &[u64], first: u64, count: u64, place: &mut [u64; 1], found: &mut [u64; 3]) -> u64 {
        raw::reference(nodes, first, count, place, found)
    }

    fn references(
        &self,
        nodes: &[u64],
        first: u64,
        count: u64,
        place: &mut [u64; 1],
        rows: &mut [u64],
        handed: &mut [u64; 1],
    ) -> u64 {
        raw::references(nodes, first, count, place, rows, handed)
    }
}

impl Session for Proved {
    fn journal_length(&self, tables: &Tables, entries: &mut [u64; 1], error: &mut [u64; 6]) -> u64 {
        raw::journal_length(&lent(tables), entries, error)
    }

    fn open(
        &self,
        tables: &Tables,
        memory: &mut [u64],
        journal: &[u64],
        position: &mut [u64; 3],
        error: &mut [u64; 6],
    ) -> u64 {
        raw::open(&lent(tables), memory, journal, position, error)
    }

    fn forward(
        &self,
        tables: &Tables,
        memory: &mut [u64],
        journal: &mut [u64],
        position: &mut [u64; 3],
        reply: &[u64],
    ) -> u64 {
        raw::forward(&lent(tables), memory, journal, position, reply)
    }

    fn back(&self, tables: &Tables, memory: &mut [u64], journal: &[u64], position: &mut [u64; 3]) -> u64 {
        raw::back(&lent(tables), memory, journal, position)
    }

    fn run(
        &self,
        tables: &Tables,
        memory: &mut [u64],
        journal: &mut [u64],
        position: &mut [u64; 3],
        allowance: u64,
        ran: &mut [u64; 3],
    ) -> u64 {
        raw::run(&lent(tables), memory, journal, position, allowance, ran)
    }
}
