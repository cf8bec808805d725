//! A session as a whole: cells by reference, steps, back, reset.
mod bench;

use bench::*;
use mugwortlatch::{Kind, Refusal};

#[test]
fn cells_by_reference() {
    let kinds = [(A, 2, Kind::Bit), (N, 3, Kind::Integer), (O, 1, Kind::Octet), (R, 2, Kind::Real)];
    let seen = session(bench(&[]), 0, |session| {
        for (name, length, kind) in kinds {
            (0..length).for_each(|index| assert_eq!(session.cell(at(name, index)).unwrap().kind, kind));
            assert_eq!(session.cell(at(name, length)), None);
            assert_eq!(session.cell(at(name, u64::MAX)), None);
        }
        session.cell(at(Q, 0))
    });
    assert_eq!(seen, Ok(None));
}

#[test]
fn each_cell_is_its_own() {
    let rows = [mov(at(A, 1), 1), mov(at(N, 0), 10), mov(at(N, 2), 12), mov(at(O, 0), 20), mov(at(R, 1), 1.5)];
    let shown = session(bench(&rows), 16, |session| {
        steps(session, rows.len());
        [at(A, 0), at(A, 1), at(N, 0), at(N, 1), at(N, 2), at(O, 0), at(R, 0), at(R, 1)]
            .map(|reference| session.cell(reference).unwrap().to_string())
    });
    let expected = ["BIT 0", "BIT 1", "INTEGER 10", "INTEGER 0", "INTEGER 12", "OCTET 20", "REAL 0.0", "REAL 1.5"];
    assert_eq!(shown.unwrap(), expected);
}

#[test]
fn back_and_reset() {
    let rows = [mov(at(N, 0), 5), add(at(N, 0), at(N, 0)), add(at(N, 0), 1)];
    let last = session(bench(&rows), 8, |session| {
        let opened = session.memory().to_vec();
        steps(session, 3);
        assert_eq!((position(session), word(session, at(N, 0))), ((3, 3, 6), 11));
        assert!(session.back().is_ok());
        assert_eq!((position(session), word(session, at(N, 0))), ((2, 2, 4), 10));
        assert!(session.reset().is_ok());
        assert_eq!((position(session), session.memory()), ((0, 0, 0), &opened[..]));
        assert_eq!(session.back(), Err(Refusal::NothingToTakeBack));
        steps(session, 3);
        word(session, at(N, 0))
    });
    assert_eq!(last, Ok(11));
}
