//! A student's session: MOVE n[0] 7, then CALL f n[0] n[1], forward twice and back once.
//! Run from this folder: cargo run --offline --example step
use mugwortlatch::{
    check, journal_length, resolve, sizes, Instruction, Kind, MemoryReference, Parameter, Program, Refusal, Region,
    Reply, Session, Shape,
};

/// Names are numbers that you choose.
const N: u64 = 1;
const F: u64 = 7;
const X: u64 = 5;

fn main() -> Result<(), Refusal> {
    // DECLARE n INTEGER[3]
    // EXTERN f : INTEGER (x : mut INTEGER)
    let n = |index| MemoryReference { name: N, index };
    let mut program = Program::new();
    program.region(Region { name: N, kind: Kind::Integer, length: 3 });
    let x = Parameter { name: X, mutable: true, shape: Shape::Scalar, kind: Kind::Integer };
    program.extern_routine(F, Some(Kind::Integer), &[x]);

    // MOVE n[0] 7
    // CALL f n[0] n[1]: the return goes to n[0], and n[1] is x
    program.instruction(Instruction::Move { destination: n(0), source: 7.into() });
    let call = program.call(F, &[n(0).into(), n(1).into()]);
    check(&program.tables())?;

    // A memory for every program; a journal for every order of keys, as far as there is one.
    let entries = journal_length(&program.tables())?.min(sizes::ENTRY_LIMIT);
    let (mut memory, mut journal) = ([0; sizes::MEMORY_WORDS], vec![0; entries * sizes::ENTRY_WIDTH]);
    let mut session = Session::open(program.tables(), &mut memory, &mut journal)?;
    session.forward(&[])?;
    show("moved", &session);

    // What the routine f would be handed.
    let mut rows = [0; sizes::RESOLVE_WORDS];
    for argument in resolve(session.tables(), call, &mut rows)? {
        println!("{argument:?}");
    }

    // f's reply puts 9 into its argument 1, x. As an OCTET it does not fit: refused, nothing changed.
    let unfit = Reply { argument: 1, offset: 0, kind: Kind::Octet, word: 9 };
    if let Err(refusal) = session.forward(&[unfit.row()]) {
        println!("{refusal} (for {} to mend)", refusal.mender());
    }
    let reply = Reply { kind: Kind::Integer, ..unfit };
    session.forward(&[reply.row()])?;
    show("called", &session);
    session.back()?;
    show("taken back", &session);
    Ok(())
}

fn show(what: &str, session: &Session) {
    let cells = [0, 1, 2].map(|index| session.cell(MemoryReference { name: N, index }).expect("declared"));
    println!("{what}: {} done; n: {}, {}, {}", session.position().done, cells[0], cells[1], cells[2]);
}
