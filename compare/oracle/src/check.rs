//! The type check's verdict, on a program and on one frame, and its error as six words.
use crate::{
    names::{mark, marked, name},
    parting,
    program::{frame_row, program, Naming},
};
use quil_rs::{
    program::type_check::{type_check, TypeError},
    Program,
};
use tables::{Answer, Tables};

const ABSENT: u64 = 8;

/// The spot of a tree's first node.
const FIRST_NODE: u64 = 4;

pub fn answer(tables: &Tables) -> Result<Answer, String> {
    let plain = program(tables, Naming::Plain)?;
    let verdict = type_check(&plain);
    let error = type_check(&program(tables, Naming::Marked)?);
    match (verdict, error) {
        (Ok(()), Ok(())) => Ok(Answer::untouched(0, 6, &[])),
        (Err(shown), Err(marked)) => {
            let mut out = words(&marked)?;
            agree(tables, &plain, &shown, &marked, out[1] as usize)?;
            out[2] = parting::spot(&plain, &shown, out[2]);
            let mut answer = Answer::untouched(5, 6, &[]);
            answer.out = out;
            Ok(answer)
        }
        (shown, marked) => Err(format!("quil-rs's two runs disagree: {shown:?}, {marked:?}")),
    }
}

/// quil-rs's verdict on the same declarations and this row alone. It counts no nodes, so the count is 02's: "the
/// failing node's place in its tree plus 1, or the whole tree's where none fails".
pub fn frame(tables: &Tables, row: usize) -> Result<Answer, String> {
    let words = tables.instruction(row);
    let (regions, nodes) = (tables.regions.clone(), tables.nodes.clone());
    let alone = answer(&Tables { regions, nodes, instructions: words.to_vec(), ..Tables::default() })?;
    let mut expected = Answer::untouched(alone.number, 1, &[6]);
    expected.out[0] = words[3];
    if alone.number == 5 {
        let mut error = alone.out;
        let place = error[2].checked_sub(FIRST_NODE).ok_or_else(|| format!("no node's spot in {error:?}"))?;
        error[1] = row as u64;
        expected.out[0] = place + 1;
        expected.lent[0] = error;
    }
    Ok(expected)
}

/// Kind, row, spot, src spot and two codes, from the run with marked operands.
fn words(error: &TypeError) -> Result<Vec<u64>, String> {
    let place = |text: &String| place_of(error, text);
    let (row, words) = match error {
        TypeError::UndefinedMemoryReference { reference, .. } => {
            let (row, spot) = place(reference)?;
            (row, [1, spot, 0, ABSENT, ABSENT])
        }
        TypeError::DataTypeMismatch { dst, dst_type, src, src_type, .. } => {
            let (dst_row, dst_spot) = place(dst)?;
            let (src_row, src_spot) = place(src)?;
            let row = dst_row.or(src_row);
            (row, [2, dst_spot, src_spot, code(dst_type)?, code(src_type)?])
        }
        TypeError::RealValueRequired { value, data_type, .. } => {
            let (row, spot) = place(value)?;
            (row, [3, spot, 0, code(data_type)?, ABSENT])
        }
        TypeError::OperatorOperandMismatch { correct_type, operand, data_type, .. } => {
            let (row, spot) = place(operand)?;
            (row, [4, spot, 0, code(data_type)?, code(correct_type)?])
        }
    };
    let row = row.ok_or_else(|| format!("no row in {error:?}"))?;
    let [kind, spot, src_spot, first, second] = words;
    Ok(vec![kind, row as u64, spot, src_spot, first, second])
}

/// The row, where the text shows it, and the spot of the operand that a text shows.
fn place_of(error: &TypeError, text: &str) -> Result<(Option<usize>, u64), String> {
    if let Some((row, spot)) = marked(text) {
        return Ok((Some(row), spot));
    }
    // Only a source is a literal.
    if text.starts_with("LiteralInteger(") || text.starts_with("LiteralReal(") {
        return Ok((None, 3));
    }
    // A number's real part is its spot.
    let spot = text
        .lines()
        .find_map(|line| line.trim().strip_prefix("re: ")?.strip_suffix(','))
        .and_then(|re| re.parse::<f64>().ok())
        .ok_or_else(|| format!("no operand in {text}"))?;
    Ok((frame_row(instruction_of(error)), spot as u64))
}

fn code(text: &str) -> Result<u64, String> {
    match text.trim_start_matches('#').trim_matches('"') {
        "Bit" => Ok(0),
        "Integer" => Ok(1),
        "Octet" => Ok(2),
        "Real" => Ok(3),
        "`literal integer`" => Ok(4),
        "`literal real`" => Ok(5),
        "`imaginary`" => Ok(6),
        "`variable`" => Ok(7),
        "real or integral-valued" => Ok(9),
        "integral" => Ok(10),
        "bit" => Ok(11),
        other => Err(format!("no code for {other}")),
    }
}

fn instruction_of(error: &TypeError) -> &quil_rs::instruction::Instruction {
    match error {
        TypeError::UndefinedMemoryReference { instruction, .. }
        | TypeError::DataTypeMismatch { instruction, .. }
        | TypeError::RealValueRequired { instruction, .. }
        | TypeError::OperatorOperandMismatch { instruction, .. } => instruction,
    }
}

/// The run with the tables' own names must have failed in the same row, in the same words.
fn agree(tables: &Tables, plain: &Program, shown: &TypeError, marked: &TypeError, row: usize) -> Result<(), String> {
    let same_row = plain.get_instruction(row) == Some(instruction_of(shown));
    let same_words = texts(shown)
        .iter()
        .zip(texts(marked))
        .all(|(text, marked)| *text == unmarked(tables, row, marked) || numbers(text, marked));
    if same_row && same_words && texts(shown).len() == texts(marked).len() {
        return Ok(());
    }
    Err(format!("quil-rs's two runs disagree: {shown:?}, {marked:?}"))
}

/// An error's texts after its instruction.
fn texts(error: &TypeError) -> Vec<&str> {
    match error {
        TypeError::UndefinedMemoryReference { reference, .. } => vec![reference],
        TypeError::DataTypeMismatch { dst, dst_type, src, src_type, .. } => vec![dst, dst_type, src, src_type],
        TypeError::RealValueRequired { value, data_type, .. } => vec![value, data_type],
        TypeError::OperatorOperandMismatch { operator, correct_type, operand, data_type, .. } => {
            vec![operator, correct_type, operand, data_type]
        }
    }
}

/// The text with the table's name for the marked one.
fn unmarked(tables: &Tables, row: usize, text: &str) -> String {
    match marked(text) {
        Some((_, spot)) => {
            let w = tables.instruction(row);
            let number = match spot {
                1 => w[2],
                2 => w[4],
                3 => w[7],
                _ => tables.nodes_of(w[2], w[3])[(spot as usize - 4) * tables::NODE + 1],
            };
            text.replace(&mark(row, spot), &name(number))
        }
        None => text.to_string(),
    }
}

/// Two numbers, whose real parts may differ.
fn numbers(text: &str, marked: &str) -> bool {
    let rest = |text: &str| -> Vec<String> {
        text.lines().filter(|line| !line.trim().starts_with("re: ")).map(String::from).collect()
    };
    text.starts_with("Number(") && rest(text) == rest(marked)
}
