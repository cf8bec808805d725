//! 02's CONVERT by hand, on the plain machine.
mod machine;

use machine::*;
use tables::Session;

const BIT: u64 = 0;
const INTEGER: u64 = 1;
const OCTET: u64 = 2;
const REAL: u64 = 3;

const TO_REAL: [u64; 9] = [16, 0, R, 1, 0, 0, 2, N, 2];
const TO_INTEGER: [u64; 9] = [16, 0, N, 2, 0, 0, 2, R, 1];

/// The cells n[2] and r[1].
const N_2: usize = N_WORD + 4;
const R_1: usize = R_WORD + 2;

const ABSENT_EXTERN: [u64; 9] = [9, 0, 99, 0, 0, 0, 3, 0, 0];
const LARGEST_BELOW_2_63: u64 = 0x43DF_FFFF_FFFF_FFFF;
const INFINITE: u64 = 0x7FF0_0000_0000_0000;
const SIGN: u64 = 1 << 63;

fn opens(rows: &[[u64; 9]]) -> u64 {
    machine(rows, 64).open()
}

/// The row, which open may turn down, in place of a NOP that was opened, with n[2] and r[1] holding these.
fn taken(row: [u64; 9], n: [u64; 2], r: [u64; 2]) -> (u64, Machine) {
    let mut machine = opened(&[NOP]);
    machine.tables.instructions = row.to_vec();
    machine.memory[N_2..][..2].copy_from_slice(&n);
    machine.memory[R_1..][..2].copy_from_slice(&r);
    let answer = machine.forward();
    (answer, machine)
}

/// The word that an INTEGER becomes.
fn real(value: i64) -> u64 {
    let (answer, machine) = taken(TO_REAL, [INTEGER, value as u64], [REAL, 9]);
    let [kind, word] = machine.cell(R_1);
    assert_eq!((answer, kind, machine.cell(N_2)), (0, REAL, [INTEGER, value as u64]));
    word
}

/// The INTEGER that a REAL becomes, or the refusal.
fn integer(bits: u64) -> Result<i64, u64> {
    let (answer, machine) = taken(TO_INTEGER, [INTEGER, 9], [REAL, bits]);
    let [kind, word] = machine.cell(N_2);
    assert_eq!((kind, machine.cell(R_1)), (INTEGER, [REAL, bits]));
    match answer {
        0 => Ok(word as i64),
        number => {
            assert_eq!((word, machine.position), (9, [0; 3]));
            Err(number)
        }
    }
}

fn whole(value: f64) -> Result<i64, u64> {
    integer(value.to_bits())
}

/// Words written out: 0 is +0.0, and no cast of ours stands beside the machine's.
#[test]
fn integers_that_have_a_real() {
    let words = [
        (0, 0),
        (1, 0x3FF0_0000_0000_0000),
        (-1, 0xBFF0_0000_0000_0000),
        (2, 0x4000_0000_0000_0000),
        (3, 0x4008_0000_0000_0000),
        (-7, 0xC01C_0000_0000_0000),
        (1000, 0x408F_4000_0000_0000),
        ((1 << 53) - 1, 0x433F_FFFF_FFFF_FFFF),
        (1 << 53, 0x4340_0000_0000_0000),
        (1 << 62, 0x43D0_0000_0000_0000),
        (i64::MIN, 0xC3E0_0000_0000_0000),
    ];
    words.iter().for_each(|&(value, word)| assert_eq!(real(value), word, "{value}"));
}

/// "The nearest binary64, ties to even."
#[test]
fn integers_between_two_reals() {
    let words = [
        // 2^53 + 1 lies halfway to 2^53 + 2, whose last digit is odd; 2^53 + 3 halfway to 2^53 + 4.
        ((1 << 53) + 1, 0x4340_0000_0000_0000),
        ((1 << 53) + 2, 0x4340_0000_0000_0001),
        ((1 << 53) + 3, 0x4340_0000_0000_0002),
        // Past 2^54 every fourth has a real.
        ((1 << 54) + 1, 0x4350_0000_0000_0000),
        ((1 << 54) + 2, 0x4350_0000_0000_0000),
        ((1 << 54) + 3, 0x4350_0000_0000_0001),
        ((1 << 54) + 6, 0x4350_0000_0000_0002),
        ((1 << 54) - 1, 0x4350_0000_0000_0000),
        // Below 2^63 they lie 1024 apart.
        (i64::MAX, 0x43E0_0000_0000_0000),
        (i64::MAX - 511, 0x43E0_0000_0000_0000),
        (i64::MAX - 512, LARGEST_BELOW_2_63),
        (i64::MAX - 1535, LARGEST_BELOW_2_63 - 1),
        (i64::MAX - 1534, LARGEST_BELOW_2_63),
    ];
    for (value, word) in words {
        assert_eq!(real(value), word, "{value}");
        assert_eq!(real(-value), SIGN | word, "-{value}");
    }
}

#[test]
fn reals_without_their_fraction() {
    let values =
        [(0.5, 0), (0.9, 0), (1.0, 1), (1.5, 1), (1.999, 1), (2.5, 2), (3.5, 3), (7.0, 7), (1e15, 10i64.pow(15))];
    for (value, whole_value) in values {
        assert_eq!((whole(value), whole(-value)), (Ok(whole_value), Ok(-whole_value)), "{value}");
    }
    assert_eq!((integer(0), integer(SIGN)), (Ok(0), Ok(0)));
    // 1 - 2^-53; 2^52 - 1/2, the last with a fraction; 2^52.
    assert_eq!(integer(0x3FEF_FFFF_FFFF_FFFF), Ok(0));
    assert_eq!((integer(0x432F_FFFF_FFFF_FFFF), integer(0x4330_0000_0000_0000)), (Ok((1 << 52) - 1), Ok(1 << 52)));
    // The smallest, the largest subnormal, the smallest normal.
    for bits in [1, 0xF_FFFF_FFFF_FFFF, 0x10_0000_0000_0000] {
        assert_eq!((integer(bits), integer(SIGN | bits)), (Ok(0), Ok(0)));
    }
}

/// 23: "a NaN, an infinity or a value outside -2^63 to 2^63-1 after the fraction is dropped".
#[test]
fn both_ends_of_the_range() {
    assert_eq!(integer(LARGEST_BELOW_2_63), Ok(i64::MAX - 1023));
    assert_eq!(integer(LARGEST_BELOW_2_63 + 1), Err(23));
    assert_eq!(integer(SIGN | LARGEST_BELOW_2_63), Ok(1023 - i64::MAX));
    assert_eq!(integer(SIGN | (LARGEST_BELOW_2_63 + 1)), Ok(i64::MIN));
    assert_eq!(integer(SIGN | (LARGEST_BELOW_2_63 + 2)), Err(23));
    for value in [1.8446744073709552e19, 1e19, 1e300, f64::MAX, f64::INFINITY] {
        assert_eq!((whole(value), whole(-value)), (Err(23), Err(23)), "{value}");
    }
    let nans = [INFINITE + 1, 0x7FF8_0000_0000_0000, 0x7FFF_FFFF_FFFF_FFFF, INFINITE | 1 << 50];
    nans.iter().for_each(|&nan| assert_eq!((integer(nan), integer(SIGN | nan)), (Err(23), Err(23))));
}

/// 2^63 - 1 becomes 2^63, which has no way back; -2^63 has.
#[test]
fn there_and_back() {
    assert_eq!((integer(real(i64::MAX)), integer(real(i64::MIN))), (Err(23), Ok(i64::MIN)));
    for value in [0, 1, -1, 255, 1 << 52, -(1 << 53), (1 << 60) + 512] {
        assert_eq!(integer(real(value)), Ok(value));
    }
}

/// The cell's kind picks the direction, whatever is declared; the destination's is only overwritten.
#[test]
fn the_cells_kind_picks_the_direction() {
    let half = 2.5f64.to_bits();
    let (answer, machine) = taken(TO_REAL, [REAL, half], [REAL, 9]);
    assert_eq!((answer, machine.cell(R_1)), (0, [INTEGER, 2]));
    let (answer, machine) = taken(TO_INTEGER, [INTEGER, 9], [INTEGER, 2]);
    assert_eq!((answer, machine.cell(N_2)), (0, [REAL, 2f64.to_bits()]));
    for held in [[BIT, 1], [BIT, 2], [INTEGER, 5], [OCTET, 256], [REAL, INFINITE], [4, 0], [u64::MAX, 3]] {
        let (answer, machine) = taken(TO_REAL, [INTEGER, 2], held);
        assert_eq!((answer, machine.cell(R_1)), (0, [REAL, 2f64.to_bits()]));
        let (answer, machine) = taken(TO_INTEGER, held, [REAL, half]);
        assert_eq!((answer, machine.cell(N_2)), (0, [INTEGER, 2]));
    }
    // The source's own cell.
    let (answer, machine) = taken(convert([N, 2], [N, 2]), [INTEGER, 2], [REAL, 9]);
    assert_eq!((answer, machine.cell(N_2)), (0, [REAL, 2f64.to_bits()]));
}

/// "BIT or OCTET there has no rule", nor has a foreign kind.
#[test]
fn sources_without_a_rule() {
    for source in [[BIT, 0], [BIT, 1], [BIT, 2], [OCTET, 0], [OCTET, 255], [OCTET, 256], [4, 0], [u64::MAX, 0]] {
        assert_eq!(taken(TO_REAL, source, [REAL, 0]).0, 18);
        assert_eq!(taken(TO_INTEGER, [INTEGER, 0], source).0, 18);
    }
}

/// "Each is one change": two entries, and back restores what the destination held.
#[test]
fn one_change() {
    for (row, to, n, r) in
        [(TO_REAL, R_1, [INTEGER, 5], [OCTET, 700]), (TO_INTEGER, N_2, [6, 7], [REAL, 5.5f64.to_bits()])]
    {
        let (answer, mut machine) = taken(row, n, r);
        let held = if to == N_2 { n } else { r };
        assert_eq!((answer, machine.position), (0, [1, 1, 2]));
        assert_eq!(machine.journal[..6], [to as u64 / 2, held[0], held[1], 1, 0, 0]);
        assert_eq!((machine.back(), machine.position, machine.cell(to)), (0, [0; 3], held));
        assert_eq!((machine.cell(N_2), machine.cell(R_1)), (n, r));
    }
    // A write that changes nothing counts too.
    let mut machine = opened(&[convert([R, 0], [N, 0])]);
    let before = machine.memory.clone();
    assert_eq!((machine.forward(), machine.position, machine.memory), (0, [1, 1, 2], before));
}

/// Every pair of declared kinds and undeclared names; the indices are not looked at.
#[test]
fn pairs() {
    let fits = [(R, N), (N, R)];
    for to in [A, N, O, R, UNDECLARED] {
        for from in [A, N, O, R, UNDECLARED] {
            let number = if fits.contains(&(to, from)) { 0 } else { 22 };
            assert_eq!(opens(&[convert([to, 0], [from, 0])]), number, "{to} {from}");
            assert_eq!(opens(&[NOP, convert([to, 7], [from, u64::MAX]), NOP]), number);
            // Forward does not look for it.
            let ruled = to != UNDECLARED && [N, R].contains(&from);
            let (answer, _) = taken(convert([to, 0], [from, 0]), [INTEGER, 0], [REAL, 0]);
            assert_eq!(answer, if ruled { 0 } else { 18 }, "{to} {from}");
        }
    }
}

/// 22 after 21 and before 6, in open and in journal_length.
#[test]
fn twenty_two_in_its_place() {
    let (unfit, mistyped) = (convert([N, 0], [N, 0]), [0, 0, A, 0, 0, 0, 0, 1, 0]);
    let condition = [label(5), jump_when(5, N, 0)];
    assert_eq!(opens(&[unfit, mistyped]), 5);
    assert_eq!(opens(&[unfit, OTHER]), 9);
    assert_eq!(opens(&[unfit, jump(5)]), 20);
    assert_eq!(opens(&[[unfit].as_slice(), &condition].concat()), 21);
    assert_eq!(opens(&[ABSENT_EXTERN, convert([R, 0], [N, 0]), unfit]), 22);
    assert_eq!(opens(&[convert([R, 0], [N, 0]), ABSENT_EXTERN]), 6);
    let length = |rows: &[[u64; 9]]| {
        let (mut entries, mut error) = ([BLANK], [BLANK; 6]);
        (plain::Plain.journal_length(&machine(rows, 0).tables, &mut entries, &mut error), entries[0], error)
    };
    assert_eq!(length(&[ABSENT_EXTERN, unfit]), (22, BLANK, [BLANK; 6]));
    assert_eq!(length(&[[unfit].as_slice(), &condition].concat()), (21, BLANK, [BLANK; 6]));
    assert_eq!(length(&[TO_REAL, TO_INTEGER, TO_REAL]), (0, 6, [BLANK; 6]));
}

/// 17, 18 names, 14, 18 the source's cell, 23, 13.
#[test]
fn twenty_three_in_its_place() {
    let infinite = |row: [u64; 9], entries: usize, reply: &[u64]| {
        let mut machine = machine(&[row], entries);
        machine.memory[R_1..][..2].copy_from_slice(&[REAL, INFINITE]);
        (machine.reply(reply), machine.position)
    };
    assert_eq!(infinite(TO_INTEGER, 64, &[1]), (17, [0; 3]));
    assert_eq!(infinite(convert([UNDECLARED, 9], [R, 1]), 64, &[]), (18, [0; 3]));
    assert_eq!(infinite(convert([N, 9], [UNDECLARED, 0]), 64, &[]), (18, [0; 3]));
    assert_eq!(infinite(convert([N, 3], [R, 1]), 64, &[]), (14, [0; 3]));
    assert_eq!(infinite(convert([N, 0], [R, 2]), 64, &[]), (14, [0; 3]));
    assert_eq!(infinite(convert([N, 0], [R, u64::MAX]), 64, &[]), (14, [0; 3]));
    assert_eq!(infinite(TO_INTEGER, 64, &[]), (23, [0; 3]));
    assert_eq!(infinite(TO_INTEGER, 0, &[]), (23, [0; 3]));
    let full = |entries, kind| {
        let mut machine = machine(&[TO_INTEGER], entries);
        machine.memory[R_1] = kind;
        machine.forward()
    };
    assert_eq!((full(1, OCTET), full(1, REAL), full(2, REAL)), (18, 13, 0));
}

/// A run stops at 23 and keeps the steps before it.
#[test]
fn a_run_stops_at_23() {
    let rows = [TO_REAL, [4, 0, R, 1, 0, 0, 1, INFINITE, 0], TO_INTEGER, NOP];
    let mut machine = opened(&rows);
    assert_eq!((machine.run(9), machine.position), ((0, [2, 3, 23]), [2, 2, 4]));
}

/// Every word of the row but the family, made another; the source's words are those of a literal, or of no source.
#[test]
fn words() {
    let free = [2, 3, 7, 8];
    for row in [convert([R, 1], [N, 0]), convert([R, 1], [A, 0])] {
        for (at, word) in (1..9).flat_map(|at| [0, 1, 2, 3, 5, u64::MAX].map(|word| (at, word))) {
            let mut other = row;
            other[at] = word;
            let allowed = free.contains(&at) || other == row;
            assert_eq!(machine(&[other], 4).forward() == 2, !allowed, "{other:?}");
            assert_eq!(opens(&[other]) == 2, !allowed, "{other:?}");
        }
    }
    for family in [17, 18, 1 << 63, u64::MAX] {
        let mut other = TO_REAL;
        other[0] = family;
        assert_eq!(opens(&[other]), 2);
    }
}
