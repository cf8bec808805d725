//! 02's wall chart of verdicts: its forms, in its order, and what each side says of the rows that share one.
use crate::{
    ask::ask,
    carried::Entry,
    exhaustive::{
        rows::{self, Shape, Source},
        UNDECLARED,
    },
};
use std::{collections::BTreeMap, fmt};
use tables::{quil_text, Answer, Console, Query};

/// "Each as undeclared, BIT, INTEGER, OCTET, REAL, integer literal, real literal".
const OPERANDS: [&str; 7] = ["undeclared", "BIT", "INTEGER", "OCTET", "REAL", "integer literal", "real literal"];
const INTEGER_LITERAL: usize = 5;
const UNARY: u64 = 3;

/// An entry, operands by their place in OPERANDS. Entries are ordered by the fields: "by family, then by first, second
/// and source operand, the last fastest", and "in unary the operand goes before NEG, NOT".
#[derive(PartialEq, Eq, PartialOrd, Ord)]
pub struct Form {
    family: u64,
    first: usize,
    second: Option<usize>,
    source: Option<usize>,
    /// NEG or NOT; all other operators share a form.
    operator: Option<u64>,
}

/// The chart's entries, each with the rows that share it: of every operator, of every literal.
pub fn forms() -> BTreeMap<Form, Vec<Shape>> {
    let mut forms: BTreeMap<Form, Vec<Shape>> = BTreeMap::new();
    for shape in rows::shapes() {
        forms.entry(Form::of(&shape)).or_default().push(shape);
    }
    forms
}

impl Form {
    fn of(shape: &Shape) -> Form {
        Form {
            family: shape.family,
            first: named(shape.first),
            second: shape.second.map(named),
            source: match shape.source {
                Source::Reference(choice) => Some(named(choice)),
                Source::Literal(form, _) => Some(INTEGER_LITERAL + form as usize),
                Source::None => None,
            },
            operator: (shape.family == UNARY).then_some(shape.operator),
        }
    }
}

/// The place of a name that is undeclared or of a kind.
fn named(choice: u64) -> usize {
    match choice {
        UNDECLARED => 0,
        kind => 1 + kind as usize,
    }
}

impl fmt::Display for Form {
    fn fmt(&self, f: &mut fmt::Formatter) -> fmt::Result {
        write!(f, "family {}, first {}", self.family, OPERANDS[self.first])?;
        self.second.map_or(Ok(()), |second| write!(f, ", second {}", OPERANDS[second]))?;
        self.source.map_or(Ok(()), |source| write!(f, ", source {}", OPERANDS[source]))
    }
}

/// What is said of one row.
pub struct Said {
    row: String,
    quil_rs: Result<Answer, String>,
    /// The library's own.
    check: Result<Answer, String>,
    carried: Entry,
}

impl Said {
    /// `carried` is the entry of the row's form.
    pub fn of(console: &dyn Console, shape: &Shape, carried: Entry) -> Said {
        let tables = shape.separate().tables();
        let row = quil_text(&tables).lines().last().unwrap_or_default().to_string();
        let (quil_rs, check) = (oracle::answer(&tables, Query::Check), ask(console, &tables, Query::Check));
        Said { row, quil_rs, check, carried }
    }

    fn verdicts(&self) -> [(&str, Option<u64>); 4] {
        [
            ("quil-rs", verdict(&self.quil_rs)),
            ("check", verdict(&self.check)),
            ("VERDICTS", Some(self.carried.table)),
            ("verdict_digits", Some(self.carried.written)),
        ]
    }

    /// The answer, if all have its verdict.
    pub fn agreed(&self) -> Option<&Answer> {
        let one = verdict(&self.quil_rs);
        let same = self.verdicts().iter().all(|(_, verdict)| *verdict == one);
        self.quil_rs.as_ref().ok().filter(|_| same)
    }

    /// quil-rs's verdict.
    pub fn digit(&self) -> char {
        verdict(&self.quil_rs).and_then(|verdict| char::from_digit(verdict as u32, 10)).unwrap_or('?')
    }
}

impl fmt::Display for Said {
    fn fmt(&self, f: &mut fmt::Formatter) -> fmt::Result {
        let text = |(side, verdict): (&str, Option<u64>)| match verdict {
            Some(verdict) => format!("{side} {verdict}"),
            None => format!("{side} none"),
        };
        write!(f, "{}: {}", self.row, self.verdicts().map(text).join(", "))
    }
}

/// 0 for accepted, or the type error's kind.
fn verdict(answer: &Result<Answer, String>) -> Option<u64> {
    match answer {
        Ok(Answer { number: 0, .. }) => Some(0),
        Ok(Answer { number: 5, out, .. }) => Some(out[0]),
        _ => None,
    }
}
