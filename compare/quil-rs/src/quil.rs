//! Stand-in for the writing of Quil text. Only error texts depend on it.
use std::fmt::{Debug, Write};

pub const INDENT: &str = "    ";

#[derive(Clone, Debug, PartialEq, thiserror::Error)]
pub enum ToQuilError {
    #[error("not written: {0}")]
    Format(#[from] std::fmt::Error),
}

pub type ToQuilResult<T> = Result<T, ToQuilError>;

pub trait Quil: Debug {
    fn write(&self, writer: &mut impl Write, fall_back_to_debug: bool) -> ToQuilResult<()>;

    fn to_quil_or_debug(&self) -> String {
        let mut text = String::new();
        let _ = self.write(&mut text, true);
        text
    }
}

pub fn write_join_quil<'i, I, Q>(
    writer: &mut impl Write,
    fall_back_to_debug: bool,
    values: I,
    separator: &str,
    prefix: &str,
) -> ToQuilResult<()>
where
    I: IntoIterator<Item = &'i Q>,
    Q: Quil + 'i,
{
    for (i, value) in values.into_iter().enumerate() {
        write!(writer, "{}{prefix}", if i == 0 { "" } else { separator })?;
        value.write(writer, fall_back_to_debug)?;
    }
    Ok(())
}
