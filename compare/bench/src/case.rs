//! One input with the two calls that are compared on it.

pub type Call = Box<dyn FnMut()>;

/// What the second call is.
#[derive(Clone, Copy, PartialEq)]
pub enum Against {
    /// quil-rs's function on the same program.
    QuilRs,
    /// One read of every word of the tables.
    OneRead,
    /// One forward: on a classical row at the limits, or a run's first step.
    OneForward,
}

pub struct Case {
    pub call: &'static str,
    pub input: String,
    /// The most that ours may cost, theirs being 1; none where no goal is set.
    pub goal: Option<f64>,
    pub against: Against,
    pub ours: Call,
    pub theirs: Call,
}

impl Case {
    pub fn label(&self) -> String {
        format!("{}, {}", self.call, self.input)
    }
}

/// Hides a value from the compiler, as `std::hint::black_box` does, which Debian's compiler does not have yet.
pub fn hidden<T>(value: T) -> T {
    // Safety: the copy takes the value's place.
    unsafe {
        let copy = std::ptr::read_volatile(&value);
        std::mem::forget(value);
        copy
    }
}
