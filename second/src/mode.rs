//! "Zones wholly inside" (document 02, Req 01): "A search carries one of three modes".

use crate::geometry::Comparison;

/// "Planners closing a block want only records inside the window, or only those that enclose it."
#[derive(Clone, Copy, Debug, PartialEq, Eq)]
pub enum Mode {
    Meeting,
    Inside,
    Enclosing,
}

impl Mode {
    /// Whether a record is listed that is this to the window. "Equal counts as inside and as
    /// enclosing."
    pub fn lists(self, record: Comparison) -> bool {
        match self {
            Mode::Meeting => record != Comparison::Apart,
            Mode::Inside => matches!(record, Comparison::Inside | Comparison::Equal),
            Mode::Enclosing => matches!(record, Comparison::Enclosing | Comparison::Equal),
        }
    }
}
