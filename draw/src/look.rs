//! What the map and its legend have in common: colours, the groups of records, and the margin of the sheet.

use dustmap::Owner;

pub const EDGE: f64 = 24.0;
pub const FOUND: &str = "#d1480a";

/// Records that are not found; and the other owner's, not found and found.
const RECORD: &str = "#6d7b8a";
const OTHER_RECORD: &str = "#a07c00";
const OTHER_FOUND: &str = "#a3006d";

/// The records that have one look, and one layer of the picture: those of an owner that the window finds, or does not find. Where
/// there are no owners, they look like owner 1's.
#[derive(Clone, Copy)]
pub struct Group {
    pub owner: Option<Owner>,
    pub found: bool,
}

impl Group {
    pub fn layer(self) -> &'static str {
        match (self.found, self.owner) {
            (false, Some(Owner::Two)) => "records-2",
            (false, _) => "records",
            (true, Some(Owner::Two)) => "found-2",
            (true, _) => "found",
        }
    }

    /// The other owner's have dashed outlines as well, for those who do not tell the colours apart.
    pub fn look(self) -> String {
        let (colour, dashes) = match (self.found, self.owner) {
            (false, Some(Owner::Two)) => (OTHER_RECORD, " stroke-dasharray=\"6 5\""),
            (false, _) => (RECORD, ""),
            (true, Some(Owner::Two)) => (OTHER_FOUND, " stroke-dasharray=\"6 5\""),
            (true, _) => (FOUND, ""),
        };
        let tint = if self.found { 0.38 } else { 0.22 };
        format!("fill=\"{colour}\" fill-opacity=\"{tint}\" stroke=\"{colour}\"{dashes}")
    }
}

/// As in "record 7 of owner 2"; nothing where there are no owners.
pub fn of_owner(owner: Option<Owner>) -> String {
    owner.map(|owner| format!(" of owner {}", owner as i32)).unwrap_or_default()
}

/// Full nodes that an insert would split.
pub const FULL: &str = "#c4002b";

/// The rectangle of an insert, like a record to come.
pub fn new_record() -> String {
    format!("fill=\"{FOUND}\" fill-opacity=\"0.18\" stroke=\"{FOUND}\" stroke-width=\"2\" stroke-dasharray=\"6 4\"")
}

/// The outlines of nodes, by level from 1 up: "Height is 8 at most".
const LEVELS: [&str; 8] =
    ["#0a8f6a", "#0b6fb3", "#8e44ad", "#8c6d31", "#444444", "#b5337f", "#1f2f7a", "#5f7a0a"];

pub fn colour(level: i32) -> &'static str {
    LEVELS[level as usize - 1]
}
