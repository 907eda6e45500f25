//! A second, independent program for the dust map: an R-tree in a pool of 32-bit words.
//!
//! Written from the documents (01, and of 02 the zones wholly inside, the map carried between
//! offices, the surveyor's boxes, the flat roads, the room for an insert and the neighbour's carts)
//! and Guttman's 1984 paper alone, plainly and without care for speed, so that others can be
//! compared with it. Sentences in quotes are the documents'; names such as CL3 or CT6 are the paper's
//! steps.

#![forbid(unsafe_code)]

pub mod call;
pub mod carried;
pub mod carry;
pub mod choose;
pub mod damage;
pub mod dice;
pub mod dustmap;
pub mod edition;
pub mod events;
pub mod exact;
pub mod files;
pub mod files_drawn;
pub mod files_kept;
pub mod files_shared;
pub mod frames;
pub mod generate;
pub mod geometry;
pub mod mode;
pub mod neighbours;
pub mod plain;
pub mod pool;
pub mod queries;
pub mod room;
pub mod room_told;
pub mod rooms;
pub mod rooms_drawn;
pub mod rooms_kept;
pub mod script;
pub mod selftest;
pub mod sound;
pub mod style;
pub mod survey;
pub mod tree;
pub mod trial;

pub use call::{call, call_as, call_counting, Answer, Found, Request};
pub use carry::{read, read_as, write};
pub use choose::{choose_child, pick_seeds, split_nine};
pub use edition::{Edition, Owner};
pub use events::Events;
pub use exact::Exact;
pub use geometry::{
    area, compare, cover, enlargement, half_enlargement, half_perimeter, half_waste, joint_cover,
    meets, waste, Comparison, Rect,
};
pub use mode::Mode;
pub use pool::{
    blank, blank_as, pairs_in_leaves, records_in_leaves, Owned, Pair, RecordNumber, Slot,
};
pub use room::room;
pub use sound::{check, sound};
pub use survey::{box_window, disc_window, point_window, Query};
