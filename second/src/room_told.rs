//! What is true of the room that is told just before an insert of a history (document 02, Req 06).
//!
//! Nothing here uses the code of the call but through `room`: it is held to the answer that the
//! insert got, and to the slots in use before and after it.

use crate::plain::ensure;
use crate::pool::each_slot;
use crate::room::room;

/// What is in the two words before the call.
const UNTOUCHED: [u32; 2] = [71, 72];

/// How often it was told, and what was told.
#[derive(Default)]
pub struct Told {
    /// Inserts otherwise acceptable.
    rooms: u64,
    /// Of those, the ones that take every free slot, one at least.
    just_enough: u64,
    /// Refused 7 with a slot free.
    too_few: u64,
    /// Accepted with a new root.
    with_root: u64,
    /// Accepted with h + 1 slots free, and a slot needed.
    never_refused: u64,
}

impl Told {
    /// An insert of a rectangle, by the pools before and after it and the number of its answer.
    pub fn check(
        &mut self,
        before: &[i32],
        rect: [i32; 4],
        number: i32,
        after: &[i32],
    ) -> Result<(), String> {
        let mut slots = UNTOUCHED;
        let said = room(before, rect, &mut slots);
        if number == 3 {
            return ensure(said == 3 && slots == UNTOUCHED, "a room is told of a bad rectangle");
        }
        ensure(said == 0, "no room is told")?;
        let [needed, free] = slots;
        let height = before[2] as u32;
        ensure(free == free_slots(before), "the free slots told are not those of level 0")?;
        ensure(needed <= height + 1, "more than h + 1 slots are needed")?;
        // "an insert otherwise acceptable": 4 and 6 come before 7.
        if number == 0 || number == 7 {
            ensure((needed > free) == (number == 7), "the room told is not what the insert met")?;
            let taken = if number == 0 { needed } else { 0 };
            ensure(free_slots(after) + taken == free, "as many slots as needed were not taken")?;
            self.note(needed, free, height, number);
        }
        Ok(())
    }

    fn note(&mut self, needed: u32, free: u32, height: u32, number: i32) {
        let accepted = number == 0;
        self.rooms += 1;
        self.just_enough += u64::from(accepted && needed > 0 && needed == free);
        self.too_few += u64::from(!accepted && free > 0);
        self.with_root += u64::from(accepted && needed == height + 1);
        self.never_refused += u64::from(accepted && needed > 0 && free > height);
    }

    /// Each counter with its name.
    pub fn named(&self) -> [(&'static str, u64); 5] {
        [
            ("rooms_told", self.rooms),
            ("room_just_enough", self.just_enough),
            ("room_too_few", self.too_few),
            ("room_with_root", self.with_root),
            ("room_never_refused", self.never_refused),
        ]
    }
}

/// "Level 0 is free".
fn free_slots(pool: &[i32]) -> u32 {
    each_slot(pool).filter(|slot| slot[0] == 0).count() as u32
}
