//! What the calls by hand ask about slots, in two ways, of which a call takes one: all hours are open, or some are closed.
pub mod all_open;
pub mod latest;
pub mod some_closed;
pub mod week;

use tests::tables::{Head, Hours, Request};

pub trait Slots {
    // Of head and hours that are within their bounds.
    fn new(head: &Head, hours: &Hours) -> Self;

    // Whether the slot at the clock is open.
    fn is_open_now(&self) -> bool;

    // How many requests can end from the clock to a deadline, one that is near.
    fn room(&self, deadline: u64) -> u64;

    // Whether there is room for each of the records of a table in turn, where so many slots are taken before the first.
    fn rooms(&self, taken: usize) -> impl Rooms;

    // Of sound records from this place on, the first with no slot to spare, looked for by eights.
    #[inline(always)]
    fn first_full(&self, waiting: &[Request], place: usize) -> Option<usize> {
        let mut rooms = self.rooms(place + 1);
        let (eights, _) = waiting[place..].as_chunks::<8>();
        let from = place + 8 * eights.iter().take_while(|eight| rooms.for_eight(eight)).count();
        let mut rooms = self.rooms(from + 1);
        (from..waiting.len()).find(|&i| !rooms.for_one(&waiting[i]))
    }

    // A start slot for each of the records, which are sound.
    fn write_starts(&self, output: &mut [u64], waiting: &[Request]);
}

// Whether there is room for the next records of a table. What is said is right where their deadlines ascend, behind the clock
// and not too far ahead of it; they may be anything. So the first of eight is asked for all of them: where it has seven slots to
// spare, each of them has room.
pub trait Rooms {
    fn for_one(&mut self, w: &Request) -> bool;
    fn for_eight(&mut self, eight: &[Request; 8]) -> bool;
}

// The marks as three numbers, the last two of which have bits in common.
#[inline(always)]
fn words(hours: &Hours) -> [u64; 3] {
    [0, 8, 13].map(|from| u64::from_be_bytes(hours.marks[from..from + 8].try_into().expect("eight bytes")))
}

#[inline(always)]
pub fn are_all_open(hours: &Hours) -> bool {
    let [a, b, c] = words(hours);
    a & b & c == u64::MAX
}

#[inline(always)]
pub fn are_all_closed(hours: &Hours) -> bool {
    let [a, b, c] = words(hours);
    a | b | c == 0
}
