//! Document 02, "Records shifted on a submit".
use super::tables::{stands_before, Queue, Request};
use super::Fault;

// "how many waiting records stood behind the new one in chart order"
pub fn behind(new: &Request, waiting: &[Request]) -> u64 {
    waiting.iter().filter(|request| stands_before(new, request)).count() as u64
}

// What a fault gives in its stead. The queue is still as it was before the submit.
pub fn faulty(queue: &Queue, new: &Request, afterwards: &[Request]) -> Option<u64> {
    let waiting = queue.waiting();
    let count = |counts: &dyn Fn(&Request) -> bool| waiting.iter().filter(|request| counts(request)).count() as u64;
    match queue.fault {
        Fault::ShiftAfterDrop => Some(behind(new, afterwards)),
        Fault::MovesAsShift => Some(moved(waiting, afterwards)),
        Fault::PlaceAsShift => Some(count(&|request| stands_before(request, new))),
        Fault::WaitingAsShift => Some(queue.head.waiting),
        Fault::EqualsBehind => Some(count(&|request| request.deadline >= new.deadline)),
        _ => None,
    }
}

// How many records stand at another place afterwards.
fn moved(before: &[Request], afterwards: &[Request]) -> u64 {
    let now = |record: &Request| afterwards.iter().position(|request| request == record);
    let moved = (0..)
        .zip(before)
        .filter(|(place, record)| now(record).is_some_and(|now| now != *place));
    moved.count() as u64
}
