//! A session as far as it can be followed by its calls and their answers: the open's hours, the clock and what waits. With that its
//! shifts are held, and its cases counted.
use crate::counted::hours::{Before, Hours};
use crate::counted::shifts::Shifts;
use crate::model::calls::{CLOSED, DROPPED, IDLE, KEPT, OPENED, SERVED};
use crate::model::tables::{Request, Setup};
use crate::model::{Call, Fault, Week};

#[derive(Default)]
pub struct Followed {
    opened: Option<(Setup, Week)>,
    clock: u64,
    requests: Vec<Request>,
    pub shifts: Shifts,
    pub hours: Hours,
}

impl Followed {
    // One call more, its answer, and what segments came before that.
    pub fn take(&mut self, call: &Call, answer: &[u64], segments: &[(u64, u64)]) -> Result<(), String> {
        self.shifts.count(&self.requests, call, answer)?;
        if let Some((setup, week)) = self.opened {
            let before = Before {
                setup,
                week,
                clock: self.clock,
                waiting: &self.requests,
            };
            self.hours.count(&before, call, answer, segments);
        }
        self.go_on(call, answer);
        Ok(())
    }

    fn go_on(&mut self, call: &Call, answer: &[u64]) {
        match (call, answer) {
            (Call::Open { setup, hours }, [OPENED]) => {
                let week = Week::new(setup.slots_per_hour, *hours, Fault::None);
                self.hours.open(setup, &week);
                self.opened = Some((*setup, week));
                self.clock = 0;
                self.requests.clear();
            }
            (&Call::Submit { client, deadline }, &[KEPT | DROPPED, number, ..]) => self.requests.push(Request {
                deadline,
                number,
                client,
            }),
            (Call::Tick, [SERVED | IDLE | CLOSED, ..]) => self.clock += 1,
            _ => {}
        }
        if let [DROPPED, _, gone, ..] | [SERVED, _, gone, _] = answer {
            self.requests.retain(|request| request.number != *gone);
        }
    }
}
