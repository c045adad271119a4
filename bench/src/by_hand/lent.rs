//! Head, hours and tables as they are lent for one call by hand, and how it answers.
use tests::tables::{Client, Head, Hours, Request, Tables, Values, MOST_RECORDS, REFUSED, WIDTH};

pub struct Lent<'a> {
    pub head: &'a mut Head,
    pub hours: &'a mut Hours,
    pub waiting: &'a mut [Request],
    pub clients: &'a mut [Client],
    // the client table's length in numbers, as it is lent to the proved calls
    client_numbers: usize,
}

impl Lent<'_> {
    #[inline(always)]
    pub fn whole(t: &mut Tables) -> Lent<'_> {
        let client_numbers = t.client_numbers.len();
        let (head, hours, waiting, clients) = t.parts();
        Lent {
            head,
            hours,
            waiting,
            clients,
            client_numbers,
        }
    }

    // The first so many records of each table.
    #[inline(always)]
    pub fn part(t: &mut Tables, records: usize, clients: usize) -> Lent<'_> {
        let mut lent = Lent::whole(t);
        lent.waiting = &mut lent.waiting[..records];
        lent.clients = &mut lent.clients[..clients];
        lent.client_numbers = WIDTH * clients;
        lent
    }

    // What refusal 4 asks of the lengths, with so many clients.
    #[inline(always)]
    pub fn has_lengths_for(&self, clients: u64) -> bool {
        let are_records = self.client_numbers == WIDTH * self.clients.len();
        (1..=MOST_RECORDS).contains(&self.waiting.len()) && are_records && self.clients.len() as u64 == clients
    }
}

// Writes an answer's values and gives its number.
#[inline(always)]
pub fn give<const N: usize>(values: &mut Values, kind: u64, given: [u64; N]) -> u64 {
    values[..N].copy_from_slice(&given);
    kind
}

#[inline(always)]
pub fn refuse(values: &mut Values, refusal: u64) -> u64 {
    give(values, REFUSED, [refusal])
}

#[inline(always)]
pub fn refused_if(is_met: bool, refusal: u64) -> Result<(), u64> {
    if is_met {
        Err(refusal)
    } else {
        Ok(())
    }
}
