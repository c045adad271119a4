//! Which clients have a row and a colour of their own in a drawing.
use crate::session::follow::Counts;
use crate::numbers::counted;
use std::cmp::Reverse;

/// There are colours for so many.
pub const MOST_CLIENTS: usize = 10;

pub struct Clients {
    /// By client.
    pub drawn: Vec<usize>,
    /// How many others submitted something.
    pub others: u64,
    /// How many submitted nothing and are not drawn.
    pub silent: u64,
}

impl Clients {
    /// All, where they are few; else those that submitted most.
    pub fn most_submitted(counts: &[Counts]) -> Clients {
        let mut drawn: Vec<usize> = (0..counts.len()).collect();
        if counts.len() > MOST_CLIENTS {
            drawn.retain(|&client| counts[client].submitted > 0);
            drawn.sort_by_key(|&client| Reverse(counts[client].submitted));
        }
        let others = drawn.len().saturating_sub(MOST_CLIENTS);
        let silent = counts.len() - drawn.len();
        drawn.truncate(MOST_CLIENTS);
        drawn.sort();
        Clients {
            drawn,
            others: others as u64,
            silent: silent as u64,
        }
    }

    /// The row of a client: its own, or that of the others behind them.
    pub fn place(&self, client: u64) -> usize {
        self.drawn.binary_search(&(client as usize)).unwrap_or(self.drawn.len())
    }

    /// How many rows there are.
    pub fn rows(&self) -> usize {
        self.drawn.len() + usize::from(self.others > 0)
    }

    /// Below a head that says that these are clients.
    pub fn number(&self, row: usize) -> String {
        match self.drawn.get(row) {
            Some(client) => client.to_string(),
            None => counted(self.others, "other"),
        }
    }

    pub fn name(&self, row: usize) -> String {
        let number = self.number(row);
        if row < self.drawn.len() {
            format!("client {number}")
        } else {
            number
        }
    }
}

#[cfg(test)]
mod tests {
    use super::*;

    fn submitted(numbers: &[u64]) -> Vec<Counts> {
        let counts = |&submitted: &u64| Counts { submitted, ..Counts::default() };
        numbers.iter().map(counts).collect()
    }

    #[test]
    fn few_clients_are_all_drawn() {
        let clients = Clients::most_submitted(&submitted(&[5, 0, 7]));
        assert_eq!((clients.drawn.as_slice(), clients.rows(), clients.silent), (&[0, 1, 2][..], 3, 0));
    }

    #[test]
    fn of_many_those_with_most_submitted_are_drawn() {
        let clients = Clients::most_submitted(&submitted(&[9, 1, 9, 9, 9, 9, 0, 9, 9, 9, 9, 2, 9]));
        assert_eq!(clients.drawn, [0, 2, 3, 4, 5, 7, 8, 9, 10, 12]);
        assert_eq!((clients.others, clients.silent, clients.rows()), (2, 1, 11));
        assert_eq!((clients.place(3), clients.place(11), clients.name(10).as_str()), (2, 10, "2 others"));
        assert_eq!((clients.name(1).as_str(), clients.number(1).as_str()), ("client 2", "2"));
    }

    #[test]
    fn silent_clients_make_no_row() {
        let clients = Clients::most_submitted(&submitted(&[0, 0, 0, 4, 0, 0, 0, 0, 0, 0, 1, 0]));
        assert_eq!((clients.drawn.as_slice(), clients.rows(), clients.silent), (&[3, 10][..], 2, 10));
    }
}
