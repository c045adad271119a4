//! The colours of clients in the drawings of a session, and what they stand for.
use super::super::collect::clients::Clients;
use super::scale::{DARK, LEFT};
use crate::drawing::svg::{colour, Svg};

/// So wide is an entry of a legend, and so high.
const ENTRY: f64 = 92.0;
pub const LEGEND: f64 = 26.0;
const OTHERS: &str = "#555555";

/// The colour of a row of clients.
pub fn of_row(clients: &Clients, row: usize) -> &'static str {
    if row < clients.drawn.len() {
        colour(row)
    } else {
        OTHERS
    }
}

/// Black or white, as is read more easily on a colour, which is given as # and six digits.
pub fn ink(fill: &str) -> &'static str {
    let part = |from: usize| u64::from_str_radix(&fill[from..from + 2], 16).unwrap_or_default();
    let brightness = 299 * part(1) + 587 * part(3) + 114 * part(5);
    if brightness > 100_000 {
        "#000000"
    } else {
        "#ffffff"
    }
}

/// The names of rows behind their colours, from the left, at the top of a drawing.
pub fn legend(svg: &mut Svg, clients: &Clients, rows: usize) {
    for row in 0..rows {
        let x = LEFT + ENTRY * row as f64;
        svg.rect((x, 4.0), (14.0, 14.0), of_row(clients, row));
        svg.label((x + 19.0, 15.0), "start", (12.0, DARK), &clients.name(row));
    }
}

/// Where the entry behind so many stands.
pub fn entry(rows: usize) -> f64 {
    LEFT + ENTRY * rows as f64
}

#[cfg(test)]
mod tests {
    use super::*;

    #[test]
    fn text_is_dark_on_light_and_light_on_dark() {
        assert_eq!((ink("#e69f00"), ink("#0072b2")), ("#000000", "#ffffff"));
    }
}
