//! Many slots in columns: bars for the shares of them in which a client was served, and for how many of its reads were dropped.
use super::super::super::collect::columns::Column;
use super::super::super::collect::Ended;
use super::super::colours::of_row;
use super::super::scale::{Scale, CLOSED, DROP, GREY, LEFT, WIDTH};
use super::{periods, Rows};
use crate::numbers::{counted, grouped};
use crate::drawing::page::{drawings, paragraph};
use crate::drawing::svg::Svg;

/// A bar that is there is seen.
const LEAST: f64 = 3.0;

type Rect = ((f64, f64), (f64, f64));

/// The columns of a session, where they lie.
struct Shares<'a> {
    session: &'a Ended,
    scale: Scale,
    rows: Rows,
}

impl Shares<'_> {
    fn columns(&self) -> &[Column] {
        &self.session.collected.columns.columns
    }

    fn most(&self, value: impl Fn(&Column) -> f64) -> f64 {
        self.columns().iter().map(value).fold(0.0, f64::max)
    }

    /// Bars that stand on a line, a column each; the largest value has this height.
    fn bars(&self, (base, height): (f64, f64), largest: f64, value: impl Fn(&Column) -> f64) -> Vec<Rect> {
        let width = self.session.collected.columns.width;
        let bar = |(place, column): (u64, &Column)| {
            let (left, right) = (place * width, ((place + 1) * width).min(self.scale.end));
            let high = (height * value(column) / largest).max(LEAST);
            ((self.scale.x(left), base - high), (self.scale.x(right) - self.scale.x(left), high))
        };
        (0..).zip(self.columns()).filter(|(_, column)| value(column) > 0.0).map(bar).collect()
    }

    /// The shares of the slots in a row. The highest fills the row and is named at its left, since those of many clients are small.
    fn draw_shares(&self, svg: &mut Svg, top: f64, fill: &str, part: impl Fn(&Column) -> u64) {
        let share = |column: &Column| part(column) as f64 / column.slots.max(1) as f64;
        let most = self.most(share);
        let height = self.rows.boxes;
        svg.rects(&self.bars((top + height, height), most, share), fill);
        if self.session.collected.columns.width > 1 {
            svg.label((LEFT - 8.0, top + height / 2.0 + 15.0), "end", (10.0, GREY), &format!("up to {most:.3}"));
        }
    }

    fn draw_rows(&self, svg: &mut Svg, most_dropped: u64) {
        for row in 0..self.rows.count {
            let top = self.rows.top(row);
            let dropped = self.bars((top, self.rows.drops - 2.0), most_dropped as f64, |column| column.dropped[row] as f64);
            self.draw_shares(svg, top, of_row(&self.session.clients, row), |column| column.served[row]);
            svg.rects(&dropped, DROP);
        }
        self.draw_shares(svg, self.rows.idle(), GREY, |column| column.idle);
        if self.rows.has_closed {
            self.draw_shares(svg, self.rows.closed(), CLOSED, |column| column.closed);
        }
    }
}

fn said(session: &Ended, most_dropped: u64) -> String {
    let width = session.collected.columns.width;
    let served = match width {
        1 => "A column is a slot, filled where a read of the client was served.".into(),
        _ => format!(
            "A column stands for {}. A bar is the share of them in which the client was served; the highest bar of a row is the share \
             at its left.",
            counted(width, "slot")
        ),
    };
    let dropped = match most_dropped {
        0 => "Nothing was dropped.".into(),
        _ => format!("A red bar above a row is for its reads dropped; the highest of all is {} in a column.", grouped(most_dropped)),
    };
    format!("{served} {dropped}{}", periods(session))
}

pub fn shares(session: &Ended) -> String {
    let end = session.end();
    let shares = Shares {
        session,
        scale: Scale { first: 0, end, slot: WIDTH / end as f64 },
        rows: Rows::new(session, 20.0, 28.0),
    };
    let most_dropped = shares.columns().iter().flat_map(|column| &column.dropped).copied().max().unwrap_or_default();
    let mut svg = shares.rows.drawing(session, &shares.scale, shares.scale.width());
    shares.draw_rows(&mut svg, most_dropped);
    format!("{}{}", paragraph(&said(session, most_dropped)), drawings(&svg.drawing()))
}
