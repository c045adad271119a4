//! Slots in columns: as many columns as a drawing has room for, each of as many slots as that takes. Where the columns are full, each
//! two become one, so that a session of any length takes the same memory.

/// A drawing has room for so many.
pub const MOST_COLUMNS: u64 = 1_000;

/// What became of the slots of a column.
#[derive(Clone, Debug, PartialEq)]
pub struct Column {
    /// How many of them passed.
    pub slots: u64,
    pub idle: u64,
    pub closed: u64,
    /// By client.
    pub served: Vec<u64>,
    pub dropped: Vec<u64>,
    /// Sums of miss ratios as they stood in each slot, by client; the last is that of all clients together.
    ratios: Vec<f64>,
    /// In so many slots the ratios were looked at.
    looks: u64,
}

impl Column {
    fn of(clients: usize) -> Column {
        Column {
            slots: 0,
            idle: 0,
            closed: 0,
            served: vec![0; clients],
            dropped: vec![0; clients],
            ratios: vec![0.0; clients + 1],
            looks: 0,
        }
    }

    /// The miss ratios in a slot of the column.
    pub fn look(&mut self, ratios: impl Iterator<Item = f64>) {
        self.looks += 1;
        for (sum, ratio) in self.ratios.iter_mut().zip(ratios) {
            *sum += ratio;
        }
    }

    /// The mean of the miss ratios over the column's slots.
    pub fn mean(&self, place: usize) -> Option<f64> {
        (self.looks > 0).then(|| self.ratios[place] / self.looks as f64)
    }

    fn and(&self, next: &Column) -> Column {
        let sums = |a: &[u64], b: &[u64]| a.iter().zip(b).map(|(a, b)| a + b).collect();
        Column {
            slots: self.slots + next.slots,
            idle: self.idle + next.idle,
            closed: self.closed + next.closed,
            served: sums(&self.served, &next.served),
            dropped: sums(&self.dropped, &next.dropped),
            ratios: self.ratios.iter().zip(&next.ratios).map(|(a, b)| a + b).collect(),
            looks: self.looks + next.looks,
        }
    }

    /// The column with some of its clients by themselves and the others as one behind them; of the ratios, that of all clients stays.
    fn folded(&self, drawn: &[usize]) -> Column {
        let fold = |counts: &[u64]| -> Vec<u64> {
            let own: Vec<u64> = drawn.iter().map(|&client| counts[client]).collect();
            let others = counts.iter().sum::<u64>() - own.iter().sum::<u64>();
            own.into_iter().chain([others]).collect()
        };
        let all = self.ratios.len() - 1;
        Column {
            served: fold(&self.served),
            dropped: fold(&self.dropped),
            ratios: drawn.iter().chain([&all]).map(|&place| self.ratios[place]).collect(),
            ..self.clone()
        }
    }
}

pub struct Columns {
    /// So many slots a column stands for.
    pub width: u64,
    pub columns: Vec<Column>,
    clients: usize,
}

impl Columns {
    pub fn of(clients: usize) -> Columns {
        Columns { width: 1, columns: vec![], clients }
    }

    /// The column in which a slot lies.
    pub fn at(&mut self, slot: u64) -> &mut Column {
        while slot / self.width >= MOST_COLUMNS {
            self.halve();
        }
        let place = (slot / self.width) as usize;
        if place >= self.columns.len() {
            self.columns.resize(place + 1, Column::of(self.clients));
        }
        &mut self.columns[place]
    }

    fn halve(&mut self) {
        let pairs = self.columns.chunks(2);
        self.columns = pairs.map(|pair| pair[1..].iter().fold(pair[0].clone(), |first, next| first.and(next))).collect();
        self.width *= 2;
    }

    /// With some clients by themselves and the others as one.
    pub fn folded(&self, drawn: &[usize]) -> Columns {
        Columns {
            width: self.width,
            columns: self.columns.iter().map(|column| column.folded(drawn)).collect(),
            clients: drawn.len() + 1,
        }
    }
}

#[cfg(test)]
mod tests {
    use super::*;

    /// Columns of two clients that are served in turn in so many slots, in which the ratios are 0, 1/2 and 1/4.
    fn served_in_turn(slots: u64) -> Columns {
        let mut columns = Columns::of(2);
        for slot in 0..slots {
            let column = columns.at(slot);
            column.slots += 1;
            column.served[(slot % 2) as usize] += 1;
            column.look([0.0, 0.5, 0.25].into_iter());
        }
        columns
    }

    #[test]
    fn a_column_is_a_slot_while_there_is_room() {
        let columns = served_in_turn(MOST_COLUMNS);
        assert_eq!((columns.width, columns.columns.len()), (1, 1_000));
        assert_eq!(columns.columns[7].served, [0, 1]);
    }

    #[test]
    fn the_first_slot_without_room_halves_the_columns() {
        let columns = served_in_turn(MOST_COLUMNS + 1);
        assert_eq!((columns.width, columns.columns.len()), (2, 501));
        assert_eq!(columns.columns[0].served, [1, 1]);
        assert_eq!(columns.columns[500].served, [1, 0]);
    }

    #[test]
    fn nothing_is_lost_in_columns() {
        let columns = served_in_turn(480_451);
        assert_eq!(columns.width, 512);
        assert!(columns.columns.len() as u64 <= MOST_COLUMNS);
        assert_eq!(columns.columns.iter().map(|column| column.slots).sum::<u64>(), 480_451);
        assert_eq!(columns.columns.iter().map(|column| column.served[0]).sum::<u64>(), 240_226);
        assert_eq!(columns.columns[3].mean(1), Some(0.5));
    }

    #[test]
    fn an_odd_column_stays_as_it_is() {
        let mut columns = Columns::of(1);
        columns.at(2).idle = 3;
        columns.halve();
        assert_eq!(columns.columns.iter().map(|column| column.idle).collect::<Vec<_>>(), [0, 3]);
    }

    #[test]
    fn a_mean_is_of_the_slots_that_were_looked_at() {
        let mut column = Column::of(1);
        assert_eq!(column.mean(0), None);
        column.look([0.5, 0.5].into_iter());
        column.look([0.0, 0.5].into_iter());
        assert_eq!((column.mean(0), column.mean(1)), (Some(0.25), Some(0.5)));
    }

    #[test]
    fn others_are_folded_and_the_ratio_of_all_stays() {
        let mut columns = Columns::of(4);
        let column = columns.at(0);
        column.served = vec![1, 2, 3, 4];
        column.look([0.1, 0.2, 0.3, 0.4, 0.9].into_iter());
        let folded = columns.folded(&[1, 3]);
        assert_eq!(folded.columns[0].served, [2, 4, 4]);
        assert_eq!((folded.columns[0].mean(1), folded.columns[0].mean(2)), (Some(0.4), Some(0.9)));
    }
}
