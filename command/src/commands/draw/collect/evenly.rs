//! Some of many things, evenly chosen while they come: their number is not known before the last.

/// Up to so many are all kept.
pub const MOST_KEPT: usize = 24;

pub struct Evenly<T> {
    /// How many came.
    pub count: u64,
    /// Each so many is kept.
    step: u64,
    kept: Vec<T>,
    /// The last, where it is not kept anyway.
    last: Option<T>,
}

impl<T> Default for Evenly<T> {
    fn default() -> Evenly<T> {
        Evenly {
            count: 0,
            step: 1,
            kept: vec![],
            last: None,
        }
    }
}

impl<T> Evenly<T> {
    pub fn take(&mut self, thing: T) {
        if self.count.is_multiple_of(self.step) {
            self.kept.push(thing);
            self.last = None;
        } else {
            self.last = Some(thing);
        }
        self.count += 1;
        if self.kept.len() > MOST_KEPT {
            self.halve();
        }
    }

    /// Each second goes. The number of those kept is odd here, so that the last stays.
    fn halve(&mut self) {
        let mut stays = false;
        self.kept.retain(|_| {
            stays = !stays;
            stays
        });
        self.step *= 2;
    }

    /// At most so many of those kept, evenly chosen too, in the order in which they came. The last is among them.
    pub fn chosen(&self, most: usize) -> Vec<&T> {
        let kept: Vec<&T> = self.kept.iter().chain(&self.last).collect();
        let step = kept.len().div_ceil(most).max(1);
        let mut chosen: Vec<&T> = kept.into_iter().rev().step_by(step).collect();
        chosen.reverse();
        chosen
    }
}

#[cfg(test)]
mod tests {
    use super::*;

    fn chosen_of(count: u64) -> Vec<u64> {
        let mut evenly = Evenly::default();
        (0..count).for_each(|thing| evenly.take(thing));
        evenly.chosen(usize::MAX).into_iter().copied().collect()
    }

    #[test]
    fn few_are_all_kept() {
        assert_eq!(chosen_of(0), []);
        assert_eq!(chosen_of(24), (0..24).collect::<Vec<_>>());
    }

    #[test]
    fn of_more_each_second_is_kept_and_the_last() {
        assert_eq!(chosen_of(25), (0..25).step_by(2).collect::<Vec<_>>());
        let of_26: Vec<u64> = (0..25).step_by(2).chain([25]).collect();
        assert_eq!(chosen_of(26), of_26);
    }

    #[test]
    fn of_many_no_more_are_kept_and_the_first_and_the_last_are() {
        let chosen = chosen_of(10_060);
        assert!(chosen.len() <= MOST_KEPT + 1);
        assert_eq!((chosen.first(), chosen.last()), (Some(&0), Some(&10_059)));
    }

    #[test]
    fn fewer_than_are_kept_are_chosen_from_the_last_on() {
        let mut evenly = Evenly::default();
        (0..10).for_each(|thing| evenly.take(thing));
        assert_eq!(evenly.chosen(5), [&1, &3, &5, &7, &9]);
        assert_eq!(evenly.chosen(4), [&0, &3, &6, &9]);
        assert_eq!(evenly.chosen(10).len(), 10);
    }
}
