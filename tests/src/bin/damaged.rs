// Holds the exported calls to the slow model on random tables. Each clause of "sound" is broken by itself and
// together with each other one, in several ways and at random places; lengths are wrong; and sound tables lie at the bounds.
// Every call is made on every table, with good and with bad arguments. The argument, if any, is a seed.
use std::env::args;
use tests::counted::hours::SLOTS;
use tests::counted::shifts::MOST_SHIFT;
use tests::damages::{Damage, DAMAGES, LENGTHS};
use tests::held::{queue_of, Held};
use tests::model::sound::{is_sound, CLAUSES};
use tests::model::{Call, Queue, KINDS, REFUSED};
use tests::program::{end, fail, seed};
use tests::random::hours::{end_of_hour, hours};
use tests::random::tables::{call, sound};
use tests::random::Random;
use tests::tables::{setup_with, Head, Hours, Tables, ALL_OPEN};
use tests::tables::{MOST_AHEAD, MOST_PERIOD, MOST_PER_HOUR, MOST_RECORDS};

// So many small tables for each way to break a clause, for each pair of clauses, and for each clause with each wrong length.
const EACH_WAY: usize = 600;
const EACH_PAIR: usize = 600;
const EACH_LENGTH: usize = 50;

// So many sound tables, small and large.
const SOUND: usize = 60_000;
const LARGE_SOUND: usize = 100;

// So often are other tables and ways tried where an edit found no place.
const TRIES: usize = 1_000;

const REFUSALS: [u64; 14] = [2, 3, 13, 14, 4, 5, 6, 7, 15, 8, 9, 10, 11, 12];

// A clause, and an edit that breaks it.
type Way = (usize, Damage);

fn any_way(random: &mut Random, clause: usize) -> Way {
    (clause, random.one_of(DAMAGES[clause]))
}

// In how many tables a clause was broken, in how many it alone was, and how many calls on these met refusal 5.
#[derive(Clone, Copy, Default)]
struct Broken {
    tables: u64,
    alone: u64,
    refused: u64,
}

struct Test {
    random: Random,
    held: Held,
    tables: u64,
    broken: [Broken; CLAUSES.len()],
    // how many calls met refusal 5 on tables with an open hour that are sound if all hours are open
    overfull_by_hours: u64,
    // how many calls on tables of each wrong length met refusal 4
    lengths: [u64; LENGTHS.len()],
}

// An open with these numbers and marks, at the bounds, past them, and past several of them.
fn opens(random: &mut Random, lent: u64, near: u64) -> impl Iterator<Item = Call> {
    let (some, none) = (hours(random), Hours::default());
    let opens = [
        (lent, near, near, some),
        (lent, MOST_PERIOD, MOST_PER_HOUR, ALL_OPEN),
        (lent, 0, 0, none),
        (lent, MOST_PERIOD + 1, 1, some),
        (lent, near, 0, some),
        (lent, near, MOST_PER_HOUR + 1, none),
        (lent, near, u64::MAX, some),
        (lent, near, MOST_PER_HOUR, none),
        (lent + 1, near, 1, none),
        (lent + 1, near, near, some),
        (0, 0, 0, none),
        (257, near, 1, ALL_OPEN),
    ];
    opens.into_iter().map(|(clients, period, slots_per_hour, hours)| Call::Open {
        setup: setup_with(clients, period, slots_per_hour),
        hours,
    })
}

// The deadline of one that waits, or near it.
fn among(random: &mut Random, tables: &Tables) -> u64 {
    let count = tables.waiting.len().min(tables.head.waiting as usize);
    let deadline = if count > 0 {
        tables.waiting[random.below(count)].deadline
    } else {
        tables.head.clock
    };
    deadline.saturating_add(random.between(0, 2)).saturating_sub(1)
}

// Every call, with arguments that sound tables accept and with others.
fn calls(random: &mut Random, tables: &Tables) -> Vec<Call> {
    let Head { setup, clock, .. } = tables.head;
    let lent = tables.clients().len() as u64;
    let client = random.next() % setup.clients.max(1);
    let near = random.between(1, 9);
    let records = tables.waiting.len();
    let entries = records.min(tables.head.waiting as usize);
    let ahead = [1, near, random.between(1, MOST_AHEAD), MOST_AHEAD];
    let others = [
        clock,
        clock.saturating_sub(1),
        clock.saturating_add(MOST_AHEAD + 1),
        u64::MAX,
        end_of_hour(random, setup.slots_per_hour, clock),
        among(random, tables),
    ];
    let deadlines = ahead.map(|ahead| clock.saturating_add(ahead)).into_iter().chain(others);
    let no_client = Call::Submit {
        client: setup.clients,
        deadline: clock,
    };
    let mut calls = vec![Call::Tick, no_client];
    calls.extend(opens(random, lent, near));
    calls.extend(deadlines.map(|deadline| Call::Submit { client, deadline }));
    calls.extend([client, setup.clients, u64::MAX].map(|client| Call::Report { client }));
    calls.extend([entries, records + 1, entries.saturating_sub(1)].map(|entries| Call::Chart { entries }));
    calls
}

impl Test {
    // Small tables, with all numbers of waiting records, or large ones.
    fn sound(&mut self, is_large: bool) -> Result<Tables, String> {
        let records = if is_large {
            MOST_RECORDS
        } else {
            self.random.one_of(&[1, 2, 3, 6, 9, 25])
        };
        let any = self.random.below(records + 1);
        let waiting = self.random.one_of(&[any, any, records - 1, records]);
        let tables = sound(&mut self.random, records, waiting);
        if is_sound(&queue_of(&tables)) {
            Ok(tables)
        } else {
            Err(format!("the model calls these unsound: {tables:?}"))
        }
    }

    // Every call on these tables, each on tables as they are. How many met this refusal.
    fn hold(&mut self, tables: &Tables, refusal: u64) -> Result<u64, String> {
        let mut refused = 0;
        for call in calls(&mut self.random, tables) {
            self.held.lend(tables);
            let answer = self.held.call(&call).map_err(|e| format!("{e}\n{}", shown(tables)))?;
            refused += u64::from(answer == [REFUSED, refusal]);
        }
        self.tables += 1;
        Ok(refused)
    }

    // Sound tables, then with clauses broken in these ways, one behind the other. Some ways go only with some tables, or not
    // together.
    fn damage(&mut self, is_large: bool, ways: impl Fn(&mut Random) -> Vec<Way>) -> Result<Tables, String> {
        for _ in 0..TRIES {
            let mut tables = self.sound(is_large)?;
            let ways = ways(&mut self.random);
            for (_, damage) in &ways {
                damage(&mut tables, &mut self.random);
            }
            let queue = queue_of(&tables);
            if ways.iter().all(|(clause, _)| !CLAUSES[*clause].1(&queue)) {
                return Ok(tables);
            }
        }
        Err("not broken in any try".into())
    }

    fn hold_damaged(&mut self, tables: &Tables) -> Result<(), String> {
        let refused = self.hold(tables, 5)?;
        let queue = queue_of(tables);
        let all_open = Queue {
            hours: ALL_OPEN,
            ..queue.clone()
        };
        let is_overfull_by_hours = is_sound(&all_open) && !queue.week().is_all_closed();
        self.overfull_by_hours += if is_overfull_by_hours { refused } else { 0 };
        let is_broken = CLAUSES.map(|(_, holds)| !holds(&queue));
        let count = is_broken.iter().filter(|&&is_broken| is_broken).count();
        let broken = self.broken.iter_mut().zip(is_broken).filter(|(_, is_broken)| *is_broken);
        for (clause, _) in broken {
            clause.tables += 1;
            if count == 1 {
                clause.alone += 1;
                clause.refused += refused;
            }
        }
        Ok(())
    }

    fn one_broken(&mut self, clause: usize) -> Result<(), String> {
        for way in DAMAGES[clause] {
            for round in 0..EACH_WAY {
                let tables = self.damage(round == 0, |_| vec![(clause, *way)])?;
                self.hold_damaged(&tables)?;
            }
        }
        Ok(())
    }

    fn two_broken(&mut self, one: usize, other: usize) -> Result<(), String> {
        for round in 0..EACH_PAIR {
            let tables = self.damage(round == 0, |random| {
                let pair = random.one_of(&[[one, other], [other, one]]);
                pair.map(|clause| any_way(random, clause)).to_vec()
            })?;
            self.hold_damaged(&tables)?;
        }
        Ok(())
    }

    // Wrong lengths, of sound tables and of damaged ones. Refusal 4 comes before 5.
    fn wrong_length(&mut self, length: usize, clause: Option<usize>) -> Result<(), String> {
        for round in 0..EACH_LENGTH {
            let damaged = self.damage(round == 0, |random| {
                clause.map(|clause| any_way(random, clause)).into_iter().collect()
            });
            let mut tables = damaged?;
            LENGTHS[length](&mut tables, &mut self.random);
            self.lengths[length] += self.hold(&tables, 4)?;
        }
        Ok(())
    }

    // Every call on sound tables, and then some calls one behind the other.
    fn hold_sound(&mut self, is_large: bool) -> Result<(), String> {
        let tables = self.sound(is_large)?;
        self.held.hours.open(&tables.head.setup, &queue_of(&tables).week());
        if self.hold(&tables, 5)? > 0 {
            return Err("refusal 5".into());
        }
        self.held.lend(&tables);
        for _ in 0..10 {
            let before = self.held.tables().clone();
            let ahead = self.random.one_of(&[2, before.head.waiting + 1, MOST_AHEAD]);
            let call = call(&mut self.random, &before, ahead);
            self.held.call(&call).map_err(|e| format!("{e}\n{}", shown(&before)))?;
        }
        Ok(())
    }

    fn all(&mut self) -> Result<(), String> {
        for (one, (name, _)) in CLAUSES.iter().enumerate() {
            self.one_broken(one).map_err(|e| format!("{name}: {e}"))?;
            for (other, (second, _)) in CLAUSES[..one].iter().enumerate() {
                let pair = self.two_broken(one, other);
                pair.map_err(|e| format!("{name}, {second}: {e}"))?;
            }
        }
        let clauses = (0..CLAUSES.len()).map(Some).chain([None]);
        for clause in clauses {
            for length in 0..LENGTHS.len() {
                self.wrong_length(length, clause).map_err(|e| format!("wrong length: {e}"))?;
            }
        }
        for round in 0..SOUND + LARGE_SOUND {
            self.hold_sound(round < LARGE_SOUND).map_err(|e| format!("sound: {e}"))?;
        }
        Ok(())
    }

    fn print(&self) {
        for ((name, _), broken) in CLAUSES.iter().zip(&self.broken) {
            let Broken { tables, alone, refused } = broken;
            println!("{name}: broken in {tables} tables, alone in {alone}, there {refused} calls refused");
        }
        let lengths: u64 = self.lengths.iter().sum();
        println!("wrong lengths: {lengths} calls refused");
        println!("sound but for their hours: {} calls refused", self.overfull_by_hours);
        println!("{}\n{}\n{}", self.held.tally, self.held.shifts, self.held.hours);
        println!("{}", self.held.hours.near_the_end());
        println!("{} tables, {} calls: all as the model says", self.tables, self.held.made);
    }

    // What has to have occurred and has not.
    fn missing(&self) -> Vec<String> {
        let clauses = CLAUSES.iter().zip(&self.broken);
        let never = clauses.filter(|(_, broken)| broken.refused == 0);
        let never = never.map(|((name, _), _)| format!("never refused for this alone: {name}"));
        let mut missing = self.held.tally.missing(&KINDS, &REFUSALS);
        missing.extend(never);
        missing.extend(self.held.shifts.missing(MOST_SHIFT));
        missing.extend(self.held.hours.missing());
        missing.extend(self.held.hours.missing_near_the_end());
        missing.extend(self.held.hours.missing_opens());
        missing.extend(self.held.hours.missing_changes(&SLOTS));
        if self.overfull_by_hours == 0 {
            missing.push("never refused for its hours alone".into());
        }
        if self.lengths.contains(&0) {
            missing.push("a wrong length was never refused".into());
        }
        missing
    }
}

fn shown(tables: &Tables) -> String {
    if tables.waiting.len() < 20 && tables.clients().len() < 20 {
        format!("{tables:?}")
    } else {
        format!("head {:?}, {:?}, {} records", tables.head, tables.hours, tables.waiting.len())
    }
}

fn main() {
    let arguments: Vec<String> = args().collect();
    let mut test = Test {
        random: Random::of_part(seed(arguments.get(1)), 0),
        held: Held::over(&Tables::zero(Head::default(), 0)),
        tables: 0,
        broken: Default::default(),
        overfull_by_hours: 0,
        lengths: Default::default(),
    };
    test.all().unwrap_or_else(|difference| fail(difference));
    test.print();
    end(test.missing());
}
