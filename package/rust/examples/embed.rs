//! A station that embeds the queue, with tables of 8 waiting records and 2 clients. An hour has 3 slots, and hour 1 belongs to the
//! inspectors: slots 3, 4 and 5. It makes the calls of document 01's session, which end before, goes on until nothing waits and then
//! for reads around that hour, and says each answer in words. embed.c and embed.py, in examples/embed/, do the same.
use std::process::exit;
use welsbell::{version, Answer, Hours, Queue, Setup, Tables, VERSION};

const RECORDS: usize = 8;
const CLIENTS: usize = 2;
const SLOTS_PER_HOUR: u64 = 3;
const INSPECTION: usize = 1;

fn submit(queue: &mut Queue, client: u64, deadline: u64) {
    let answer = queue.submit(client, deadline);
    println!("client {client} submits a read with deadline {deadline}: {answer}");
}

fn tick(queue: &mut Queue) {
    println!("tick: {}", queue.tick());
}

// Each waiting read with the slot in which it starts.
fn chart(queue: &Queue) {
    let mut starts = [0; RECORDS];
    let answer = queue.chart(&mut starts);
    println!("chart: {answer}");
    if let Answer::Charted { count } = answer {
        for (request, start) in queue.waiting.iter().zip(&starts[..count as usize]) {
            println!("  slot {start}: number {}, deadline {}", request.number, request.deadline);
        }
    }
}

fn open(queue: &mut Queue) {
    let setup = Setup {
        clients: CLIENTS as u64,
        period: 100,
        slots_per_hour: SLOTS_PER_HOUR,
    };
    let mut hours = Hours::ALL_OPEN;
    hours.mark(INSPECTION, false);
    let answer = queue.open(setup, hours);
    println!("open with {CLIENTS} clients, {SLOTS_PER_HOUR} slots an hour, hour {INSPECTION} closed: {answer}");
}

fn main() {
    if version() != VERSION {
        eprintln!("the archive has version {}, the wrapper {VERSION}", version());
        exit(1);
    }
    let mut tables = Tables::<RECORDS, CLIENTS>::new();
    let mut queue = tables.queue();
    open(&mut queue);
    submit(&mut queue, 0, 1);
    submit(&mut queue, 1, 2);
    submit(&mut queue, 1, 1);
    chart(&queue);
    tick(&mut queue);
    println!("{}", queue.report(1));
    tick(&mut queue);
    tick(&mut queue);
    submit(&mut queue, 2, 9);
    submit(&mut queue, 0, 5);
    submit(&mut queue, 0, 9);
    submit(&mut queue, 0, 7);
    submit(&mut queue, 1, 7);
    tick(&mut queue);
    chart(&queue);
}
