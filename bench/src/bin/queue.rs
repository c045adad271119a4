// Holds the proved calls to calls by hand in Rust, and times all of them; with the argument `agree` only the first. This holds
// the compiler and the boundary to Rust; what the calls mean is proved.
use bench::agree::agree;
use bench::fail;
use bench::measure::{clock, measure, ratios, Row, ROUNDS};
use bench::timed::{calls, calls_with_hours, growing};
use tests::tables::{Head, Setup, MOST_CLIENTS, MOST_RECORDS};

// For tables of many lengths.
const LENGTHS: [usize; 7] = [1, 4, 16, 64, 256, 1_024, MOST_RECORDS];
const CLIENTS: usize = 4;

// For tables with every second hour closed.
const PER_HOUR: [u64; 4] = [1, 16, 360, 3_600];

fn print_method() {
    println!();
    println!(
        "Nanoseconds of a call, the least of {ROUNDS} rounds. In each round all make it in turn. Before each call its tables"
    );
    println!(
        "are restored, outside the time, and are the same in each round: caches and branch prediction are warm. Nothing is"
    );
    println!("subtracted: the clock's own {} ns are in each time.", clock());
    println!("  proved  the exported calls");
    println!("  tuned   Rust by hand with the same checks of the same tables");
    println!("  floor   the same Rust without any check of the tables, which it trusts to be sound; its open is the tuned one");
}

fn print_noise(rows: &[Row]) {
    let mut noises: Vec<f64> = rows.iter().map(Row::noise).collect();
    noises.sort_by(f64::total_cmp);
    let (middle, most) = (noises[noises.len() / 2], noises[noises.len() - 1]);
    println!(
        "A third of the rounds gives ratios that differ by at most {most:.1} %, in half of the rows by at most {middle:.1} %."
    );
}

fn compare() {
    println!();
    println!("Tables of {MOST_RECORDS} records, all hours open. Where a submit comes one of them is free, since a full table would refuse it.");
    println!("                            waiting  clients   proved    tuned    floor  proved:tuned  proved:floor");
    let rows = measure([1, MOST_CLIENTS].into_iter().flat_map(calls));
    for row in &rows {
        let Head { setup, waiting, .. } = row.timed.tables.head;
        let [proved, tuned, floor] = row.least();
        let [to_tuned, to_floor] = ratios(row.least());
        print!(
            "{:28}{waiting:7}  {:7} {proved:8.0} {tuned:8.0} {floor:8.0}",
            row.timed.name, setup.clients
        );
        println!("  {to_tuned:12.2}  {to_floor:12.2}");
    }
    print_noise(&rows);
}

fn compare_with_hours() {
    println!();
    println!("Tables of {MOST_RECORDS} records, every second hour closed, and deadlines in closed hours too.");
    println!("                        slots an hour  clients   proved    tuned    floor  proved:tuned  proved:floor");
    let sizes = PER_HOUR.map(|slots_per_hour| [(slots_per_hour, 1), (slots_per_hour, MOST_CLIENTS)]);
    let timed = sizes
        .into_iter()
        .flatten()
        .flat_map(|(slots_per_hour, clients)| calls_with_hours(slots_per_hour, clients));
    let rows = measure(timed);
    for row in &rows {
        let Setup {
            clients, slots_per_hour, ..
        } = row.timed.tables.head.setup;
        let [proved, tuned, floor] = row.least();
        let [to_tuned, to_floor] = ratios(row.least());
        print!(
            "{:28}{slots_per_hour:9}  {clients:7} {proved:8.0} {tuned:8.0} {floor:8.0}",
            row.timed.name
        );
        println!("  {to_tuned:12.2}  {to_floor:12.2}");
    }
    print_noise(&rows);
}

fn grow() {
    println!();
    println!("Tables of other lengths, {CLIENTS} clients, all hours open. All records wait, but for one that is free where a submit comes.");
    println!("                                       nanoseconds            nanoseconds a record");
    println!(
        "                            records   proved    tuned    floor   proved    tuned    floor  proved:tuned  proved:floor"
    );
    let rows = measure(growing(&LENGTHS, CLIENTS));
    for row in &rows {
        let records = row.timed.tables.waiting.len();
        let [proved, tuned, floor] = row.least();
        let [to_tuned, to_floor] = ratios(row.least());
        let a_record = row.least().map(|least| least / records as f64);
        print!("{:28}{records:7} {proved:8.0} {tuned:8.0} {floor:8.0}", row.timed.name);
        print!(" {:8.2} {:8.2} {:8.2}", a_record[0], a_record[1], a_record[2]);
        println!("  {to_tuned:12.2}  {to_floor:12.2}");
    }
    print_noise(&rows);
}

fn main() {
    let argument = std::env::args().nth(1);
    match argument.as_deref() {
        None => {
            agree();
            print_method();
            compare();
            compare_with_hours();
            grow();
        }
        Some("agree") => agree(),
        Some(other) => fail(&format!("no such argument: {other}")),
    }
}
