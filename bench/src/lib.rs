//! The five calls and the session program by hand, for the proved ones to be held to and timed beside.
pub mod agree;
pub mod busy;
pub mod by_hand;
pub mod cases;
pub mod damage;
pub mod measure;
pub mod queues;
pub mod serve;
pub mod timed;

pub fn fail(message: &str) -> ! {
    println!("{message}");
    std::process::exit(1);
}
