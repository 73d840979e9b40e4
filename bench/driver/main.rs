//! Measures the port, most of it against the original in the same process, on the same pictures and verdicts. See ../README.md.

mod boxes;
mod clock;
mod count;
mod dock;
mod explains;
mod growth;
mod play;
mod port;
mod room;
mod stack;
mod tables;
mod time;
#[cfg_attr(not(target_arch = "x86_64"), path = "unwatched.rs")]
mod watch;
mod work;
mod worlds;
mod year;

const USAGE: &str = "driver time ROUNDS
driver customer ROUNDS
driver year steps|run|rust HOURS
driver count TASK port|rust run|steps|table|recount|explain|plain|other
driver table ROUNDS
driver explain ROUNDS
driver boxes ROUNDS
driver count-boxes quick|precise LEVEL
driver growth
driver room
driver stack";

fn main() {
    let words: Vec<String> = std::env::args().skip(1).collect();
    let words: Vec<&str> = words.iter().map(String::as_str).collect();
    let number = |text: &str| text.parse().expect("a number");
    match words[..] {
        ["time", rounds] => time::time(number(rounds)),
        ["customer", rounds] => time::time_customer(number(rounds)),
        ["year", engine, hours] => year::year(engine, number(hours) as u64),
        ["count", name, engine, part] => count::count(name, engine, part),
        ["table", rounds] => tables::time(number(rounds)),
        ["explain", rounds] => explains::time(number(rounds)),
        ["boxes", rounds] => boxes::time(number(rounds)),
        ["count-boxes", kind, level] => boxes::count(kind, level.parse().expect("a level")),
        ["growth"] => growth::growth(),
        ["room"] => room::room(),
        ["stack"] => stack::measure(),
        _ => eprintln!("{USAGE}"),
    }
}
