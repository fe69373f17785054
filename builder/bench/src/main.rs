//! The proved library measured beside safe Rust, all in one run. Prints the tables and writes them, with the plot,
//! into the folder that is named, as tables.md and speed.svg. What is measured is first compared with plain Rust.

mod check;
mod masks;
mod pages;
mod paper;
mod plot;
mod report;
mod rivals;
mod scans;
mod sizes;
mod trials;
mod turns;
mod walks;

use report::Report;
use std::path::Path;
use std::{env, fs, io};

fn main() -> io::Result<()> {
    let Some(folder) = env::args_os().nth(1) else {
        return Err(io::Error::other("name the folder to write to"));
    };
    let compared = check::all();
    println!("{compared} comparisons with plain Rust agree\n");
    let mut report = Report::default();
    let times = scans::measure();
    scans::tell(&times, &mut report);
    sizes::measure(&mut report);
    pages::measure(&mut report);
    let text = report.text();
    print!("{text}");
    fs::create_dir_all(&folder)?;
    fs::write(Path::new(&folder).join("tables.md"), text)?;
    fs::write(Path::new(&folder).join("speed.svg"), plot::scans(&times))
}
