//! Reads what `drive` printed and counts the answers, job by job. Fails if one
//! of the numbers never came.

use std::io::{self, Read};
use std::process::ExitCode;

const JOBS: [&str; 4] = ["flatten", "run", "write", "read"];

fn main() -> io::Result<ExitCode> {
    let mut printed = Vec::new();
    io::stdin().lock().read_to_end(&mut printed)?;
    let mut counts = [[0; 21]; JOBS.len()];
    for line in String::from_utf8_lossy(&printed).lines() {
        if let Some((job, number)) = answer(line) {
            counts[job][number] += 1;
        }
    }
    println!("number {}    all", JOBS.map(|job| format!("{job:>8}")).concat());
    let mut never = 0;
    for number in 0..=20 {
        let row = counts.map(|job| job[number]);
        print_row(&number.to_string(), row);
        never += (row == [0; JOBS.len()]) as usize;
    }
    print_row("all", counts.map(|job| job.iter().sum()));
    Ok(if never == 0 { ExitCode::SUCCESS } else { ExitCode::FAILURE })
}

fn print_row(name: &str, row: [usize; JOBS.len()]) {
    let all: usize = row.iter().sum();
    println!("{name:>6} {} {all:>6}", row.map(|count| format!("{count:>8}")).concat());
}

/// The job and the number of an answer's first line. Lines of a written flat
/// text never begin like that.
fn answer(line: &str) -> Option<(usize, usize)> {
    let mut words = line.split(' ');
    let word = words.next()?;
    let job = JOBS.into_iter().position(|job| job == word)?;
    let number = words.next()?.parse().ok()?;
    (number <= 20).then_some((job, number))
}
