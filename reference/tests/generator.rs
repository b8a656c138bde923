//! The generator: deterministic, mostly valid programs, every answer occurs.
use reference::drive::drive;
use reference::flat::{read, write, LEAST_TEXT};
use reference::flatten::{flatten, pebble, LEAST_WORK};
use reference::generate::programs::program;
use reference::generate::random::Random;
use reference::generate::stream;
use reference::netlist::{Netlist, LEAST_NETLIST};

#[test]
fn deterministic_from_the_seed() {
    assert_eq!(stream(5, 60), stream(5, 60));
    assert_ne!(stream(5, 60), stream(6, 60));
    // A longer stream begins with the shorter.
    assert!(stream(5, 80).starts_with(&stream(5, 60)));
}

#[test]
fn programs_are_mostly_valid() {
    let mut random = Random::new(77);
    let (mut accepted, mut gates, mut steps) = (0, 0, 0);
    for _ in 0..500 {
        let text = program(&mut random);
        let mut words = vec![0; LEAST_NETLIST];
        let answer = flatten(text.as_bytes(), &mut vec![0; LEAST_WORK], &mut words);
        if answer.number == 0 {
            accepted += 1;
            gates += Netlist::from_words(&words).unwrap().gates.len();
            steps += answer.steps;
        }
    }
    println!(
        "{accepted} of 500, {} gates and {} steps on average",
        gates / accepted,
        steps as usize / accepted
    );
    assert!(accepted >= 425);
}

#[test]
fn flat_texts_of_programs() {
    // Read gives the netlist back, and so does flattening the flat text if
    // it declares no more than 48 names.
    let mut random = Random::new(99);
    let mut again = 0;
    for _ in 0..300 {
        let flat = pebble(program(&mut random).as_bytes());
        let mut words = vec![0; LEAST_NETLIST];
        if read(&flat, &mut words) != 0 {
            assert!(flat.starts_with(b"refused"));
            continue;
        }
        let mut text = vec![0; LEAST_TEXT];
        assert_eq!(write(&words, &mut text), (0, flat.len()));
        assert_eq!(text[..flat.len()], flat);
        let mut made = vec![0; LEAST_NETLIST];
        let answer = flatten(&flat, &mut vec![0; LEAST_WORK], &mut made);
        if words[2] <= 48 {
            again += 1;
            assert_eq!((answer.number, answer.steps, made), (0, words[3] as u32, words));
        } else {
            assert!(answer.number == 5 || answer.number == 2);
        }
    }
    assert!(again > 100);
}

#[test]
fn every_answer_occurs() {
    let printed = String::from_utf8(drive(&stream(1, 3000))).unwrap();
    let mut seen = [0; 21];
    let mut answers = 0;
    for line in printed.lines() {
        let words: Vec<&str> = line.split(' ').collect();
        if let ["flatten" | "run" | "write" | "read", number, ..] = words[..] {
            seen[number.parse::<usize>().unwrap()] += 1;
            answers += 1;
        }
        assert_ne!(line, "drive: bad command");
    }
    assert_eq!(answers, 3000);
    assert!(seen.iter().all(|&count| count > 0), "{seen:?}");
}
