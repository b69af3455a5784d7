//! The sample is what the program prints, and has something of everything.

use std::process::Command;

const SAMPLE: &str = include_str!("../sample.txt");

struct Line {
    operation: char,
    answer: char,
    number: u64,
    head: u64,
    tail: u64,
}

fn lines() -> Vec<Line> {
    let line = |text: &'static str| {
        let fields: Vec<&str> = text.split(' ').collect();
        let number = |i: usize| fields[i].parse().expect("a number");
        let letter = |i: usize| fields[i].chars().next().expect("a letter");
        Line { operation: letter(0), answer: letter(1), number: number(2), head: number(3), tail: number(4) }
    };
    SAMPLE.lines().map(line).collect()
}

/// The proved program crates/replay is held to this file by the gate.
#[test]
fn the_proved_replay_is_held_to_the_sample() {
    assert_eq!(include_str!("../../../crates/replay/stdout"), SAMPLE);
}

#[test]
fn the_program_prints_the_sample() {
    let output = Command::new(env!("CARGO_BIN_EXE_sample")).output().expect("runs");
    assert_eq!(String::from_utf8(output.stdout).expect("plain text"), SAMPLE);
}

#[test]
fn about_500_operations_with_every_kind_and_every_answer() {
    let lines = lines();
    assert!((500..550).contains(&lines.len()));
    for operation in "ABCDEFGHIJKL0123456789:;<=hntro".chars() {
        assert!(lines.iter().any(|line| line.operation == operation), "operation {}", operation);
    }
    for answer in "cpfhbro".chars() {
        assert!(lines.iter().any(|line| line.answer == answer), "answer {}", answer);
    }
}

/// By how much the accepted appends pass the ring's end: less than nothing, nothing, or more.
#[test]
fn appends_end_before_at_and_past_the_ring_s_end() {
    let (mut ring, mut before, mut at, mut past) = (0, 0, 0, 0);
    for line in lines() {
        if line.operation.is_ascii_uppercase() {
            ring = line.number + 1;
        }
        if line.answer == 'p' && line.tail > line.number {
            match (line.number % ring + line.tail - line.number).cmp(&ring) {
                std::cmp::Ordering::Less => before += 1,
                std::cmp::Ordering::Equal => at += 1,
                std::cmp::Ordering::Greater => past += 1,
            }
        }
        assert!(line.tail - line.head < ring);
    }
    assert!(before >= 20 && at >= 10 && past >= 10, "{} before, {} at, {} past", before, at, past);
}
