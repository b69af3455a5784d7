//! The oracle's sample, replayed with the model by what tests/oracle/README.md says of its format and nothing else: from the
//! first column all the rest follows.

use model::crc::crc64;
use model::log::{ask, open, plan_advance, plan_append, plan_setup, read, Handle, Plan, Refusal};

const SAMPLE: &str = include_str!("../../oracle/sample.txt");

/// The medium and the handle, as a replay keeps them.
struct Replay {
    medium: Vec<u8>,
    handle: Handle,
}

/// The answer's letter and number, and the bytes that a read answered.
type Answer = (char, u64, Vec<u8>);

impl Replay {
    fn set_up(ring: u8) -> (Replay, Answer) {
        let medium: Vec<u8> = (0..72 + ring).collect();
        let plan = plan_setup(medium.len()).expect("long enough");
        let mut replay = Replay { medium, handle: plan.handle };
        replay.carry_out(plan);
        (replay, ('c', u64::from(ring) - 1, vec![]))
    }

    fn carry_out(&mut self, plan: Plan) {
        plan.writes.iter().for_each(|write| write.apply(&mut self.medium));
        self.handle = plan.handle;
    }

    fn append(&mut self, length: u64) -> Answer {
        let tail = self.handle.tail;
        let bytes: Vec<u8> = (tail..tail + length).map(|position| ((7 * position + 1) % 256) as u8).collect();
        match plan_append(self.handle, &bytes, self.medium.len()) {
            Ok(plan) => {
                self.carry_out(plan);
                ('p', tail, vec![])
            }
            Err(Refusal::NoRoom { room }) => ('f', room, vec![]),
            Err(other) => panic!("append: {:?}", other),
        }
    }

    fn advance(&mut self, to: u64) -> Answer {
        match plan_advance(self.handle, to, self.medium.len()) {
            Ok(plan) => {
                self.carry_out(plan);
                ('h', to, vec![])
            }
            Err(Refusal::BeyondTail { tail }) => ('b', tail, vec![]),
            Err(other) => panic!("advance: {:?}", other),
        }
    }

    fn perform(&mut self, operation: u8) -> Answer {
        let Handle { head, tail, .. } = self.handle;
        match operation {
            b'0'..=b'=' => self.append(u64::from(operation - b'0')),
            b'h' => self.advance(head),
            b'n' => self.advance(head + 1),
            b't' => self.advance(tail),
            b'r' => {
                let bytes = read(self.handle, &self.medium, head, tail - head).expect("within the log");
                ('r', bytes.len() as u64, bytes)
            }
            b'o' => {
                self.handle = open(&self.medium).expect("a log");
                ('o', self.handle.size - 1, vec![])
            }
            _ => panic!("no operation {}", operation),
        }
    }

    fn line(&self, operation: u8, (letter, number, bytes): Answer) -> String {
        let numbers = ask(self.handle, self.medium.len()).expect("a log");
        let checksum = crc64(&[&self.medium[..], &bytes[..]].concat());
        let operation = operation as char;
        format!("{} {} {} {} {} {:016x}", operation, letter, number, numbers.head, numbers.tail, checksum)
    }
}

#[test]
fn the_model_prints_the_sample() {
    let mut replay = None;
    for line in SAMPLE.lines() {
        let operation = line.as_bytes()[0];
        let answer = match operation {
            b'A'..=b'L' => {
                let (fresh, answer) = Replay::set_up(operation - b'A' + 1);
                replay = Some(fresh);
                answer
            }
            _ => replay.as_mut().expect("set up first").perform(operation),
        };
        assert_eq!(replay.as_ref().expect("set up").line(operation, answer), line);
    }
}
