//! The archive, behind the pipe of server.c.

use model::device::{Step, Write};
use model::log::{Numbers, Refusal};
use model::subject::{Call, Subject};
use std::collections::{HashMap, VecDeque};
use std::io::{BufReader, Read, Write as _};
use std::process::{Child, ChildStdin, ChildStdout, Command, Stdio};

/// The command that starts the server, word by word, is in this variable of the environment.
const SERVER: &str = "JUDGE_SERVER";

/// What server.c puts into the output before a read.
const UNTOUCHED: u8 = 0xee;

/// How many requests are on their way at once, and how long they may be together. They must fit into the pipe, and so must
/// the answers.
const BATCH: usize = 48;
const BATCH_BYTES: usize = 8192;

/// How many answers to `ask` are kept.
const KEPT: usize = 4096;

#[derive(Clone, Copy, Debug, Default, PartialEq, Eq, Hash)]
pub struct Kept {
    live: u64,
    head: u64,
    tail: u64,
    size: u64,
}

#[derive(Clone, Copy, Debug)]
struct Reply {
    code: u64,
    number: u64,
    other: u64,
    steps: u64,
    handle: Kept,
}

/// What is asked of the server, by its number.
#[derive(Clone, Copy, Debug, PartialEq, Eq)]
enum What {
    SetUp = 0,
    Open = 1,
    Append = 2,
    Advance = 3,
    Read = 4,
    Ask = 5,
}

/// A request: as the server takes it, and what its answer is to be read by.
#[derive(PartialEq, Eq)]
struct Request {
    what: What,
    medium: usize,
    output: usize,
    text: Vec<u8>,
}

/// An answer of the server: the reply, the steps that were carried out, the medium that they left, whether a step was
/// refused, and the output.
struct Answer {
    reply: Reply,
    steps: Vec<Step>,
    refused: bool,
    medium: Vec<u8>,
    output: Vec<u8>,
}

pub struct Archive {
    to: ChildStdin,
    from: BufReader<ChildStdout>,
    server: Child,
    /// Requests that are to come. The first of them are sent already.
    announced: VecDeque<Request>,
    sent: usize,
    /// What asking answered with each handle that came back, by the handle and the length of its medium.
    asked: HashMap<(Kept, usize), Reply>,
}

impl Request {
    fn new(what: What, medium: &[u8], handle: Kept, argument: u64, bytes: &[u8], output: usize) -> Request {
        let numbers = [what as u64, handle.live, handle.head, handle.tail, handle.size, argument];
        let lengths = [medium.len() as u64, bytes.len() as u64, output as u64];
        let mut text = Vec::with_capacity(72 + medium.len() + bytes.len());
        for number in numbers.into_iter().chain(lengths) {
            text.extend_from_slice(&number.to_le_bytes());
        }
        text.extend_from_slice(medium);
        text.extend_from_slice(bytes);
        Request { what, medium: medium.len(), output, text }
    }

    fn open(medium: &[u8]) -> Request {
        Request::new(What::Open, medium, Kept::default(), 0, &[], 0)
    }

    fn append(medium: &[u8], handle: Kept, bytes: &[u8]) -> Request {
        Request::new(What::Append, medium, handle, 0, bytes, 0)
    }

    fn advance(medium: &[u8], handle: Kept, to: u64) -> Request {
        Request::new(What::Advance, medium, handle, to, &[], 0)
    }

    fn read(medium: &[u8], handle: Kept, position: u64, length: u64) -> Request {
        Request::new(What::Read, medium, handle, position, &[], length as usize)
    }

    fn changes(&self) -> bool {
        matches!(self.what, What::SetUp | What::Append | What::Advance)
    }
}

impl Archive {
    pub fn start() -> Archive {
        Archive::wrong(0)
    }

    /// The archive with one of the faults that server.c knows.
    pub fn wrong(fault: u32) -> Archive {
        let command = std::env::var(SERVER).unwrap_or_else(|_| panic!("{} names no command", SERVER));
        let mut words = command.split_whitespace();
        let mut server = Command::new(words.next().expect("a command"))
            .args(words)
            .arg(fault.to_string())
            .stdin(Stdio::piped())
            .stdout(Stdio::piped())
            .spawn()
            .expect("the server starts");
        let to = server.stdin.take().expect("a pipe");
        let from = BufReader::with_capacity(1 << 16, server.stdout.take().expect("a pipe"));
        Archive { to, from, server, announced: VecDeque::new(), sent: 0, asked: HashMap::new() }
    }

    fn call(&mut self, request: Request) -> Answer {
        if self.announced.front() != Some(&request) {
            // Answers that are on their way are to requests that do not come after all.
            while self.sent > 0 {
                self.next_announced();
            }
            self.announced.clear();
            self.to.write_all(&request.text).expect("the server reads");
            return self.answer(&request);
        }
        if self.sent <= BATCH / 2 {
            self.send_announced();
        }
        self.next_announced()
    }

    fn send_announced(&mut self) {
        let mut batch = vec![];
        while self.sent < self.announced.len().min(BATCH) && batch.len() < BATCH_BYTES {
            batch.extend_from_slice(&self.announced[self.sent].text);
            self.sent += 1;
        }
        self.to.write_all(&batch).expect("the server reads");
    }

    fn next_announced(&mut self) -> Answer {
        let request = self.announced.pop_front().expect("announced");
        self.sent -= 1;
        self.answer(&request)
    }

    fn number(&mut self) -> u64 {
        let mut bytes = [0; 8];
        self.from.read_exact(&mut bytes).expect("the server answers");
        u64::from_le_bytes(bytes)
    }

    fn bytes(&mut self, length: usize) -> Vec<u8> {
        let mut bytes = vec![0; length];
        self.from.read_exact(&mut bytes).expect("the server answers");
        bytes
    }

    fn reply(&mut self) -> Reply {
        let [code, number, other, steps] = [self.number(), self.number(), self.number(), self.number()];
        let [live, head, tail, size] = [self.number(), self.number(), self.number(), self.number()];
        Reply { code, number, other, steps, handle: Kept { live, head, tail, size } }
    }

    fn answer(&mut self, request: &Request) -> Answer {
        let mut answer = Answer { reply: self.reply(), steps: vec![], refused: false, medium: vec![], output: vec![] };
        if request.changes() {
            self.take_steps(request, &mut answer);
            answer.medium = self.bytes(request.medium);
        }
        if answer.reply.code == 0 && (request.changes() || request.what == What::Open) {
            let numbers = self.reply();
            if self.asked.len() >= KEPT {
                self.asked.clear();
            }
            self.asked.insert((answer.reply.handle, request.medium), numbers);
        }
        answer.output = self.bytes(request.output);
        answer
    }

    fn take_steps(&mut self, request: &Request, answer: &mut Answer) {
        for _ in 0..self.number() {
            let [code, at, length] = [self.number(), self.number(), self.number()];
            let fits = at.checked_add(length).map_or(false, |end| end <= request.medium as u64);
            match code {
                0 if fits => {
                    let bytes = self.bytes(length as usize);
                    answer.steps.push(Step::Put(Write { at: at as usize, bytes }));
                }
                1 => answer.steps.push(Step::Flush),
                2 => {
                    answer.refused = true;
                    return;
                }
                _ => panic!("the archive carries out a step of code {} at {} with {} bytes", code, at, length),
            }
        }
    }
}

impl Drop for Archive {
    fn drop(&mut self) {
        let _ = self.server.kill();
        let _ = self.server.wait();
    }
}

/// The reply, or the refusal that it is. A refusal has no steps.
fn answered(reply: Reply) -> Result<Reply, Refusal> {
    let Reply { code, number, other, handle, .. } = reply;
    let refusal = match code {
        0 => return Ok(reply),
        1 => Refusal::TooShort { required: number },
        2 => Refusal::BadSelector { found: number },
        3 => Refusal::BadChecksum { second: handle.live == 1, stored: number, computed: other },
        4 => Refusal::SizeZero,
        5 => Refusal::HeadPastTail { head: number, tail: other },
        6 => Refusal::TooFull { head: number, tail: other, size: handle.size },
        7 => Refusal::WrongSize { size: number, ring: other },
        8 => Refusal::NoRoom { room: number },
        9 => Refusal::BeforeHead { head: number },
        10 => Refusal::BeyondTail { tail: number },
        11 => Refusal::BadHandle,
        _ => Refusal::Strange { code },
    };
    Err(if reply.steps == 0 { refusal } else { Refusal::Strange { code } })
}

impl Answer {
    /// What an operation that writes did.
    fn carried_out(self, medium: &mut [u8], steps: &mut Vec<Step>) -> Result<Reply, Refusal> {
        medium.copy_from_slice(&self.medium);
        steps.extend(self.steps);
        if self.refused {
            return Err(Refusal::Strange { code: 2 });
        }
        answered(self.reply)
    }
}

impl Subject for Archive {
    type Handle = Kept;

    fn setup_steps(&mut self, medium: &mut [u8], steps: &mut Vec<Step>) -> Result<u64, Refusal> {
        let answer = self.call(Request::new(What::SetUp, medium, Kept::default(), 0, &[], 0));
        answer.carried_out(medium, steps).map(|reply| reply.number)
    }

    fn open(&mut self, medium: &[u8]) -> Result<Kept, Refusal> {
        answered(self.call(Request::open(medium)).reply).map(|reply| reply.handle)
    }

    fn append_steps(
        &mut self,
        medium: &mut [u8],
        handle: &mut Kept,
        bytes: &[u8],
        steps: &mut Vec<Step>,
    ) -> Result<u64, Refusal> {
        let reply = self.call(Request::append(medium, *handle, bytes)).carried_out(medium, steps)?;
        *handle = reply.handle;
        Ok(reply.number)
    }

    fn advance_steps(
        &mut self,
        medium: &mut [u8],
        handle: &mut Kept,
        to: u64,
        steps: &mut Vec<Step>,
    ) -> Result<(), Refusal> {
        let reply = self.call(Request::advance(medium, *handle, to)).carried_out(medium, steps)?;
        *handle = reply.handle;
        Ok(())
    }

    /// A refused read must leave the output as it was.
    fn read(&mut self, medium: &[u8], handle: &Kept, position: u64, length: u64) -> Result<Vec<u8>, Refusal> {
        let Answer { reply, output, .. } = self.call(Request::read(medium, *handle, position, length));
        match answered(reply) {
            Ok(_) => Ok(output),
            Err(_) if output.iter().any(|byte| *byte != UNTOUCHED) => Err(Refusal::Strange { code: reply.code }),
            Err(refusal) => Err(refusal),
        }
    }

    fn ask(&mut self, medium: &[u8], handle: &Kept) -> Result<Numbers, Refusal> {
        let reply = match self.asked.get(&(*handle, medium.len())) {
            Some(reply) => *reply,
            None => self.call(Request::new(What::Ask, medium, *handle, 0, &[], 0)).reply,
        };
        let reply = answered(reply)?;
        Ok(Numbers { head: reply.handle.head, tail: reply.handle.tail, capacity: reply.number })
    }

    fn announce(&mut self, medium: &[u8], handle: Option<&Kept>, call: Call) {
        let handle = handle.copied().unwrap_or_default();
        self.announced.push_back(match call {
            Call::Open => Request::open(medium),
            Call::Append(bytes) => Request::append(medium, handle, &bytes),
            Call::Advance(to) => Request::advance(medium, handle, to),
            Call::Read(position, length) => Request::read(medium, handle, position, length),
        });
    }
}
