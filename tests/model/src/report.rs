//! What the test programs print: a line for each part, and at the end 'N passed, M failed'.

use std::time::Instant;

#[derive(Default)]
pub struct Report {
    passed: u32,
    failed: u32,
}

impl Report {
    pub fn new() -> Report {
        Report::default()
    }

    /// Runs one part. It answers what it tried, or what went wrong.
    pub fn part(&mut self, name: &str, part: impl FnOnce() -> Result<String, String>) {
        let start = Instant::now();
        let answer = part();
        let seconds = start.elapsed().as_secs_f32();
        let (word, text) = match &answer {
            Ok(tried) => ("ok", tried),
            Err(what) => ("WRONG", what),
        };
        println!("{:<5} {} ({:.1} s): {}", word, name, seconds, text);
        self.passed += u32::from(answer.is_ok());
        self.failed += u32::from(answer.is_err());
    }

    /// Prints the last line and ends the program.
    pub fn end(self) -> ! {
        println!("{} passed, {} failed", self.passed, self.failed);
        std::process::exit((self.failed > 0).into())
    }
}
