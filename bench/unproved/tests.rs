// PROGRAM [WORD] runs the tests of a crate, or those with a word in their names, each on its own.
#[macro_use]
mod kit;

use kit::std::test::{Fail, HostRuntime};

// What a test may return.
trait Outcome {
    fn fault(self) -> Option<std::string::String>;
}

impl Outcome for () {
    fn fault(self) -> Option<std::string::String> {
        None
    }
}

impl Outcome for Result<(), Fail> {
    fn fault(self) -> Option<std::string::String> {
        self.err().map(|fail| fail.0)
    }
}

struct Told {
    word: std::string::String,
    passed: usize,
    failed: usize,
}

impl Told {
    fn run<O: Outcome>(&mut self, name: &str, test: fn(HostRuntime) -> O) {
        if !name.contains(&self.word) {
            return;
        }
        match std::panic::catch_unwind(|| test(HostRuntime).fault()) {
            Ok(None) => self.passed += 1,
            Ok(Some(fault)) => {
                self.failed += 1;
                eprintln!("{name}: {fault}");
            }
            Err(_) => {
                self.failed += 1;
                eprintln!("{name}: panicked");
            }
        }
    }
}

fn main() {
    let mut told = Told { word: std::env::args().nth(1).unwrap_or_default(), passed: 0, failed: 0 };
    run_all(&mut told);
    println!("{} passed, {} failed", told.passed, told.failed);
    std::process::exit(i32::from(told.failed > 0))
}
