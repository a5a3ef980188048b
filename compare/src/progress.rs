//! Shows on stderr how far a comparison is.

use std::io::{IsTerminal, stderr};

pub struct Progress {
    steps: u64,
    done: u64,
    shown: u64,
    on_terminal: bool,
}

impl Progress {
    pub fn new(steps: u64) -> Self {
        Progress {
            steps,
            done: 0,
            shown: 0,
            on_terminal: stderr().is_terminal(),
        }
    }

    /// Counts one step. On a terminal each percent is shown in one line, elsewhere each tenth part
    /// in a line of its own.
    pub fn step(&mut self, cases: u64) {
        self.done += 1;
        let percent = self.done * 100 / self.steps;
        let apart = if self.on_terminal { 1 } else { 10 };
        if percent < self.shown + apart {
            return;
        }
        self.shown = percent;
        if self.on_terminal {
            eprint!("\r{percent:3} %  {cases} cases");
        } else {
            eprintln!("{percent:3} %  {cases} cases");
        }
        if self.on_terminal && self.done == self.steps {
            eprintln!();
        }
    }
}
