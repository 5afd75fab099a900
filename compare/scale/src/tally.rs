//! How many inputs were compared, how many differ, and the smallest of those.

use crate::input::Input;

#[derive(Default)]
pub struct Tally {
    inputs: usize,
    differ: usize,
    smallest: Option<Differing>,
}

/// An input on which the two sides differ.
struct Differing {
    size: usize,
    line: String,
    found: Vec<String>,
}

impl Differing {
    /// The smaller comes first; of two of one size, the one whose line is shorter.
    fn order(&self) -> (usize, usize) {
        (self.size, self.line.len())
    }
}

impl Tally {
    pub fn compare(&mut self, input: &impl Input) {
        self.inputs += 1;
        let found = input.compare().0;
        if found.is_empty() {
            return;
        }
        self.differ += 1;
        let differing = Differing {
            size: input.size(),
            line: input.to_string(),
            found,
        };
        let smallest = self.smallest.take().into_iter();
        self.smallest = smallest.chain([differing]).min_by_key(Differing::order);
    }

    /// The tally of both.
    pub fn with(self, other: Tally) -> Tally {
        let both = [self.smallest, other.smallest];
        Tally {
            inputs: self.inputs + other.inputs,
            differ: self.differ + other.differ,
            smallest: both.into_iter().flatten().min_by_key(Differing::order),
        }
    }

    pub fn agrees(&self) -> bool {
        self.differ == 0
    }

    /// A line of the table.
    pub fn print(&self, kind: &str) {
        println!("{kind:<64} {:>10} {:>11}", self.inputs, self.differ);
    }

    pub fn print_smallest(&self) {
        if let Some(Differing { line, found, .. }) = &self.smallest {
            println!("the smallest input that differs:\n{line}");
            for difference in found {
                println!("  {difference}");
            }
        }
    }
}
