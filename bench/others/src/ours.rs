//! The library beside other libraries; `program` has its calls.

#[path = "../../src/inputs.rs"]
mod inputs;
#[path = "../../src/linked.rs"]
mod linked;
mod program;
#[path = "../../src/time.rs"]
mod time;

use inputs::Point;
use linked::Rows;

struct Ours {
    lent: Rows,
}

impl program::Library for Ours {
    type Contour = Vec<i32>;
    type Function = linked::Function;
    const FUNCTIONS: [(&'static str, Self::Function); 8] = linked::FUNCTIONS;

    fn made(points: &[Point]) -> Vec<i32> {
        inputs::numbers(points)
    }

    fn answer(&mut self, function: Self::Function, contour: &Vec<i32>) -> i64 {
        function(contour, &mut self.lent)
    }

    fn written(&mut self, name: &str, function: Self::Function, contour: &Vec<i32>) -> String {
        let reply = refusal(contour);
        if reply != 0 {
            return format!("refused, reply {reply}");
        }
        let answer = function(contour, &mut self.lent);
        match name {
            "simplified" | "despiked" => {
                let kept = self.lent.out.chunks_exact(2).take(answer as usize);
                program::shown(kept.map(|p| Point::new(p[0], p[1])))
            }
            _ => answer.to_string(),
        }
    }
}

/// The reply of a verdict: 0, or the one with which every function refuses the contour.
fn refusal(contour: &[i32]) -> u32 {
    // SAFETY: the row is a slice.
    unsafe { linked::raw::ukm_is_simple(contour.as_ptr(), contour.len()) }.reply
}

fn main() {
    let words: Vec<String> = std::env::args().skip(1).collect();
    let words: Vec<&str> = words.iter().map(String::as_str).collect();
    program::run(&mut Ours { lent: Rows::new(65_536) }, &words);
}
