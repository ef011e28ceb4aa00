//! Times the proved library's calls beside the independent Rust code and the model, and the
//! bench's lines beside the model's, and counts the stack that the calls take. With a task and a
//! number it makes that many calls of the library's row alone, for callgrind to count.

mod chip;
mod lines;
mod sectors;
mod stack;
mod timing;

use std::process::ExitCode;

fn main() -> ExitCode {
    let words: Vec<String> = std::env::args().skip(1).collect();
    if words.is_empty() {
        sectors::print();
        chip::print();
        lines::print();
        stack::print();
        return ExitCode::SUCCESS;
    }
    let calls = words.get(1).and_then(|number| number.parse().ok());
    match calls {
        Some(calls) if words.len() == 2 && repeat(&words[0], calls) => ExitCode::SUCCESS,
        _ => {
            let tasks = [sectors::tasks(), chip::tasks()].concat();
            eprintln!("usage: measure [TASK CALLS]; TASK is one of: {}", tasks.join("; "));
            ExitCode::from(2)
        }
    }
}

fn repeat(task: &str, calls: u32) -> bool {
    sectors::repeat(task, calls) || chip::repeat(task, calls)
}
