//! `library SEED CALLS [RUNS]`: random calls on the linked library and on the model, compared after each
//! of them. With RUNS that many runs are made, of seeds from SEED on, and it is a failure too
//! if something that is counted happened in none of them. What happened is told on standard error.

use library::{run, Happenings, Linked};
use std::process::ExitCode;

struct Task {
    seed: u64,
    calls: u64,
    runs: Option<u64>,
}

fn main() -> ExitCode {
    let arguments: Vec<String> = std::env::args().skip(1).collect();
    let Some(task) = read_arguments(&arguments) else {
        eprintln!("usage: library SEED CALLS [RUNS]");
        return ExitCode::from(2);
    };
    match task.run() {
        Ok(()) => ExitCode::SUCCESS,
        Err(trouble) => {
            eprintln!("library: {trouble}");
            ExitCode::FAILURE
        }
    }
}

fn read_arguments(arguments: &[String]) -> Option<Task> {
    let (seed, calls, runs) = match arguments {
        [seed, calls] => (seed, calls, None),
        [seed, calls, runs] => (seed, calls, Some(runs)),
        _ => return None,
    };
    let runs = runs.map(|runs| runs.parse()).transpose().ok()?;
    Some(Task { seed: seed.parse().ok()?, calls: calls.parse().ok()?, runs })
}

impl Task {
    fn run(&self) -> Result<(), String> {
        let mut happenings = Happenings::default();
        let runs = self.runs.unwrap_or(1);
        for number in 0..runs {
            let seed = self.seed.wrapping_add(number);
            let happened =
                run(&mut Linked, seed, self.calls).map_err(|difference| format!("seed {seed}: {difference}"))?;
            happenings.absorb(&happened);
        }
        eprint!("{}", happenings.report());
        let missing = happenings.missing();
        if self.runs.is_some() && !missing.is_empty() {
            return Err(format!("never happened: {}", missing.join("; ")));
        }
        eprintln!("{} calls compared, no difference", runs * self.calls);
        Ok(())
    }
}
