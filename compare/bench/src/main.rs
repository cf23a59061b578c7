//! Prices the calls of the archive and of the reference: `bench table`, or N calls with `bench one WHO CALL SIZE N`.
//! WHO is `ours`, `reference`, `record` (the reference on its own record) or `nobody` (the loop without a call).

mod archive;
mod cases;
mod check;
mod count;
mod lent;
mod second;
mod size;
mod stack;
mod table;

use cases::Case;
use lent::Work;
use std::process::ExitCode;

fn main() -> ExitCode {
    let words: Vec<String> = std::env::args().skip(1).collect();
    let words: Vec<&str> = words.iter().map(String::as_str).collect();
    let done = match words[..] {
        ["table"] => table::print(&cases::all()),
        ["one", who, name, size, times] => one(who, name, size, times),
        _ => Err("bench table, or bench one WHO CALL SIZE N".into()),
    };
    match done {
        Ok(()) => ExitCode::SUCCESS,
        Err(error) => {
            eprintln!("bench: {error}");
            ExitCode::from(2)
        }
    }
}

/// Makes the calls of one case.
fn one(who: &str, name: &str, size: &str, times: &str) -> Result<(), String> {
    let (Ok(size), Ok(times)) = (size.parse::<usize>(), times.parse::<u64>()) else {
        return Err("SIZE and N are numbers".into());
    };
    let cases = cases::all();
    let case = cases.iter().find(|case| case.name == name && case.size == size);
    let case = case.ok_or_else(|| format!("there is no case {name} {size}; those there are: {}", known(&cases)))?;
    let work = work_of(who, case).ok_or_else(|| format!("{who} has no {name}"))?;
    lent::again_and_again(work, &case.lent, times);
    Ok(())
}

fn work_of(who: &str, case: &Case) -> Option<Work> {
    match who {
        "ours" => Some(case.function.ours),
        "reference" => Some(case.function.reference),
        "record" => case.function.record,
        "nobody" => Some(lent::nothing),
        _ => None,
    }
}

fn known(cases: &[Case]) -> String {
    let names: Vec<String> = cases.iter().map(|case| format!("{} {}", case.name, case.size)).collect();
    names.join(", ")
}
