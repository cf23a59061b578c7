//! The tables in Markdown: prices, growth, stack and code.

use crate::cases::Case;
use crate::lent::Work;
use crate::{check, count, size, stack};

/// Above this, a price is marked.
const DEAR: f64 = 1.25;

/// The prices of a case in instructions.
struct Price<'a> {
    case: &'a Case,
    ours: f64,
    reference: f64,
    record: Option<f64>,
}

/// Prints all tables, after a look whether both answer alike.
pub fn print(cases: &[Case]) -> Result<(), String> {
    check::alike(cases)?;
    let prices = prices(cases)?;
    print_method();
    print_prices(&prices);
    print_growth(&prices);
    print_stack(cases);
    let objects = size::objects()?;
    print_size(&objects, size::kinds(&objects)?);
    Ok(())
}

fn prices(cases: &[Case]) -> Result<Vec<Price<'_>>, String> {
    let Some(any) = cases.first() else {
        return Ok(Vec::new());
    };
    let empty = count::round("nobody", any.name, any.size)?;
    cases.iter().map(|case| price(case, empty)).collect()
}

/// Prices a case without what a round of the loop costs by itself.
fn price(case: &Case, empty: f64) -> Result<Price<'_>, String> {
    eprintln!("bench: {} {}", case.name, case.size);
    let of = |who| count::round(who, case.name, case.size).map(|round| round - empty);
    let record = case.function.record.map(|_| of("record")).transpose()?;
    Ok(Price { case, ours: of("ours")?, reference: of("reference")?, record })
}

/// Prints how the numbers are made, from the numbers that make them.
fn print_method() {
    let (fewer, more) = (count::FEWER, count::MORE);
    println!("Instructions are counted by callgrind: each call is made {fewer} and {more} times, and the difference");
    println!("is shared out over the calls between. What a round of the loop costs without a call, with the record");
    println!("laid back as it was, is taken off; passing the arguments is in the price. Ours and the reference work");
    println!("on the same lent bytes, the last column on a record of the reference's own, with no image to read and");
    println!("write. A ratio over {DEAR} is in bold.\n");
}

fn print_prices(prices: &[Price]) {
    println!("## Instructions of one call\n");
    println!("| call | bytes | ours | reference | ratio | reference, its own record |");
    println!("|---|---:|---:|---:|---:|---:|");
    for Price { case, ours, reference, record } in prices {
        let record = record.map_or("-".into(), |record| format!("{record:.0}"));
        let ratio = if *reference > 0.0 { marked(ours / reference) } else { "-".into() };
        println!("| {} | {} | {ours:.0} | {reference:.0} | {ratio} | {record} |", case.told, case.size);
    }
    println!();
}

fn marked(ratio: f64) -> String {
    if ratio > DEAR { format!("**{ratio:.2}**") } else { format!("{ratio:.2}") }
}

/// Prints what each further byte costs where a call has two sizes.
fn print_growth(prices: &[Price]) {
    println!("## Growth\n");
    println!("The same prices by the size of the packet or body, and the increase with each byte.\n");
    println!("| call | bytes | ours | ours, per byte | reference | reference, per byte |");
    println!("|---|---:|---:|---:|---:|---:|");
    for pair in prices.windows(2) {
        let [less, more] = pair else { continue };
        if less.case.name != more.case.name {
            continue;
        }
        let bytes = (more.case.size - less.case.size) as f64;
        let (ours, reference) = ((more.ours - less.ours) / bytes, (more.reference - less.reference) / bytes);
        print!("| {} | {} to {} ", less.case.told, less.case.size, more.case.size);
        print!("| {:.0} to {:.0} | {ours:.1} ", less.ours, more.ours);
        println!("| {:.0} to {:.0} | {reference:.1} |", less.reference, more.reference);
    }
    println!();
}

/// Prints the most stack that each function takes over its cases.
fn print_stack(cases: &[Case]) {
    println!("## Bytes of stack\n");
    println!("From the caller's stack pointer down to the deepest byte that a call writes, the most over all cases.\n");
    println!("| function | ours | reference |");
    println!("|---|---:|---:|");
    let mut names: Vec<&str> = Vec::new();
    for case in cases {
        let name = case.function.name;
        if !names.contains(&name) {
            names.push(name);
            let most = |who: fn(&Case) -> Work| {
                let of_this = cases.iter().filter(|case| case.function.name == name);
                of_this.map(|case| stack::taken(who(case), &case.lent)).fold(0, usize::max)
            };
            println!("| `{name}` | {} | {} |", most(|case| case.function.ours), most(|case| case.function.reference));
        }
    }
    println!();
}

fn print_size(objects: &[size::Object], kinds: u64) {
    println!("## Bytes of the archive\n");
    println!(
        "Sections that are loaded, by `size`; the caller's program may leave out functions that it does not call.\n"
    );
    println!("| object | code | constants | data and zeros |");
    println!("|---|---:|---:|---:|");
    let (own, others): (Vec<_>, Vec<_>) = objects.iter().partition(|object| object.name.starts_with(size::LIBRARY));
    print_sum("the library", &own);
    print_sum("other objects", &others);
    print_sum("all", &objects.iter().collect::<Vec<_>>());
    println!("| of these, the table of byte kinds | 0 | {kinds} | 0 |");
}

fn print_sum(name: &str, objects: &[&size::Object]) {
    let sum = |of: fn(&size::Object) -> u64| objects.iter().map(|object| of(object)).sum::<u64>();
    let (code, constants) = (sum(|object| object.code), sum(|object| object.constants));
    println!("| {name} | {code} | {constants} | {} |", sum(|object| object.memory));
}
