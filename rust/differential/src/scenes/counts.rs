//! What the scenes reached. That answers are alike shows little if some answer
//! was never among them.

/// The numbers of the document's table, with 0 for accepted.
pub const NUMBERS: usize = 27;

/// How often a call gave each number.
pub type Given = [u64; NUMBERS];

/// A call by its name, what it gave, and the numbers that it can give.
pub type Table<'a> = (&'a str, &'a Given, &'a [usize]);

/// Tells the lines and how often each number was given; whether all that can
/// occur did, and nothing else.
pub fn tell_numbers(scenes: &str, lines: u64, tables: &[Table]) -> bool {
    let calls: u64 = tables.iter().map(|table| table.1.iter().sum::<u64>()).sum();
    eprintln!("{scenes}: {lines} lines, {calls} calls");
    // No test ends at the first that fails: all of them are told.
    let failures = tables.iter().filter(|table| !is_told_well(table)).count();
    failures == 0
}

fn is_told_well((name, given, can): &Table) -> bool {
    let mut well = true;
    eprint!("{name:>17}");
    for (number, &times) in given.iter().enumerate() {
        if times != 0 {
            eprint!("  {number}: {times}");
        }
        if (times != 0) != can.contains(&number) {
            eprint!("  FAILED: {number} was given {times} times");
            well = false;
        }
    }
    eprintln!();
    well
}

/// Tells how often what else is worth seeing was seen; whether all of it was.
pub fn tell_events(names: &[&str], times: &[u64]) -> bool {
    for (name, &times) in names.iter().zip(times) {
        let failed = if times == 0 { "FAILED: " } else { "" };
        eprintln!("{times:>9} times {failed}{name}");
    }
    times.iter().all(|&times| times != 0)
}
