//! Prints how often the generated inputs of a seed meet each answer, and fails
//! if one that must be met is met fewer than 100 times in 100,000.
//!
//! Usage: `hits [SEED [COUNT]]`, by default 1 and 100,000.

use std::process::ExitCode;

use reference::hits::Hits;

fn main() -> Result<ExitCode, std::num::ParseIntError> {
    let mut arguments = std::env::args().skip(1);
    let mut next = |default| arguments.next().map_or(Ok(default), |text| text.parse());
    let (seed, count) = (next(1)?, next(100_000)?);
    let hits = Hits::count(seed, count);
    print!("{hits}");
    let shortfalls = hits.shortfalls(count / 1000);
    for line in &shortfalls {
        println!("too few hits: {line}");
    }
    Ok(ExitCode::from(u8::from(!shortfalls.is_empty())))
}
