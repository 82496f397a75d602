//! Compares the proved packer with its plain twin on random inputs, or times both.

mod calls;
mod figures;
mod memory;
mod numbers;
mod plain;
mod plans;
mod proved;
#[cfg(texts)]
mod reading;
mod scripts;
mod sessions;
mod speed;
#[cfg(texts)]
mod texts;

use std::process::ExitCode;

use calls::Order;
use figures::Tally;
use scripts::Script;

/// The first call whose answer differs, and both answers.
struct Difference {
    call: usize,
    proved: Vec<u32>,
    twin: Vec<Option<u32>>,
}

/// Works a script on the proved library, and compares the words of its answers with the twin's.
fn difference(script: &Script) -> Option<Difference> {
    let orders: Vec<Order> = script.calls.iter().map(|call| call.order()).collect();
    let found = proved::run(script.sky, &orders, script.expected.len());
    let same = |(found, expected): (&u32, &Option<u32>)| expected.is_none_or(|expected| expected == *found);
    let alike = found.iter().zip(&script.expected).take_while(|&pair| same(pair)).count();
    if alike == found.len() && alike == script.expected.len() {
        return None;
    }
    let call = script.ends.iter().position(|&end| end > alike).unwrap_or(script.calls.len());
    let start = if call == 0 { 0 } else { script.ends[call - 1] };
    let twin = script.expected[start..script.ends.get(call).copied().unwrap_or(start)].to_vec();
    let proved = found.iter().skip(start).take(twin.len()).copied().collect();
    Some(Difference { call, proved, twin })
}

/// Prints the script up to the call that differs, and both answers; a word that the rules leave free is `-`.
fn print(script: &Script, difference: &Difference) {
    println!("{}", script.sky);
    script.calls.iter().take(difference.call + 1).for_each(|call| println!("{call}"));
    let proved: Vec<String> = difference.proved.iter().map(u32::to_string).collect();
    let twin: Vec<String> = difference.twin.iter().map(|word| word.map_or("-".into(), |word| word.to_string())).collect();
    println!("proved: {}\ntwin:   {}", proved.join(" "), twin.join(" "));
}

fn compare(name: &str, count: u64, make: impl Fn(u64) -> Script) -> Result<(), ()> {
    let mut tally = Tally::default();
    for seed in 0..count {
        let script = make(seed);
        let told = script.calls.iter().zip(&script.refusals).filter(|(call, _)| !call.gathers());
        told.for_each(|(_, &number)| tally.add(number));
        if let Some(difference) = difference(&script) {
            println!("{name}, seed {seed}: the answers differ at the last line of this script");
            print(&script, &difference);
            return Err(());
        }
    }
    println!("{name}: {count} scripts, {tally}");
    Ok(())
}

fn compare_all(scale: u64) -> Result<(), ()> {
    compare("plans", 200 * scale, scripts::on_plans)?;
    compare("loads", 40 * scale, scripts::on_loads)?;
    compare("skylines", 100 * scale, scripts::on_skylines)?;
    compare("bounds", 3, scripts::on_bounds)?;
    compare("lists", 100 * scale, scripts::as_lists)?;
    #[cfg(texts)]
    reading::compare(500 * scale)?;
    println!("no difference");
    Ok(())
}

/// `speed` times; `session PROGRAM` compares what a program prints; a number scales how many inputs are compared, 100 if none is given.
fn main() -> ExitCode {
    let words: Vec<String> = std::env::args().skip(1).collect();
    let words: Vec<&str> = words.iter().map(String::as_str).collect();
    let compared = match words[..] {
        ["speed"] => {
            speed::print();
            Ok(())
        }
        ["session", program] => sessions::compare(program, 3_000),
        [number] => compare_all(number.parse().expect("speed, session PROGRAM or a number")),
        _ => compare_all(100),
    };
    if compared.is_ok() { ExitCode::SUCCESS } else { ExitCode::FAILURE }
}
