//! Compares what the program `session` prints with what the twin prints for the same script.

use std::io::Write;
use std::process::{Command, Stdio};

use crate::calls::Call;
use crate::numbers::Numbers;
use crate::scripts;

/// Lines that are skipped, not understood, or not always allowed.
const ODD_LINES: &[&str] = &[
    "",
    " \t",
    "# a comment",
    "\t# also a comment",
    "keep",
    "undo",
    "begin turn 0",
    "begin out 1",
    "test turn 1",
    "load 65535 0",
    "load 0",
    "load 65536 3",
    "load 0 1000001",
    "load 0 1000000",
    "report 65535",
    "report 65536",
    "report 0 0",
    "block 1 2 F 65535 65535",
    "block 1 2 FF 65535 65535",
    "block 1 2 # 0 1",
    "size 1234567890 1",
    "size 000000001 2",
    "pair 1 65536",
    "letter",
    "letter xy",
    "skyline columns 1000001",
    "skyline columns 70",
    "skyline steps 999999999 100001",
    "skyline steps 90 100000",
    "skyline placed 40 31",
    "skyline",
    "skyline rows 4",
    "clear",
    "clear now",
    "highest 1 1",
    "highest 0 1",
    "raise 0 1 999999999",
    "raise 0 1",
    "Keep",
    "pack 512 100001",
    "pack 1000001 512",
    "pack 512 512",
    "test",
    "begin move 0 1 up",
    "test in 1 0 left",
    "begin in 0 9 left 1",
    "keep #",
    "test move 1 2 right",
    "undo\r",
    "\r",
    "report\t1\t",
];
const ODD_BYTES: &[u8] = b"\r\n \t#0129x\0\xff";

/// A script: the calls of another one, with odd lines between them, and odd bytes at times.
fn script(seed: u64) -> Vec<u8> {
    let mut numbers = Numbers::new(seed ^ 0x1111);
    let calls = if numbers.percent(80) { scripts::on_plans(seed) } else { scripts::on_skylines(seed) };
    let odd = numbers.pick(&[0, 1, 8]);
    let mut text = format!("{}\n", calls.sky).into_bytes();
    for call in calls.calls {
        while numbers.percent(odd) {
            text.extend_from_slice(numbers.pick(ODD_LINES).as_bytes());
            text.push(b'\n');
        }
        match call {
            Call::Letter(byte) => text.extend_from_slice(&[b"letter ", &[byte][..]].concat()),
            _ => text.extend(call.to_string().bytes()),
        }
        text.extend_from_slice(if numbers.percent(odd) { b"\r\n" } else { b"\n" });
    }
    for _ in 0..numbers.below(odd + 1) {
        let place = numbers.below(text.len());
        match numbers.below(3) {
            0 => text[place] = numbers.pick(ODD_BYTES),
            1 => drop(text.remove(place)),
            _ => text.insert(place, text[place]),
        }
    }
    text
}

/// What the program prints.
fn printed(program: &str, script: &[u8]) -> std::io::Result<Vec<u8>> {
    let mut child = Command::new(program).stdin(Stdio::piped()).stdout(Stdio::piped()).spawn()?;
    // The program reads all of its input before it prints.
    child.stdin.take().expect("it is piped").write_all(script)?;
    Ok(child.wait_with_output()?.stdout)
}

/// Compares so many scripts.
pub fn compare(program: &str, count: u64) -> Result<(), ()> {
    let (mut lines, mut not_understood, mut not_allowed) = (0, 0, 0);
    for seed in 0..count {
        let script = script(seed);
        let expected = twin::session::run(&script);
        let found = printed(program, &script).expect("the program runs");
        if found != expected.as_bytes() {
            let found = String::from_utf8_lossy(&found);
            let alike = found.lines().zip(expected.lines()).take_while(|(found, expected)| found == expected).count();
            println!("session, seed {seed}: line {} of what is printed differs for this script", alike + 1);
            println!("{}", script.escape_ascii().to_string().replace("\\n", "\n"));
            println!("proved: {:?}\ntwin:   {:?}", found.lines().nth(alike), expected.lines().nth(alike));
            return Err(());
        }
        lines += expected.lines().count();
        not_understood += expected.lines().filter(|line| line.ends_with("not understood")).count();
        not_allowed += expected.lines().filter(|line| *line == "not allowed").count();
    }
    println!("session: {count} scripts, {lines} lines printed, {not_understood} not understood, {not_allowed} not allowed");
    Ok(())
}
