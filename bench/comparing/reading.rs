//! Compares the reader, the writer and plot with the twin's.

use twin::blocks::{Entry, read_blocks};
use twin::pack::Placement;
use twin::pl::write_pl;
#[cfg(plots)]
use twin::plot::plot;
use twin::refusal::Refusal;

use crate::figures::Tally;
use crate::numbers::Numbers;
use crate::texts::{self, Records};

/// A reader's record or a placement record, as it crosses.
#[repr(C)]
#[derive(Clone, Copy, Debug, PartialEq)]
struct Record([u32; 4]);

unsafe extern "C" {
    fn compared_read(text: *const u8, text_length: usize, records: *mut Record, records_length: usize) -> u64;
    fn compared_write(
        text: *const u8,
        text_length: usize,
        marks: *const Record,
        marks_length: usize,
        places: *const Record,
        places_length: usize,
        out: *mut u8,
        out_length: usize,
    ) -> u64;
    #[cfg(plots)]
    fn compared_plot(text: *const u8, text_length: usize, out: *mut u8, out_length: usize) -> u64;
}

/// What memory holds before a call.
const MARK: u32 = 43_981;
const MARK_BYTE: u8 = 0xab;
/// More bytes than any text of the harness has.
const ROOM: usize = 4_000_000;

fn entry_record(entry: &Entry) -> Record {
    Record([entry.start, entry.length, entry.width, entry.height])
}

fn place_record(place: &Placement) -> Record {
    Record([place.x, place.y, place.width, place.height])
}

fn answered(answer: Result<usize, Refusal>) -> u64 {
    match answer {
        Ok(n) => n as u64,
        Err(refusal) => u64::from(refusal.number) << 32 | u64::from(refusal.place),
    }
}

fn spelled(answer: u64) -> String {
    match answer >> 32 {
        0 => format!("{answer}"),
        number => format!("refused {number} at {}", answer & 0xffff_ffff),
    }
}

/// A text on which the two sides differ, and what each answers and leaves in memory.
struct Difference {
    text: String,
    proved: String,
    twin: String,
}

fn differ<T: PartialEq + std::fmt::Debug>(
    text: &[u8],
    proved: (u64, T),
    twin: (u64, T),
    tally: &mut Tally,
) -> Option<Difference> {
    tally.add((twin.0 >> 32) as u8);
    let show = |(answer, memory): (u64, T)| format!("{}; memory {memory:?}", spelled(answer));
    let differs = proved != twin;
    differs.then(|| Difference { text: text.escape_ascii().to_string(), proved: show(proved), twin: show(twin) })
}

fn compare_read(text: &[u8], room: usize, tally: &mut Tally) -> Option<Difference> {
    let mut records = vec![Record([MARK; 4]); room];
    // SAFETY: a slice crosses as a pointer and a length, and the callee is proved to stay inside it; so below.
    let proved = unsafe { compared_read(text.as_ptr(), text.len(), records.as_mut_ptr(), room) };
    let mut entries = vec![Entry { start: MARK, length: MARK, width: MARK, height: MARK }; room];
    let twin = answered(read_blocks(text, &mut entries));
    differ(text, (proved, records), (twin, entries.iter().map(entry_record).collect()), tally)
}

fn compare_write(given: &Records, room: usize, tally: &mut Tally) -> Option<Difference> {
    let Records { text, entries, places } = given;
    let marks: Vec<Record> = entries.iter().map(entry_record).collect();
    let records: Vec<Record> = places.iter().map(place_record).collect();
    let (mut proved_out, mut twin_out) = (vec![MARK_BYTE; room], vec![MARK_BYTE; room]);
    let proved = unsafe {
        compared_write(
            text.as_ptr(),
            text.len(),
            marks.as_ptr(),
            marks.len(),
            records.as_ptr(),
            records.len(),
            proved_out.as_mut_ptr(),
            room,
        )
    };
    let twin = answered(write_pl(text, entries, places, &mut twin_out));
    differ(text, (proved, proved_out), (twin, twin_out), tally)
}

/// The proved plot: what it answers, as a number.
#[cfg(plots)]
pub fn plot_proved(text: &[u8], out: &mut [u8]) -> u64 {
    // SAFETY: as above.
    unsafe { compared_plot(text.as_ptr(), text.len(), out.as_mut_ptr(), out.len()) }
}

/// The twin's plot: what it answers, as a number.
#[cfg(plots)]
pub fn plot_plain(text: &[u8], out: &mut [u8]) -> u64 {
    answered(plot(text, out))
}

#[cfg(plots)]
fn compare_plot(text: &[u8], room: usize, tally: &mut Tally) -> Option<Difference> {
    let (mut proved_out, mut twin_out) = (vec![MARK_BYTE; room], vec![MARK_BYTE; room]);
    let answers = (plot_proved(text, &mut proved_out), plot_plain(text, &mut twin_out));
    differ(text, (answers.0, proved_out), (answers.1, twin_out), tally)
}

/// A room for an answer of so many records or bytes: mostly ample, at times just enough or one too short.
fn room(numbers: &mut Numbers, length: usize) -> usize {
    match numbers.below(8) {
        0 => length,
        1 => length.saturating_sub(1),
        2 => numbers.below(length + 1),
        _ => length + 20,
    }
}

/// Compares so many texts by one call: it is given a text's seed and the room's numbers.
fn compare_texts(name: &str, count: u64, call: impl Fn(u64, &mut Numbers, &mut Tally) -> Option<Difference>) -> Result<(), ()> {
    let mut tally = Tally::default();
    for seed in 0..count {
        if let Some(Difference { text, proved, twin }) = call(seed, &mut Numbers::new(seed ^ 0x3333), &mut tally) {
            println!("{name}, seed {seed}: the answers differ on this text");
            println!("{text}\nproved: {proved}\ntwin:   {twin}");
            return Err(());
        }
    }
    println!("{name}: {count} texts, {tally}");
    Ok(())
}

/// Compares the calls on so many texts.
pub fn compare(count: u64) -> Result<(), ()> {
    compare_texts("reader", count, |seed, numbers, tally| {
        let text = texts::text(seed);
        let blocks = read_blocks(&text, &mut [Entry::default(); 512]).unwrap_or(0);
        compare_read(&text, room(numbers, blocks), tally)
    })?;
    compare_texts("writer", count, |seed, numbers, tally| {
        let given = texts::records(seed);
        let written = write_pl(&given.text, &given.entries, &given.places, &mut vec![0; ROOM]).unwrap_or(40);
        compare_write(&given, room(numbers, written), tally)
    })?;
    #[cfg(plots)]
    compare_texts("plot", count, |seed, numbers, tally| {
        let text = texts::text(seed);
        let written = plot(&text, &mut vec![0; ROOM]).unwrap_or(0);
        compare_plot(&text, room(numbers, written), tally)
    })?;
    Ok(())
}
