//! Plans three packets and prints the radio's timetable in seconds: the packets are written as a list, the list is planned into a frame, and the plan is read back
//! from the frame, as a radio driver would. Then two refusals. examples/plan.c does the same in C; examples/plan.expected is what both print.
//!
//!     bin/library
//!     rustc -L target/staticlib -l static=downcrook_c -o plan rust/plan.rs
mod downcrook;

use downcrook::Refusal;

/// The numbers of a record: size (bytes), arrival (seconds), deadline (seconds).
const RECORD_NUMBERS: usize = 3;
/// The numbers of an entry: packet, epoch start (seconds), R (bytes per second), D, from, to (units of 1/D byte).
const ENTRY_NUMBERS: usize = 6;

/// When the radio reaches an offset (units of 1/D byte) in an entry, in seconds rounded down to thousandths.
fn time(entry: &[u64], offset: u64) -> String {
    let thousandths = offset * 1000 / (entry[3] * entry[2]);
    format!("{}.{:03} s", entry[1] + thousandths / 1000, thousandths % 1000)
}

/// Plans a list and prints its timetable.
fn plan(list: &[u8]) -> Result<(), Refusal> {
    let mut frame = [0u8; downcrook::FRAME_ROOM];
    let mut entries = [0u64; downcrook::ENTRY_ROOM];
    let planned = downcrook::plan_list(list, &mut frame)?;
    let read = downcrook::read_plan(&frame, &mut entries)?;
    println!("{} rounds, {} entries, cost {} (bytes per second, squared, times seconds)", planned.rounds, read.entries, read.cost);
    for entry in entries.chunks(ENTRY_NUMBERS).take(read.entries) {
        println!("packet {}: {} to {} at {} bytes per second", entry[0], time(entry, entry[4]), time(entry, entry[5]), entry[2]);
    }
    Ok(())
}

/// Writes packets as a list and plans it.
fn plan_packets(records: &[u64]) -> Result<(), Refusal> {
    let count = records.len() / RECORD_NUMBERS;
    let mut list = [0u8; downcrook::LIST_ROOM];
    let bytes = downcrook::write_list(count, records, &mut list)?;
    println!("{} packets, a list of {} bytes", count, bytes);
    plan(&list[..bytes])
}

fn print_refusal(done: Result<(), Refusal>) {
    if let Err(refusal) = done {
        println!("refused {} {}", refusal.number, refusal.place);
    }
}

fn main() {
    // size (bytes), arrival (seconds), deadline (seconds)
    print_refusal(plan_packets(&[30, 0, 10, 40, 2, 6, 9, 8, 14]));

    // Refused: packet 1 arrives at its deadline.
    print_refusal(plan_packets(&[30, 0, 10, 40, 6, 6]));

    // Refused: a list of 0 packets.
    print_refusal(plan(&[0]));
}
