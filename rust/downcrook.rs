//! Downcrook for Rust: safe functions over slices, for the static library that `bin/library` makes. Standard library only. Put this file beside
//! your own and say `mod downcrook;`; build with `rustc -L target/staticlib -l static=downcrook_c`.
//!
//! Every call is proved, and every length and every content is answered: nothing has to be tested first. A refusal changes nothing that was lent. What is proved
//! is the library; the nine calls below hand it the pointer and the length of each slice.
//!
//! Packets in memory are three numbers each: size (bytes), arrival (seconds), deadline (seconds). Sizes are in bytes, times in seconds, rates in bytes per second,
//! costs in bytes per second, squared, times seconds. Numbers past the count are not looked at.
#![allow(dead_code)] // a program need not use every call

/// Room for the records of any list (numbers).
pub const RECORD_ROOM: usize = 192;
/// Room for any list (bytes).
pub const LIST_ROOM: usize = 401;
/// Room for the rates of any accepted packets: 127 epochs of three numbers (numbers).
pub const RATE_ROOM: usize = 381;
/// Room for the timetables of any accepted packets: 191 entries of seven numbers (numbers).
pub const TIMETABLE_ROOM: usize = 1337;
/// Room for the entries of any plan: 191 entries of six numbers (numbers).
pub const ENTRY_ROOM: usize = 1146;
/// Room for any plan, the head included (bytes).
pub const FRAME_ROOM: usize = 3357;

/// Why a call refuses.
#[derive(Clone, Copy, Debug, PartialEq, Eq)]
pub struct Refusal {
    /// 1 to 11, as include/downcrook.h lists them
    pub number: u64,
    /// the index of the record at fault for 4, 5 and 6, of the entry at fault for 10, else 0
    pub place: u64,
}

/// A list that is accepted.
#[derive(Clone, Copy, Debug, PartialEq, Eq)]
pub struct Listed {
    /// 1 to 64 packets
    pub packets: usize,
    /// what the list takes: 8 to 401 bytes
    pub bytes: usize,
}

/// A list that is read.
#[derive(Clone, Copy, Debug, PartialEq, Eq)]
pub struct ListRead<'a> {
    /// 1 to 64 packets
    pub packets: usize,
    /// the caller's bytes behind the list: those of the next one
    pub rest: &'a [u8],
}

/// The rates of all epochs.
#[derive(Clone, Copy, Debug, PartialEq, Eq)]
pub struct Rates {
    /// 1 to 127 epochs
    pub epochs: usize,
    /// 1 to 64 rounds of Densest Interval First
    pub rounds: usize,
}

/// A plan, or the timetables of packets in memory.
#[derive(Clone, Copy, Debug, PartialEq, Eq)]
pub struct Plan {
    /// 1 to 64 rounds of Densest Interval First
    pub rounds: usize,
    /// 1 to 191 entries, in time order
    pub entries: usize,
    /// the radio cost, below 2^44 bytes per second, squared, times seconds
    pub cost: u64,
}

/// A plan that is read.
#[derive(Clone, Copy, Debug, PartialEq, Eq)]
pub struct Entries {
    /// 1 to 191 entries
    pub entries: usize,
    /// the cost as it stands in the plan, below 2^44 bytes per second, squared, times seconds
    pub cost: u64,
}

/// Plans the list at the front of the bytes: the plan goes into the frame from byte 8 on; the 8 head bytes and the bytes behind the plan stay as they were, and a
/// frame of 3,357 bytes always suffices. Refuses in this order: no bytes (1), 2, 3, 1, 7, then 4, 5, 6 of each record in turn, then 8 for the frame.
pub fn plan_list(list: &[u8], frame: &mut [u8]) -> Result<Plan, Refusal> {
    plan_of(unsafe { downcrook_plan_list(list.as_ptr(), list.len(), frame.as_mut_ptr(), frame.len()) })
}

/// Judges packets in memory, three numbers a record. Refuses in this order: 2, 3, 1, then 4, 5, 6 of each record in turn.
pub fn judge_packets(count: usize, records: &[u64]) -> Result<(), Refusal> {
    let c = unsafe { downcrook_judge_packets(count, records.as_ptr(), records.len()) };
    told(c.refusal, c.place, ())
}

/// Tells what `read_list` would come to for these bytes and room for so many numbers, and changes nothing. Refuses in this order: no bytes (1), 2, 3, 1, 7, then
/// 4, 5, 6 of each record in turn, then 8.
pub fn judge_list(bytes: &[u8], room: usize) -> Result<Listed, Refusal> {
    listed_of(unsafe { downcrook_judge_list(bytes.as_ptr(), bytes.len(), room) })
}

/// Reads the list at the front of the bytes into the records, three numbers a packet, and hands back the bytes behind the list; the numbers past the last packet
/// stay as they were, and room for 192 numbers always suffices. Refuses in this order: no bytes (1), 2, 3, 1, 7, then 4, 5, 6 of each record in turn, then 8; the
/// next list then starts where the caller's own slice does.
pub fn read_list<'a>(bytes: &'a [u8], records: &mut [u64]) -> Result<ListRead<'a>, Refusal> {
    let listed = listed_of(unsafe { downcrook_read_list(bytes.as_ptr(), bytes.len(), records.as_mut_ptr(), records.len()) })?;
    Ok(ListRead { packets: listed.packets, rest: &bytes[listed.bytes..] })
}

/// Writes packets in memory, three numbers each, as a list to the front of the bytes and gives what it takes (bytes); the bytes behind the list stay as they were,
/// and 401 bytes always suffice. Refuses in this order: 2, 3, 1, then 4, 5, 6 of each record in turn, then 8.
pub fn write_list(count: usize, records: &[u64], bytes: &mut [u8]) -> Result<usize, Refusal> {
    written_of(unsafe { downcrook_write_list(count, records.as_ptr(), records.len(), bytes.as_mut_ptr(), bytes.len()) })
}

/// Works out the rate of every epoch and puts three numbers an epoch into the rates, in time order: start (seconds), N and D, for N/D bytes per second in lowest
/// terms, 0/1 for a silent epoch; the numbers past the last epoch stay as they were, and room for 381 numbers (127 epochs) always suffices. Refuses in this order:
/// 2, 3, 1, then 4, 5, 6 of each record in turn, then 8.
pub fn epoch_rates(count: usize, records: &[u64], rates: &mut [u64]) -> Result<Rates, Refusal> {
    let c = unsafe { downcrook_epoch_rates(count, records.as_ptr(), records.len(), rates.as_mut_ptr(), rates.len()) };
    told(c.refusal, c.place, Rates { epochs: c.epochs as usize, rounds: c.rounds as usize })
}

/// Makes both timetables and puts seven numbers an entry into the entries, in time order: packet, epoch start (seconds), R (bytes per second), D, from, to (units
/// of 1/D byte from the epoch's start), N; offset x is reached x/N seconds after the epoch's start in the exact timetable and x/(D times R) seconds after it in the
/// radio timetable, the numbers past the last entry stay as they were, and room for 1,337 numbers (191 entries) always suffices. Refuses in this order: 2, 3, 1,
/// then 4, 5, 6 of each record in turn, then 8.
pub fn timetables(count: usize, records: &[u64], entries: &mut [u64]) -> Result<Plan, Refusal> {
    plan_of(unsafe { downcrook_timetables(count, records.as_ptr(), records.len(), entries.as_mut_ptr(), entries.len()) })
}

/// Reads the plan in a frame, from byte 8 on, and puts six numbers an entry into the entries: packet, epoch start (seconds), R (bytes per second), D, from, to
/// (units of 1/D byte from the epoch's start); the numbers past the last entry stay as they were, and room for 1,146 numbers (191 entries) always suffices.
/// Refuses in this order: no count byte (1), 9, 1, 7, then 10 of each entry in turn, then 8; the plan is compared with no list.
pub fn read_plan(frame: &[u8], entries: &mut [u64]) -> Result<Entries, Refusal> {
    let c = unsafe { downcrook_read_plan(frame.as_ptr(), frame.len(), entries.as_mut_ptr(), entries.len()) };
    told(c.refusal, c.place, Entries { entries: c.entries as usize, cost: c.cost })
}

/// Writes entries, six numbers each, and their cost (bytes per second, squared, times seconds) as a plan into the frame from byte 8 on and gives what is taken of the
/// frame, its head included (bytes); the 8 head bytes and the bytes behind the plan stay as they were, and a frame of 3,357 bytes always suffices. Refuses in this
/// order: 9, 1, 11, then 10 of each entry in turn, then 8 for the frame.
pub fn write_plan(count: usize, entries: &[u64], cost: u64, frame: &mut [u8]) -> Result<usize, Refusal> {
    written_of(unsafe { downcrook_write_plan(count, entries.as_ptr(), entries.len(), cost, frame.as_mut_ptr(), frame.len()) })
}

// A refusal of 0 says that the call did its work.
fn told<T>(number: u64, place: u64, values: T) -> Result<T, Refusal> {
    if number == 0 { Ok(values) } else { Err(Refusal { number, place }) }
}

fn listed_of(c: CList) -> Result<Listed, Refusal> {
    told(c.refusal, c.place, Listed { packets: c.packets as usize, bytes: c.bytes as usize })
}

fn written_of(c: CWritten) -> Result<usize, Refusal> {
    told(c.refusal, c.place, c.bytes as usize)
}

fn plan_of(c: CPlan) -> Result<Plan, Refusal> {
    told(c.refusal, c.place, Plan { rounds: c.rounds as usize, entries: c.entries as usize, cost: c.cost })
}

// The structs and the functions of include/downcrook.h.

#[repr(C)]
struct CVerdict {
    refusal: u64,
    place: u64,
}

#[repr(C)]
struct CList {
    refusal: u64,
    place: u64,
    packets: u64,
    bytes: u64,
}

#[repr(C)]
struct CWritten {
    refusal: u64,
    place: u64,
    bytes: u64,
}

#[repr(C)]
struct CRates {
    refusal: u64,
    place: u64,
    epochs: u64,
    rounds: u64,
}

#[repr(C)]
struct CPlan {
    refusal: u64,
    place: u64,
    rounds: u64,
    entries: u64,
    cost: u64,
}

#[repr(C)]
struct CEntries {
    refusal: u64,
    place: u64,
    entries: u64,
    cost: u64,
}

extern "C" {
    fn downcrook_plan_list(list: *const u8, list_bytes: usize, frame: *mut u8, frame_bytes: usize) -> CPlan;
    fn downcrook_judge_packets(count: usize, records: *const u64, numbers: usize) -> CVerdict;
    fn downcrook_judge_list(bytes: *const u8, length: usize, room: usize) -> CList;
    fn downcrook_read_list(bytes: *const u8, length: usize, records: *mut u64, numbers: usize) -> CList;
    fn downcrook_write_list(count: usize, records: *const u64, numbers: usize, bytes: *mut u8, length: usize) -> CWritten;
    fn downcrook_epoch_rates(count: usize, records: *const u64, numbers: usize, rates: *mut u64, rate_numbers: usize) -> CRates;
    fn downcrook_timetables(count: usize, records: *const u64, numbers: usize, entries: *mut u64, entry_numbers: usize) -> CPlan;
    fn downcrook_read_plan(frame: *const u8, frame_bytes: usize, entries: *mut u64, numbers: usize) -> CEntries;
    fn downcrook_write_plan(count: usize, entries: *const u64, numbers: usize, cost: u64, frame: *mut u8, frame_bytes: usize) -> CWritten;
}

#[cfg(test)]
mod tests {
    use super::*;

    // list A of the rules: size (bytes), arrival (seconds), deadline (seconds)
    const RECORDS: [u64; 9] = [30, 0, 10, 40, 2, 6, 9, 8, 14];

    #[test]
    fn lists_are_written_judged_and_read() {
        assert_eq!(judge_packets(3, &RECORDS), Ok(()));
        assert_eq!(judge_packets(4, &RECORDS), Err(Refusal { number: 1, place: 0 }));
        let mut bytes = [7u8; 30];
        assert_eq!(write_list(3, &RECORDS, &mut bytes), Ok(20));
        assert_eq!(&bytes[20..], &[7u8; 10]);
        assert_eq!(judge_list(&bytes, 9), Ok(Listed { packets: 3, bytes: 20 }));
        assert_eq!(judge_list(&bytes, 8), Err(Refusal { number: 8, place: 0 }));
        let mut records = [5u64; 11];
        assert_eq!(read_list(&bytes, &mut records), Ok(ListRead { packets: 3, rest: &[7u8; 10] }));
        assert_eq!((&records[..9], &records[9..]), (&RECORDS[..], &[5u64; 2][..]));
        assert_eq!(read_list(&[], &mut records), Err(Refusal { number: 1, place: 0 }));
    }

    #[test]
    fn rates_and_timetables_are_those_of_list_a() {
        let mut rates = [9u64; 20];
        assert_eq!(epoch_rates(3, &RECORDS, &mut rates), Ok(Rates { epochs: 5, rounds: 3 }));
        assert_eq!(rates, [0, 5, 1, 2, 10, 1, 6, 5, 1, 8, 5, 1, 10, 9, 4, 9, 9, 9, 9, 9]);
        let mut entries = [9u64; 36];
        assert_eq!(timetables(3, &RECORDS, &mut entries), Ok(Plan { rounds: 3, entries: 5, cost: 577 }));
        assert_eq!(entries[28..], [2, 10, 3, 4, 0, 36, 9, 9]);
    }

    #[test]
    fn plans_are_written_and_read() {
        let entries = [0, 0, 5, 1, 0, 10, 1, 2, 10, 1, 0, 40];
        let mut frame = [3u8; 60];
        assert_eq!(write_plan(2, &entries, 577, &mut frame), Ok(50));
        assert_eq!((&frame[..8], &frame[50..]), (&[3u8; 8][..], &[3u8; 10][..]));
        let mut read = [4u64; 13];
        assert_eq!(read_plan(&frame, &mut read), Ok(Entries { entries: 2, cost: 577 }));
        assert_eq!((&read[..12], read[12]), (&entries[..], 4));
        assert_eq!(write_plan(2, &entries, 1 << 44, &mut frame), Err(Refusal { number: 11, place: 0 }));
        assert_eq!(plan_list(&[0], &mut frame), Err(Refusal { number: 2, place: 0 }));
    }
}
