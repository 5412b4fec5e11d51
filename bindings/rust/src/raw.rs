//! The C face as it is: six functions over slices. The caller lends every room, exactly as long as it wants it,
//! and gets the refusal's number, 0 for an answer; include/stableglow.h says what is written where.
//! What stands where in a list is said here, and nowhere else in Rust.

/// An event's numbers.
pub mod event {
    /// 1 begin, 2 token, 3 end, 4 error.
    pub const SORT: usize = 0;
    /// Of an error event, the error record's index.
    pub const KIND: usize = 1;
    pub const START: usize = 2;
    pub const END: usize = 3;
    /// How many nodes are open around it.
    pub const DEPTH: usize = 4;
    pub const SIZE: usize = 5;
}

/// An error record's numbers. Behind the head stand the names, and in form 9 the place of the bad byte.
pub mod record {
    pub const START: usize = 0;
    pub const END: usize = 1;
    pub const FORM: usize = 2;
    /// The number of its item, from 1.
    pub const ITEM: usize = 3;
    /// How many names.
    pub const COUNT: usize = 4;
    pub const HEAD: usize = 5;
    /// The form whose records have a place.
    pub const PLACED: u32 = 9;
}

/// Numbers of a listed rule: name start, name end, start, end, counts of metadata, patterns and tags, damaged.
pub const RULE: usize = 8;
/// Numbers of an outline's node: kind, start, end, depth.
pub const NODE: usize = 4;
/// The reader's answer: outcome, rows covered, counts of events and of error records, fuel left.
pub type Answer = [u32; 5];

/// What the library takes: bytes of a source, and rows of it.
pub const MOST_BYTES: usize = 1_048_576;
pub const MOST_ROWS: usize = 65_536;

/// The words of scratch that a reading of so many rows needs.
#[allow(clippy::manual_div_ceil)] // as the header spells it
pub fn scratch_words(rows: usize) -> usize {
    (2 * (rows + 1) + 63) / 64
}

/// The numbers of the first error record in a list, and those behind it.
pub fn split_record(numbers: &[u32]) -> (&[u32], &[u32]) {
    let place = usize::from(numbers[record::FORM] == record::PLACED);
    numbers.split_at(record::HEAD + numbers[record::COUNT] as usize + place)
}

extern "C" {
    fn stableglow_cut(
        source: *const u8,
        source_len: usize,
        ids: *mut u32,
        ids_len: usize,
        starts: *mut u32,
        starts_len: usize,
        ends: *mut u32,
        ends_len: usize,
        count: *mut u32,
    ) -> u32;

    fn stableglow_read(
        source: *const u8,
        source_len: usize,
        ids: *const u32,
        ids_len: usize,
        starts: *const u32,
        starts_len: usize,
        ends: *const u32,
        ends_len: usize,
        settings: *const u8,
        settings_len: usize,
        edition: u32,
        fuel: u32,
        scratch: *mut u64,
        scratch_len: usize,
        events: *mut u32,
        events_len: usize,
        errors: *mut u32,
        errors_len: usize,
        answer: *mut u32,
    ) -> u32;

    fn stableglow_merge(
        events: *const u32,
        events_len: usize,
        room: *mut u32,
        room_len: usize,
        count: *mut u32,
    ) -> u32;

    fn stableglow_message(
        source: *const u8,
        source_len: usize,
        numbers: *const u32,
        numbers_len: usize,
        room: *mut u8,
        room_len: usize,
        length: *mut u32,
    ) -> u32;

    fn stableglow_rules(
        events: *const u32,
        events_len: usize,
        room: *mut u32,
        room_len: usize,
        count: *mut u32,
    ) -> u32;

    fn stableglow_outline(
        events: *const u32,
        events_len: usize,
        at: usize,
        depth: u32,
        room: *mut u32,
        room_len: usize,
        count: *mut u32,
    ) -> u32;
}

/// Rows as three lists: ids, starts and ends.
pub type Lists<'a> = [&'a [u32]; 3];

/// The buffers that a reading is lent.
pub struct Lent<'a> {
    pub scratch: &'a mut [u64],
    pub events: &'a mut [u32],
    pub errors: &'a mut [u32],
}

// SAFETY, of all calls below: every pointer comes with the length of the slice that it was taken from, slices that
// are written are borrowed alone and so overlap nothing, and the answer and the counts have the cells that the face
// writes. The library keeps no pointer, and any bytes and numbers are answered.

/// Cuts a source into the lists of ids, starts and ends.
pub fn cut(source: &[u8], [ids, starts, ends]: [&mut [u32]; 3], count: &mut u32) -> u32 {
    unsafe {
        stableglow_cut(
            source.as_ptr(),
            source.len(),
            ids.as_mut_ptr(),
            ids.len(),
            starts.as_mut_ptr(),
            starts.len(),
            ends.as_mut_ptr(),
            ends.len(),
            count,
        )
    }
}

/// Reads rows over their source, by an edition of the settings text.
pub fn read(
    source: &[u8],
    [ids, starts, ends]: Lists,
    settings: &[u8],
    edition: u32,
    fuel: u32,
    lent: Lent,
    answer: &mut Answer,
) -> u32 {
    unsafe {
        stableglow_read(
            source.as_ptr(),
            source.len(),
            ids.as_ptr(),
            ids.len(),
            starts.as_ptr(),
            starts.len(),
            ends.as_ptr(),
            ends.len(),
            settings.as_ptr(),
            settings.len(),
            edition,
            fuel,
            lent.scratch.as_mut_ptr(),
            lent.scratch.len(),
            lent.events.as_mut_ptr(),
            lent.events.len(),
            lent.errors.as_mut_ptr(),
            lent.errors.len(),
            answer.as_mut_ptr(),
        )
    }
}

/// Joins neighbouring ERROR nodes of a list of events.
pub fn merge(events: &[u32], room: &mut [u32], count: &mut u32) -> u32 {
    unsafe { stableglow_merge(events.as_ptr(), events.len(), room.as_mut_ptr(), room.len(), count) }
}

/// Writes the message of the error record that the numbers begin with.
pub fn message(source: &[u8], numbers: &[u32], room: &mut [u8], length: &mut u32) -> u32 {
    unsafe {
        stableglow_message(
            source.as_ptr(),
            source.len(),
            numbers.as_ptr(),
            numbers.len(),
            room.as_mut_ptr(),
            room.len(),
            length,
        )
    }
}

/// Lists the rules of a list of events.
pub fn rules(events: &[u32], room: &mut [u32], count: &mut u32) -> u32 {
    unsafe { stableglow_rules(events.as_ptr(), events.len(), room.as_mut_ptr(), room.len(), count) }
}

/// Lists the nodes below the one that the event at an index opens.
pub fn outline(events: &[u32], at: usize, depth: u32, room: &mut [u32], count: &mut u32) -> u32 {
    unsafe {
        stableglow_outline(events.as_ptr(), events.len(), at, depth, room.as_mut_ptr(), room.len(), count)
    }
}
