//! The three functions of the C interface, called with slices. This is the only unsafe code of the package.

extern "C" {
    fn korehyumo_event(event: *const u8, event_len: usize, sets: *mut u8, duties: *mut u8) -> u64;

    fn korehyumo_trace(
        events: *const u8,
        events_len: usize,
        pairs: *const u16,
        pairs_len: usize,
        table: *mut u8,
        table_len: usize,
        verdicts: *mut u8,
        verdicts_len: usize,
        duties: *mut u8,
        duties_len: usize,
        afters: *mut u8,
        afters_len: usize,
    ) -> u64;

    fn korehyumo_answers(
        request: u8,
        ret_to_src: u8,
        do_not_go_to_sd: u8,
        excl: u8,
        tag: u8,
        before: u8,
        room: *mut u8,
        room_len: usize,
    ) -> u64;
}

/// Judges one event alone: the result, the seven sets and the seven duties.
pub(crate) fn event(event: &[u8]) -> (u64, [u8; 7], [u8; 7]) {
    let mut sets = [0; 7];
    let mut duties = [0; 7];
    // SAFETY: the library reads `event_len` bytes of the event, and writes seven bytes of sets and seven of duties. The event is
    // a slice of that length, both arrays have seven bytes, and none of the three overlaps another.
    let result = unsafe {
        korehyumo_event(
            event.as_ptr(),
            event.len(),
            sets.as_mut_ptr(),
            duties.as_mut_ptr(),
        )
    };
    (result, sets, duties)
}

/// Judges a whole trace: the result, with the answers in the last four buffers.
pub(crate) fn trace(
    events: &[u8],
    pairs: &[u16],
    table: &mut [u8],
    verdicts: &mut [u8],
    duties: &mut [u8],
    afters: &mut [u8],
) -> u64 {
    // SAFETY: the library reads and writes only within the six lengths. Each length is that of its slice, in elements. A slice of
    // `u16` is aligned. A mutable slice overlaps no other.
    unsafe {
        korehyumo_trace(
            events.as_ptr(),
            events.len(),
            pairs.as_ptr(),
            pairs.len(),
            table.as_mut_ptr(),
            table.len(),
            verdicts.as_mut_ptr(),
            verdicts.len(),
            duties.as_mut_ptr(),
            duties.len(),
            afters.as_mut_ptr(),
            afters.len(),
        )
    }
}

/// Lists the permitted answers to a question: the result, with the answers in the room.
pub(crate) fn answers(question: [u8; 6], room: &mut [u8]) -> u64 {
    let [request, ret_to_src, do_not_go_to_sd, excl, tag, before] = question;
    // SAFETY: the library writes only within the room's length, which is that of the slice.
    unsafe {
        korehyumo_answers(
            request,
            ret_to_src,
            do_not_go_to_sd,
            excl,
            tag,
            before,
            room.as_mut_ptr(),
            room.len(),
        )
    }
}
