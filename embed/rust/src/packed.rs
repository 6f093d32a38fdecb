//! The library's own functions with their packed answers: number + 256 * detail + 65,536 * value.

extern "C" {
    fn turfsteeple_read(list: *const u8, list_length: usize) -> u64;
    fn turfsteeple_filter(list: *const u8, list_length: usize, out: *mut u8, out_length: usize) -> u64;
    fn turfsteeple_narrow(
        list: *const u8,
        list_length: usize,
        kind: u32,
        a: u32,
        b: u32,
        out: *mut u8,
        out_length: usize,
    ) -> u64;
    fn turfsteeple_imbalance(list: *const u8, list_length: usize) -> u64;
    fn turfsteeple_join(
        terms: *const u8,
        terms_length: usize,
        hours: *const u8,
        hours_length: usize,
        out: *mut u8,
        out_length: usize,
    ) -> u64;
}

// Safety, of all five: each function answers every list and every number, reads no byte outside its lists and writes
// none outside the buffer. A slice's pointer is never null, and a mutable slice overlaps no other.

/// Reads a list. Value: the place of the refused record.
pub fn read(list: &[u8]) -> u64 {
    unsafe { turfsteeple_read(list.as_ptr(), list.len()) }
}

/// Filters a list into `out`. Detail: 1 settled, 2 open, or the rule of a no plan. Value: rounds, or a place.
pub fn filter(list: &[u8], out: &mut [u8]) -> u64 {
    unsafe { turfsteeple_filter(list.as_ptr(), list.len(), out.as_mut_ptr(), out.len()) }
}

/// Narrows a list into `out`, by the kinds 0 to 5 in the order of `Narrowing`. Value: a place.
pub fn narrow(list: &[u8], kind: u32, a: u32, b: u32, out: &mut [u8]) -> u64 {
    unsafe { turfsteeple_narrow(list.as_ptr(), list.len(), kind, a, b, out.as_mut_ptr(), out.len()) }
}

/// Measures the imbalance. Value: the imbalance, or a place.
pub fn imbalance(list: &[u8]) -> u64 {
    unsafe { turfsteeple_imbalance(list.as_ptr(), list.len()) }
}

/// Joins a list of terms and an hours list into `out`. Detail: 1 the terms' list is refused, 2 the hours list. Value: a
/// place in that list.
pub fn join(terms: &[u8], hours: &[u8], out: &mut [u8]) -> u64 {
    unsafe { turfsteeple_join(terms.as_ptr(), terms.len(), hours.as_ptr(), hours.len(), out.as_mut_ptr(), out.len()) }
}

/// The number of an answer.
pub fn number(answer: u64) -> u8 {
    answer as u8
}

/// The detail of an answer.
pub fn detail(answer: u64) -> u8 {
    (answer >> 8) as u8
}

/// The value of an answer.
pub fn value(answer: u64) -> u64 {
    answer >> 16
}
