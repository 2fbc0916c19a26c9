//! The services as the archive has them: slices in, four numbers out. Each call is safe, since a Rust slice is what the archive asks of its pointers: not
//! null, of the length given, and, where it is written, apart from the others. A call touches only what it is lent.

/// An answer. `check` is 0, and the others are the values that the service gives; or it is the number of the check that refused, and `first` its place. Where
/// [`merge`] refuses a sheet that it reads, `second` says which one.
#[repr(C)]
#[derive(Clone, Copy, Debug, PartialEq, Eq, Hash)]
pub struct Numbers {
    /// 0, or the number of the check that refused.
    pub check: u32,
    /// The first value, or the place of the check.
    pub first: u32,
    /// The second value, 0 where there is none.
    pub second: u32,
    /// The third value, 0 where there is none.
    pub third: u32,
}

unsafe extern "C" {
    fn lihumbay_read(sheet: *const u8, sheet_length: usize) -> Numbers;
    fn lihumbay_search(
        sheet: *const u8,
        sheet_length: usize,
        grouping: *mut u8,
        grouping_length: usize,
        store: *mut u8,
        store_length: usize,
    ) -> Numbers;
    fn lihumbay_search_limited(
        sheet: *const u8,
        sheet_length: usize,
        limit: u32,
        grouping: *mut u8,
        grouping_length: usize,
        store: *mut u8,
        store_length: usize,
    ) -> Numbers;
    fn lihumbay_evaluate(sheet: *const u8, sheet_length: usize, grouping: *const u8, grouping_length: usize) -> Numbers;
    fn lihumbay_count_unmet(sheet: *const u8, sheet_length: usize, grouping: *const u8, grouping_length: usize) -> Numbers;
    fn lihumbay_reassign(
        sheet: *const u8,
        sheet_length: usize,
        grouping: *mut u8,
        grouping_length: usize,
        count: u32,
        lot: u32,
        value: u8,
    ) -> Numbers;
    fn lihumbay_check(sheet: *const u8, sheet_length: usize, list: *const u8, list_length: usize) -> Numbers;
    fn lihumbay_check_limited(sheet: *const u8, sheet_length: usize, limit: u32, list: *const u8, list_length: usize) -> Numbers;
    fn lihumbay_repack(sheet: *const u8, sheet_length: usize, out: *mut u8, out_length: usize) -> Numbers;
    fn lihumbay_merge(
        first: *const u8,
        first_length: usize,
        second: *const u8,
        second_length: usize,
        out: *mut u8,
        out_length: usize,
    ) -> Numbers;
}

/// The reader: lots, lot 0 not counted, conditions, term records.
pub fn read(sheet: &[u8]) -> Numbers {
    // SAFETY: a slice's pointer isn't null and has the slice's length.
    unsafe { lihumbay_read(sheet.as_ptr(), sheet.len()) }
}

/// The search: 1 met or 2 cannot be met, then the count of records written. Check 9: the store is full. It needs up to 0.9 MB of stack.
pub fn search(sheet: &[u8], grouping: &mut [u8], store: &mut [u8]) -> Numbers {
    // SAFETY: as in `read`; slices that are lent by `&mut` overlap no other.
    unsafe { lihumbay_search(sheet.as_ptr(), sheet.len(), grouping.as_mut_ptr(), grouping.len(), store.as_mut_ptr(), store.len()) }
}

/// The search under a limit on the number of classes, lot 0's counted: 1 met or 2 cannot be met so, then the count of records written. Check 20: the limit is
/// 0 or above 129. Check 9: the store is full. It needs up to 6.8 MB of stack.
pub fn search_limited(sheet: &[u8], limit: u32, grouping: &mut [u8], store: &mut [u8]) -> Numbers {
    let (grouping_at, store_at) = (grouping.as_mut_ptr(), store.as_mut_ptr());
    // SAFETY: as in `search`.
    unsafe { lihumbay_search_limited(sheet.as_ptr(), sheet.len(), limit, grouping_at, grouping.len(), store_at, store.len()) }
}

/// The evaluator: 0 where the grouping meets every condition, else the lowest that it doesn't. Lot 0 has no byte in a grouping; its number is 0.
pub fn evaluate(sheet: &[u8], grouping: &[u8]) -> Numbers {
    // SAFETY: as in `read`.
    unsafe { lihumbay_evaluate(sheet.as_ptr(), sheet.len(), grouping.as_ptr(), grouping.len()) }
}

/// The count of the conditions that the grouping doesn't meet.
pub fn count_unmet(sheet: &[u8], grouping: &[u8]) -> Numbers {
    // SAFETY: as in `read`.
    unsafe { lihumbay_count_unmet(sheet.as_ptr(), sheet.len(), grouping.as_ptr(), grouping.len()) }
}

/// A lot gets another number, which is its byte in the grouping: the running count less the conditions naming the lot that were unmet before, plus those that
/// are unmet now. Check 21: the lot is 0 or above the sheet's lots. Check 22: the running count is above the number of conditions, or below those unmet before.
pub fn reassign(sheet: &[u8], grouping: &mut [u8], count: u32, lot: u32, value: u8) -> Numbers {
    // SAFETY: as in `search`.
    unsafe { lihumbay_reassign(sheet.as_ptr(), sheet.len(), grouping.as_mut_ptr(), grouping.len(), count, lot, value) }
}

/// The refutation checker: check 0 where the list is a refutation of the sheet.
pub fn check(sheet: &[u8], list: &[u8]) -> Numbers {
    // SAFETY: as in `read`.
    unsafe { lihumbay_check(sheet.as_ptr(), sheet.len(), list.as_ptr(), list.len()) }
}

/// The refutation checker under a limit on the number of classes, lot 0's counted: check 0 where the list shows that nothing meets the sheet so. Check 20: the
/// limit is 0 or above 129.
pub fn check_limited(sheet: &[u8], limit: u32, list: &[u8]) -> Numbers {
    // SAFETY: as in `read`.
    unsafe { lihumbay_check_limited(sheet.as_ptr(), sheet.len(), limit, list.as_ptr(), list.len()) }
}

/// The repacker: the bytes written. Check 16: the output is shorter than the packed sheet, whose length is the place.
pub fn repack(sheet: &[u8], out: &mut [u8]) -> Numbers {
    // SAFETY: as in `search`.
    unsafe { lihumbay_repack(sheet.as_ptr(), sheet.len(), out.as_mut_ptr(), out.len()) }
}

/// The merge: the bytes written. A refusal from reading a sheet has 1 or 2 in `second`, for that sheet. Check 18: the merged sheet's conditions, place 2, or
/// terms, place 3, are above the most. Check 19: the output is shorter than the merged sheet, whose length is the place.
pub fn merge(first: &[u8], second: &[u8], out: &mut [u8]) -> Numbers {
    // SAFETY: as in `search`; the two sheets are only read, and may be one slice.
    unsafe { lihumbay_merge(first.as_ptr(), first.len(), second.as_ptr(), second.len(), out.as_mut_ptr(), out.len()) }
}
