//! A sheet, and the same with a fault for each check of a sheet's own bytes.
use second::writer::{apart, same, sheet_bytes};

/// Document 01's sheet C, of three lots: same 1 2 or same 1 3; apart 1 2.
pub fn sheet_c() -> Vec<u8> {
    sheet_bytes(3, &[vec![same(1, 2), same(1, 3)], vec![apart(1, 2)]])
}

/// It with a fault, for each check: the check and its place.
pub fn refused_sheets() -> Vec<(Vec<u8>, [u32; 2])> {
    let whole = sheet_c();
    let changed = |at: usize, value: u8| [&whole[..at], &[value], &whole[at + 1..]].concat();
    vec![
        (vec![], [1, 0]),
        (changed(0, 129), [2, 1]),
        (changed(3, 2), [2, 2]),
        (changed(5, 5), [2, 3]),
        (whole[..33].to_vec(), [3, 0]),
        (changed(8, 4), [4, 2]),
        (changed(10, 3), [5, 1]),
        (changed(16, 1), [6, 1]),
        (changed(8, 0), [7, 3]),
        ([&whole[..18], &[0; 8], &whole[26..]].concat(), [17, 2]),
    ]
}
