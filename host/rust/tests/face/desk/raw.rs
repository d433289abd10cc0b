//! The archive's own calls of the desk, in which a role is any number.
use hubqr::{ffi, Desk, SECTORS};

/// The operator's number.
pub const OPERATOR: u32 = 2;

pub fn begin(role: u32, desk: &Desk) -> ffi::DeskReply {
    // SAFETY: the call takes and answers values alone.
    unsafe { ffi::hubqr_desk_begin(role, desk.clone()) }
}

pub fn set_shares(role: u32, desk: &Desk, shares: [u16; SECTORS]) -> ffi::DeskReply {
    // SAFETY: the call takes and answers values alone.
    unsafe { ffi::hubqr_desk_set_shares(role, desk.clone(), ffi::Shares { shares }) }
}

pub fn hand_in(
    role: u32,
    desk: &Desk,
    sector: u32,
    record: &[u8],
    area: &mut [i32],
) -> ffi::DeskLoadReply {
    let (bytes, words) = (record.len(), area.len());
    let (record, area) = (record.as_ptr(), area.as_mut_ptr());
    // SAFETY: pointers and lengths are those of slices.
    unsafe { ffi::hubqr_desk_hand_in(role, desk.clone(), sector, record, bytes, area, words) }
}

pub fn run(
    role: u32,
    desk: &Desk,
    sector: u32,
    request: u16,
    area: &mut [i32],
) -> ffi::DeskRunReply {
    let (area, words) = (area.as_mut_ptr(), area.len());
    // SAFETY: the pointer and the length are those of a slice.
    unsafe { ffi::hubqr_desk_run(role, desk.clone(), sector, request, area, words) }
}

pub fn fetch(
    role: u32,
    desk: &Desk,
    sector: u32,
    area: &mut [i32],
    buffer: &mut [u8],
) -> ffi::DeskReply {
    let (words, bytes) = (area.len(), buffer.len());
    let (area, buffer) = (area.as_mut_ptr(), buffer.as_mut_ptr());
    // SAFETY: pointers and lengths are those of slices.
    unsafe { ffi::hubqr_desk_fetch(role, desk.clone(), sector, area, words, buffer, bytes) }
}

pub fn heard(role: u32, desk: &Desk, sector: u32) -> ffi::DeskHeardReply {
    // SAFETY: the call takes and answers values alone.
    unsafe { ffi::hubqr_desk_heard(role, desk.clone(), sector) }
}
