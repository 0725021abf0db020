//! The library's calls over slices.

use globe_sys as sys;

pub fn load(pool: &mut [u64], label: u32, text: &[u8]) -> u32 {
    let (words, bytes) = (pool.len(), text.len());
    // Safety, here and below: each pointer goes with its slice's length, and slices do not overlap.
    unsafe { sys::globe_load(pool.as_mut_ptr(), words, label, text.as_ptr(), bytes) }.number
}

pub fn open(pool: &mut [u64], label: u32) -> u32 {
    unsafe { sys::globe_open(pool.as_mut_ptr(), pool.len(), label) }.number
}

pub fn feed(pool: &mut [u64], part: &[u8]) -> u32 {
    unsafe { sys::globe_feed(pool.as_mut_ptr(), pool.len(), part.as_ptr(), part.len()) }.number
}

pub fn close(pool: &mut [u64]) -> u32 {
    unsafe { sys::globe_close(pool.as_mut_ptr(), pool.len()) }.number
}

pub fn remove(pool: &mut [u64], label: u32) -> u32 {
    unsafe { sys::globe_remove(pool.as_mut_ptr(), pool.len(), label) }.number
}

pub fn clear(pool: &mut [u64]) -> u32 {
    unsafe { sys::globe_clear(pool.as_mut_ptr(), pool.len()) }.number
}

pub fn fetch(pool: &[u64], name: &[u8], buffer: &mut [f64]) -> u32 {
    let (words, length, room) = (pool.len(), name.len(), buffer.len());
    let (name, buffer) = (name.as_ptr(), buffer.as_mut_ptr());
    unsafe { sys::globe_fetch(pool.as_ptr(), words, name, length, buffer, room) }.count
}

pub fn fetch_string(pool: &[u64], name: &[u8], place: usize, buffer: &mut [u8]) -> u32 {
    let (words, length, room) = (pool.len(), name.len(), buffer.len());
    let (name, buffer) = (name.as_ptr(), buffer.as_mut_ptr());
    unsafe { sys::globe_fetch_string(pool.as_ptr(), words, name, length, place, buffer, room) }
        .count
}

pub fn totals(pool: &[u64]) -> u32 {
    unsafe { sys::globe_totals(pool.as_ptr(), pool.len()) }.values
}

pub fn orientation(pool: &[u64], body: u32, epoch: f64) -> sys::globe_oriented {
    unsafe { sys::globe_orientation(pool.as_ptr(), pool.len(), body, epoch) }
}

pub fn motion(pool: &[u64], body: u32, epoch: f64, ring: u32, present: u32) -> sys::globe_motion {
    unsafe { sys::globe_drive_move(pool.as_ptr(), pool.len(), body, epoch, ring, present) }
}

pub fn radii(pool: &[u64], body: u32) -> sys::globe_axes {
    unsafe { sys::globe_radii(pool.as_ptr(), pool.len(), body) }
}
