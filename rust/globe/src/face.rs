//! The calls of the library over slices: the one place with unsafe code.
//!
//! Every call is sound for all arguments: the library is proved for memory of any size and
//! content, a slice's pointer and length go together, and the borrow checker keeps a slice that is
//! written apart from all others.
#![allow(unsafe_code)]

use globe_sys as sys;

use crate::answer::{Motion, Orientation, Totals};
use crate::refusal::{Refusal, Refused};

pub fn pool_words() -> usize {
    sys::globe_pool_words()
}

pub fn make_empty(pool: &mut [u64]) -> Result<(), Refused> {
    // Safety: see above.
    let reply = unsafe { sys::globe_make_empty(pool.as_mut_ptr(), pool.len()) };
    accepted(reply.number, reply.line, reply.column)
}

pub fn load(pool: &mut [u64], label: u32, text: &[u8]) -> Result<(), Refused> {
    let (words, bytes) = (pool.len(), text.len());
    // Safety: see above.
    let reply = unsafe { sys::globe_load(pool.as_mut_ptr(), words, label, text.as_ptr(), bytes) };
    accepted(reply.number, reply.line, reply.column)
}

pub fn open(pool: &mut [u64], label: u32) -> Result<(), Refused> {
    // Safety: see above.
    let reply = unsafe { sys::globe_open(pool.as_mut_ptr(), pool.len(), label) };
    accepted(reply.number, reply.line, reply.column)
}

pub fn feed(pool: &mut [u64], part: &[u8]) -> Result<(), Refused> {
    let (words, bytes) = (pool.len(), part.len());
    // Safety: see above.
    let reply = unsafe { sys::globe_feed(pool.as_mut_ptr(), words, part.as_ptr(), bytes) };
    accepted(reply.number, reply.line, reply.column)
}

pub fn close(pool: &mut [u64]) -> Result<(), Refused> {
    // Safety: see above.
    let reply = unsafe { sys::globe_close(pool.as_mut_ptr(), pool.len()) };
    accepted(reply.number, reply.line, reply.column)
}

pub fn drop(pool: &mut [u64]) -> Result<(), Refused> {
    // Safety: see above.
    let reply = unsafe { sys::globe_drop(pool.as_mut_ptr(), pool.len()) };
    accepted(reply.number, reply.line, reply.column)
}

pub fn remove(pool: &mut [u64], label: u32) -> Result<(), Refused> {
    // Safety: see above.
    let reply = unsafe { sys::globe_remove(pool.as_mut_ptr(), pool.len(), label) };
    accepted(reply.number, reply.line, reply.column)
}

pub fn clear(pool: &mut [u64]) -> Result<(), Refused> {
    // Safety: see above.
    let reply = unsafe { sys::globe_clear(pool.as_mut_ptr(), pool.len()) };
    accepted(reply.number, reply.line, reply.column)
}

pub fn fetch(pool: &[u64], name: &[u8], buffer: &mut [f64]) -> Result<usize, Refused> {
    let (words, room) = (pool.len(), buffer.len());
    // Safety: see above.
    let fetched = unsafe {
        sys::globe_fetch(
            pool.as_ptr(),
            words,
            name.as_ptr(),
            name.len(),
            buffer.as_mut_ptr(),
            room,
        )
    };
    accepted(fetched.number, fetched.line, fetched.column)?;
    Ok(fetched.count as usize)
}

pub fn fetch_string(
    pool: &[u64],
    name: &[u8],
    place: usize,
    buffer: &mut [u8],
) -> Result<usize, Refused> {
    let (words, room) = (pool.len(), buffer.len());
    // Safety: see above.
    let fetched = unsafe {
        sys::globe_fetch_string(
            pool.as_ptr(),
            words,
            name.as_ptr(),
            name.len(),
            place,
            buffer.as_mut_ptr(),
            room,
        )
    };
    accepted(fetched.number, fetched.line, fetched.column)?;
    Ok(fetched.count as usize)
}

pub fn totals(pool: &[u64]) -> Result<Totals, Refused> {
    // Safety: see above.
    let counts = unsafe { sys::globe_totals(pool.as_ptr(), pool.len()) };
    accepted(counts.number, counts.line, counts.column)?;
    Ok(Totals {
        texts: counts.texts as usize,
        statements: counts.statements as usize,
        values: counts.values as usize,
    })
}

pub fn orientation(pool: &[u64], body: u32, epoch: f64) -> Result<Orientation, Refused> {
    // Safety: see above.
    oriented(unsafe { sys::globe_orientation(pool.as_ptr(), pool.len(), body, epoch) })
}

pub fn builtin_orientation(body: u32, epoch: f64) -> Result<Orientation, Refused> {
    oriented(sys::globe_builtin_orientation(body, epoch))
}

pub fn radii(pool: &[u64], body: u32) -> Result<[f64; 3], Refused> {
    // Safety: see above.
    axes(unsafe { sys::globe_radii(pool.as_ptr(), pool.len(), body) })
}

pub fn builtin_radii(body: u32) -> Result<[f64; 3], Refused> {
    axes(sys::globe_builtin_radii(body))
}

pub fn position(pool: &[u64], body: u32, epoch: f64, ring: u32) -> Result<u32, Refused> {
    let words = pool.len();
    // Safety: see above.
    placed(unsafe { sys::globe_drive_position(pool.as_ptr(), words, body, epoch, ring) })
}

pub fn builtin_position(body: u32, epoch: f64, ring: u32) -> Result<u32, Refused> {
    placed(sys::globe_drive_builtin_position(body, epoch, ring))
}

pub fn motion(
    pool: &[u64],
    body: u32,
    epoch: f64,
    ring: u32,
    present: u32,
) -> Result<Motion, Refused> {
    let words = pool.len();
    // Safety: see above.
    moved(unsafe { sys::globe_drive_move(pool.as_ptr(), words, body, epoch, ring, present) })
}

pub fn builtin_motion(body: u32, epoch: f64, ring: u32, present: u32) -> Result<Motion, Refused> {
    moved(sys::globe_drive_builtin_move(body, epoch, ring, present))
}

/// Nothing if the number is that of success, else the refusal that it stands for.
fn accepted(number: u32, line: u32, column: u32) -> Result<(), Refused> {
    if number == sys::GLOBE_OK {
        return Ok(());
    }
    let refusal = Refusal::ALL
        .into_iter()
        .find(|refusal| refusal.number() == number)
        .expect("the library's numbers are those of the header");
    Err(Refused {
        refusal,
        line,
        column,
    })
}

fn oriented(o: sys::globe_oriented) -> Result<Orientation, Refused> {
    accepted(o.number, o.line, o.column)?;
    Ok(Orientation {
        ra: o.ra,
        dec: o.dec,
        w: o.w,
        matrix: [
            [o.m11, o.m12, o.m13],
            [o.m21, o.m22, o.m23],
            [o.m31, o.m32, o.m33],
        ],
    })
}

fn axes(x: sys::globe_axes) -> Result<[f64; 3], Refused> {
    accepted(x.number, x.line, x.column)?;
    Ok([x.a, x.b, x.c])
}

fn placed(p: sys::globe_position) -> Result<u32, Refused> {
    accepted(p.number, p.line, p.column)?;
    Ok(p.position)
}

fn moved(m: sys::globe_motion) -> Result<Motion, Refused> {
    accepted(m.number, m.line, m.column)?;
    Ok(Motion {
        target: m.target,
        steps: m.r#move,
    })
}
