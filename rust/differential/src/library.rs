//! The library's side of a call, straight through its C face.

use globe_sys::{
    globe_axes, globe_builtin_orientation, globe_builtin_radii, globe_clear, globe_close,
    globe_drive_builtin_move, globe_drive_builtin_position, globe_drive_move, globe_drive_position,
    globe_drop, globe_feed, globe_fetch, globe_fetch_string, globe_fetched, globe_load,
    globe_make_empty, globe_motion, globe_open, globe_orientation, globe_oriented, globe_position,
    globe_radii, globe_remove, globe_reply, globe_totals,
};

use crate::buffers::Buffers;
use crate::call::{Answer, Call};

/// Makes a call; a fetch gets as much of its buffer as it has room.
pub fn answer(call: &Call, pool: &mut [u64], buffers: &mut Buffers) -> Answer {
    let (memory, words) = (pool.as_mut_ptr(), pool.len());
    // Safety: each pointer has as many elements behind it as is said, and no two slices overlap.
    unsafe {
        match *call {
            Call::MakeEmpty => replied(globe_make_empty(memory, words)),
            Call::Load { label, text } => {
                replied(globe_load(memory, words, label, text.as_ptr(), text.len()))
            }
            Call::Open { label } => replied(globe_open(memory, words, label)),
            Call::Feed { part } => replied(globe_feed(memory, words, part.as_ptr(), part.len())),
            Call::Close => replied(globe_close(memory, words)),
            Call::Drop => replied(globe_drop(memory, words)),
            Call::Remove { label } => replied(globe_remove(memory, words, label)),
            Call::Clear => replied(globe_clear(memory, words)),
            Call::Fetch { name, room } => {
                let buffer = buffers.values[..room].as_mut_ptr();
                let (name, length) = (name.as_ptr(), name.len());
                fetched(globe_fetch(memory, words, name, length, buffer, room))
            }
            Call::FetchString { name, place, room } => {
                let buffer = buffers.bytes[..room].as_mut_ptr();
                let (name, length) = (name.as_ptr(), name.len());
                fetched(globe_fetch_string(
                    memory, words, name, length, place, buffer, room,
                ))
            }
            Call::Totals => {
                let c = globe_totals(memory, words);
                Answer::of(c.number, c.line, c.column).with_counts([
                    c.texts,
                    c.statements,
                    c.values,
                ])
            }
            Call::Orientation { body, epoch } => {
                oriented(globe_orientation(memory, words, body, epoch))
            }
            Call::BuiltinOrientation { body, epoch } => {
                oriented(globe_builtin_orientation(body, epoch))
            }
            Call::Radii { body } => axes(globe_radii(memory, words, body)),
            Call::BuiltinRadii { body } => axes(globe_builtin_radii(body)),
            Call::Position { body, epoch, ring } => {
                placed(globe_drive_position(memory, words, body, epoch, ring))
            }
            Call::BuiltinPosition { body, epoch, ring } => {
                placed(globe_drive_builtin_position(body, epoch, ring))
            }
            Call::Move {
                body,
                epoch,
                ring,
                present,
            } => moved(globe_drive_move(memory, words, body, epoch, ring, present)),
            Call::BuiltinMove {
                body,
                epoch,
                ring,
                present,
            } => moved(globe_drive_builtin_move(body, epoch, ring, present)),
        }
    }
}

fn replied(r: globe_reply) -> Answer {
    Answer::of(r.number, r.line, r.column)
}

fn fetched(f: globe_fetched) -> Answer {
    Answer::of(f.number, f.line, f.column).with_counts([f.count, 0, 0])
}

fn oriented(o: globe_oriented) -> Answer {
    let doubles = [
        o.ra, o.dec, o.w, o.m11, o.m12, o.m13, o.m21, o.m22, o.m23, o.m31, o.m32, o.m33,
    ];
    Answer::of(o.number, o.line, o.column).with_doubles(&doubles)
}

fn axes(x: globe_axes) -> Answer {
    Answer::of(x.number, x.line, x.column).with_doubles(&[x.a, x.b, x.c])
}

fn placed(p: globe_position) -> Answer {
    Answer::of(p.number, p.line, p.column).with_motion(p.position, 0)
}

fn moved(m: globe_motion) -> Answer {
    Answer::of(m.number, m.line, m.column).with_motion(m.target, m.r#move)
}
