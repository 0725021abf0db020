//! The twin's side of a call.

use twin::answers::{orientation, radii};
use twin::builtin::{builtin_orientation, builtin_radii};
use twin::drive::{motion, position, Motion, Source};
use twin::parts::{close, drop, feed, open};
use twin::pool::{clear, fetch, fetch_string, load, make_empty, remove, totals};
use twin::refusal::{Refusal, Refused};
use twin::rotation::Orientation;

use crate::buffers::Buffers;
use crate::call::{Answer, Call};

/// Makes a call; a fetch gets as much of its buffer as it has room.
pub fn answer(call: &Call, pool: &mut [u64], buffers: &mut Buffers) -> Answer {
    match *call {
        Call::MakeEmpty => answered(make_empty(pool), |()| Answer::default()),
        Call::Load { label, text } => answered(load(pool, label, text), |()| Answer::default()),
        Call::Open { label } => answered(open(pool, label), |()| Answer::default()),
        Call::Feed { part } => answered(feed(pool, part), |()| Answer::default()),
        Call::Close => answered(close(pool), |()| Answer::default()),
        Call::Drop => answered(drop(pool), |()| Answer::default()),
        Call::Remove { label } => answered(remove(pool, label), |()| Answer::default()),
        Call::Clear => answered(clear(pool), |()| Answer::default()),
        Call::Fetch { name, room } => {
            answered(fetch(pool, name, &mut buffers.values[..room]), counted)
        }
        Call::FetchString { name, place, room } => {
            let buffer = &mut buffers.bytes[..room];
            answered(fetch_string(pool, name, place, buffer), counted)
        }
        Call::Totals => answered(totals(pool), |t| {
            Answer::default().with_counts([t.texts, t.statements, t.values].map(|n| n as u32))
        }),
        Call::Orientation { body, epoch } => oriented(orientation(pool, body, epoch)),
        Call::BuiltinOrientation { body, epoch } => oriented(builtin_orientation(body, epoch)),
        Call::Radii { body } => axes(radii(pool, body)),
        Call::BuiltinRadii { body } => axes(builtin_radii(body)),
        Call::Position { body, epoch, ring } => {
            placed(position(Source::Pool(pool), body, epoch, ring))
        }
        Call::BuiltinPosition { body, epoch, ring } => {
            placed(position(Source::Builtin, body, epoch, ring))
        }
        Call::Move {
            body,
            epoch,
            ring,
            present,
        } => moved(motion(Source::Pool(pool), body, epoch, ring, present)),
        Call::BuiltinMove {
            body,
            epoch,
            ring,
            present,
        } => moved(motion(Source::Builtin, body, epoch, ring, present)),
    }
}

/// A refusal has a number, a line, a column and nothing else.
fn answered<T>(result: Result<T, Refused>, answer: impl Fn(T) -> Answer) -> Answer {
    match result {
        Ok(value) => answer(value),
        Err(refused) => Answer::of(
            refused.refusal.number(),
            refused.line as u32,
            refused.column as u32,
        ),
    }
}

fn counted(count: usize) -> Answer {
    Answer::default().with_counts([count as u32, 0, 0])
}

fn oriented(result: Result<Orientation, Refusal>) -> Answer {
    answered(result.map_err(Refused::from), |o| {
        Answer::default().with_doubles(&o.doubles())
    })
}

fn axes(result: Result<[f64; 3], Refusal>) -> Answer {
    answered(result.map_err(Refused::from), |radii| {
        Answer::default().with_doubles(&radii)
    })
}

fn placed(result: Result<u32, Refusal>) -> Answer {
    answered(result.map_err(Refused::from), |position| {
        Answer::default().with_motion(position, 0)
    })
}

fn moved(result: Result<Motion, Refusal>) -> Answer {
    answered(result.map_err(Refused::from), |motion| {
        Answer::default().with_motion(motion.target, motion.steps)
    })
}
