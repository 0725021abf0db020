//! The deepest stack of each call, over pools and arguments that take it through all it does.

use globe_sys as sys;
use twin::limits::{STRING_BYTES, VALUES};
use twin::parts;

use crate::numbers;
use crate::stack::{depth, Call};
use crate::strings::full_pool;
use crate::texts::{body, captions, kernel, system};
use crate::work::{pool_of, pool_of_degree};

/// The epoch of every call; those that take none do not look at its register.
const EPOCH: f64 = 1e9;

/// A label that no pool here holds.
const FREE_LABEL: usize = 99;

/// The words of the largest answer, an orientation, and more.
const ANSWER_WORDS: usize = 16;

/// A function of the C face, and what it is called with after the pool.
struct Probe {
    name: &'static str,
    function: *const (),
    /// Whether its answer is too large for registers, and goes to memory.
    answers_in_memory: bool,
    takes_pool: bool,
    arguments: Vec<Vec<usize>>,
}

/// What is lent beside the pool.
struct Lent {
    texts: Vec<String>,
    name: &'static [u8],
    buffer: Vec<f64>,
    caption: &'static [u8],
    bytes: Vec<u8>,
}

/// Each call with the bytes of its deepest stack.
pub fn stacks() -> Vec<(&'static str, usize)> {
    let mut lent = Lent {
        texts: [
            kernel(),
            system(15),
            captions(0..15),
            String::from("\\begindata\nX = ( 1 2 1E99"),
        ]
        .into_iter()
        .chain(numbers::texts())
        .collect(),
        name: b"BODY100_NUT_PREC_RA",
        buffer: vec![0.0; VALUES],
        caption: b"GLOBE14_CAPTION",
        bytes: vec![0; STRING_BYTES],
    };
    let mut pools = vec![
        pool_of(0),
        pool_of(6),
        pool_of(16),
        full_pool(),
        pool_of_degree(6, 3),
        pool_of(16),
    ];
    // The last one is damaged: its values are one fewer than its statements say.
    pools[5][2] -= 1;
    // In some more a text is open, in the middle of a line that can be read once it is complete.
    pools.extend([0, 6, 15].map(|texts| {
        let mut words = pool_of(texts);
        parts::open(&mut words, FREE_LABEL as u32).expect("a free label");
        parts::feed(&mut words, b"note\n\\begindata\nX = ( 'a' )\nY = ( 1.5E")
            .expect("an open text");
        words
    }));
    probes(&mut lent)
        .iter()
        .map(|probe| (probe.name, probe.deepest(&pools)))
        .collect()
}

fn probes(lent: &mut Lent) -> Vec<Probe> {
    let bodies = [body(0, 0), body(5, 2), body(15, 0), 301, 11].map(|body| vec![body as usize]);
    let table = vec![vec![10], vec![399], vec![899], vec![11]];
    let loads = lent
        .texts
        .iter()
        .map(|text| vec![FREE_LABEL, text.as_ptr() as usize, text.len()])
        .collect();
    let feeds = lent
        .texts
        .iter()
        .map(|text| vec![text.as_ptr() as usize, text.len()])
        .collect();
    let (name, buffer) = (lent.name.as_ptr(), lent.buffer.as_mut_ptr());
    let fetch = vec![name as usize, lent.name.len(), buffer as usize, VALUES];
    let (name, bytes) = (lent.caption.as_ptr(), lent.bytes.as_mut_ptr());
    let string = |place: usize| {
        let length = lent.caption.len();
        vec![name as usize, length, place, bytes as usize, STRING_BYTES]
    };
    let strings = [1, 10, 11].map(string).to_vec();
    let nothing = vec![vec![]];
    vec![
        replying("make empty", sys::globe_make_empty as _, nothing.clone()),
        replying("load", sys::globe_load as _, loads),
        replying("open", sys::globe_open as _, vec![vec![FREE_LABEL + 1]]),
        replying("feed", sys::globe_feed as _, feeds),
        replying("close", sys::globe_close as _, nothing.clone()),
        replying("drop", sys::globe_drop as _, nothing.clone()),
        replying(
            "remove",
            sys::globe_remove as _,
            vec![vec![0], vec![FREE_LABEL]],
        ),
        replying("clear", sys::globe_clear as _, nothing.clone()),
        replying("fetch", sys::globe_fetch as _, vec![fetch]),
        replying("fetch string", sys::globe_fetch_string as _, strings),
        telling("totals", sys::globe_totals as _, nothing),
        telling("orientation", sys::globe_orientation as _, bodies.to_vec()),
        telling("radii", sys::globe_radii as _, bodies.to_vec()),
        Probe {
            takes_pool: false,
            ..telling(
                "orientation, built in",
                sys::globe_builtin_orientation as _,
                table.clone(),
            )
        },
        Probe {
            takes_pool: false,
            ..telling(
                "radii, built in",
                sys::globe_builtin_radii as _,
                table.clone(),
            )
        },
        replying("position", sys::globe_drive_position as _, on_ring(&bodies)),
        telling("move", sys::globe_drive_move as _, on_ring(&bodies)),
        Probe {
            takes_pool: false,
            ..replying(
                "position, built in",
                sys::globe_drive_builtin_position as _,
                on_ring(&table),
            )
        },
        Probe {
            takes_pool: false,
            ..telling(
                "move, built in",
                sys::globe_drive_builtin_move as _,
                on_ring(&table),
            )
        },
    ]
}

/// The bodies with the largest ring and a present position of it, which a position does not look at.
fn on_ring(bodies: &[Vec<usize>]) -> Vec<Vec<usize>> {
    let mut all = bodies.to_vec();
    all.iter_mut().for_each(|body| body.extend([4_096, 1_000]));
    all
}

/// A call on a pool that answers in registers.
fn replying(name: &'static str, function: *const (), arguments: Vec<Vec<usize>>) -> Probe {
    Probe {
        name,
        function,
        answers_in_memory: false,
        takes_pool: true,
        arguments,
    }
}

/// A call on a pool that answers in memory.
fn telling(name: &'static str, function: *const (), arguments: Vec<Vec<usize>>) -> Probe {
    Probe {
        answers_in_memory: true,
        ..replying(name, function, arguments)
    }
}

impl Probe {
    /// The deepest stack over all pools and arguments.
    fn deepest(&self, pools: &[Vec<u64>]) -> usize {
        let depths = pools
            .iter()
            .flat_map(|pool| self.arguments.iter().map(|rest| self.depth(pool, rest)));
        depths.max().unwrap_or(0)
    }

    fn depth(&self, start: &[u64], rest: &[usize]) -> usize {
        let mut answer = [0_u64; ANSWER_WORDS];
        let mut pool = start.to_vec();
        let prepared = || {
            let mut integers = Vec::new();
            if self.answers_in_memory {
                integers.push(answer.as_mut_ptr() as usize);
            }
            if self.takes_pool {
                pool.copy_from_slice(start);
                integers.extend([pool.as_mut_ptr() as usize, pool.len()]);
            }
            integers.extend_from_slice(rest);
            integers.resize(7, 0);
            Call {
                function: self.function,
                integers: integers.try_into().unwrap_or_default(),
                double: EPOCH,
            }
        };
        // Safety: these are the arguments of the function, and what they point to lives.
        unsafe { depth(prepared) }
    }
}
