//! The degree of a system's angles: what is one and what is none, whole groups and parts of them,
//! and angles of any degree. Beside the twin's answer the number is the one that is counted here.

use twin::layout::WORDS;
use twin::limits::{ANGLES, HIGHEST_DEGREE};

use crate::bodies::coefficient;
use crate::call::{Answer, Call};
use crate::epochs::admitted;
use crate::pair::Pair;
use crate::random::Random;
use crate::tally::Tally;

/// What a text says of a degree, and which one that is.
#[derive(Clone, Copy)]
pub struct Said {
    pub words: &'static str,
    pub degree: Option<usize>,
}

const fn said_of(words: &'static str, degree: usize) -> Said {
    let degree = Some(degree);
    Said { words, degree }
}

const fn none(words: &'static str) -> Said {
    let degree = None;
    Said { words, degree }
}

/// Degrees as they may be written, doubles next to them and near them, other counts and strings.
const SAID: [Said; 35] = [
    said_of("1", 1),
    said_of("1.0", 1),
    said_of("10E-1", 1),
    said_of("0.9999999999999999999", 1),
    said_of("1.0000000000000001", 1),
    said_of("2", 2),
    said_of("+2.", 2),
    said_of("0.02D2", 2),
    said_of("1.999999999999999999", 2),
    said_of("( 2 )", 2),
    said_of("3", 3),
    said_of("3.000", 3),
    said_of("300E-2", 3),
    said_of("2.999999999999999999", 3),
    none("0"),
    none("-0"),
    none("4"),
    none("-1"),
    none("-2"),
    none("1.5"),
    none("2.5"),
    none("1.000000000000001"),
    none("0.999999999999999"),
    none("2.000000000000001"),
    none("3.000000000000001"),
    none("1E22"),
    none("1E-22"),
    none("4294967297"),
    none("18446744073709551.62E3"),
    none("( 1 1 )"),
    none("( 2 0 )"),
    none("( 1, 2, 3 )"),
    none("'2'"),
    none("''"),
    none("( '1' '2' )"),
];

/// The bodies that are asked, each with its system.
const BODIES: [(u32, u32); 6] = [(399, 3), (301, 3), (3, 3), (10, 10), (100, 1), (999, 9)];

/// Numbers of groups and of coefficients where something begins or ends.
const MARKED: [usize; 6] = [0, 1, 2, ANGLES - 1, ANGLES, ANGLES + 1];

/// How often a body is asked.
const QUESTIONS: usize = 8;

/// What may be said of a degree, which mostly is one.
pub fn said(random: &mut Random) -> Said {
    let degrees = SAID.iter().filter(|said| said.degree.is_some()).count();
    if random.once_in(40) {
        SAID[degrees + random.below(SAID.len() - degrees)]
    } else {
        SAID[random.below(degrees)]
    }
}

/// A system and one body of it: what is said of its degree, how many values its angles have, and
/// how many coefficients each of the three terms.
struct System {
    body: u32,
    system: u32,
    said: Option<Said>,
    values: usize,
    terms: [usize; 3],
}

/// So many systems at random, and how their orientations were answered.
pub fn run(random: &mut Random, systems: usize) -> Tally {
    let mut tally = Tally::default();
    let mut pair = Pair::new(&vec![random.bits(); WORDS]);
    for _ in 0..systems {
        let system = System::random(random);
        system.compare(&mut pair, random, &mut tally);
    }
    tally
}

/// All that may be said of a degree and nothing, with few and with the most groups, each without
/// and with a part missing, for few and for the most coefficients; how that was answered.
pub fn run_marked(random: &mut Random) -> Tally {
    let mut tally = Tally::default();
    let mut pair = Pair::new(&vec![random.bits(); WORDS]);
    for said in SAID.into_iter().map(Some).chain([None]) {
        for values in marked_values(group(said)) {
            for longest in MARKED {
                let (body, system) = random.one(&BODIES);
                let system = System {
                    body,
                    system,
                    said,
                    values,
                    terms: terms(random, longest),
                };
                system.compare(&mut pair, random, &mut tally);
            }
        }
    }
    tally
}

/// How many values the marked numbers of groups have, whole ones and ones with a part missing.
fn marked_values(group: usize) -> impl Iterator<Item = usize> {
    let parts = (0..group).flat_map(move |part| MARKED.map(|groups| (groups * group, part)));
    parts.filter_map(|(whole, part)| whole.checked_sub(part))
}

/// Fails unless degree 1 gives the bits that no degree gives, and so does a higher one whose
/// further coefficients are 0, for so many systems.
pub fn compare_with_none(random: &mut Random, systems: usize) {
    let mut pair = Pair::new(&vec![random.bits(); WORDS]);
    for _ in 0..systems {
        let longest = random.between(1, ANGLES);
        let terms = terms(random, longest);
        let angles: Vec<[String; 2]> = (0..longest)
            .map(|_| [coefficient(random), coefficient(random)])
            .collect();
        let epoch = admitted(random);
        let body = body_lines(random, 399, terms);
        let pairs = format!("{body}{}", angle_lines(&angles, ""));
        let before = oriented(&mut pair, &pairs, epoch);
        assert_eq!(before.number, 0);
        for (degree, zeros) in [(1, ""), (2, "0"), (3, "0 0")] {
            let angles = angle_lines(&angles, zeros);
            let lines = format!("{body}{angles}BODY3_MAX_PHASE_DEGREE = {degree}\n");
            let after = oriented(&mut pair, &lines, epoch);
            assert_eq!(after, before, "{degree} {lines}");
        }
    }
}

/// The angles of system 3, each with as many zeros after its two coefficients.
fn angle_lines(angles: &[[String; 2]], zeros: &str) -> String {
    let lines = angles.iter().map(|[a, b]| format!("{a} {b} {zeros}\n"));
    format!(
        "BODY3_NUT_PREC_ANGLES = (\n{})\n",
        lines.collect::<String>()
    )
}

/// Loads lines into an empty pool.
fn load(pair: &mut Pair, lines: &str) {
    let text = format!("\\begindata\n{lines}");
    let (label, text) = (1, text.as_bytes());
    pair.ask(&Call::MakeEmpty);
    assert_eq!(pair.ask(&Call::Load { label, text }).number, 0, "{lines}");
}

/// The orientation of a body of system 3 by lines alone.
fn oriented(pair: &mut Pair, lines: &str, epoch: f64) -> Answer {
    load(pair, lines);
    let body = 399;
    pair.ask(&Call::Orientation { body, epoch })
}

/// The coefficients of a group by what is said of the degree.
fn group(said: Option<Said>) -> usize {
    said.and_then(|said| said.degree).unwrap_or(1) + 1
}

/// How many coefficients the three terms have, one of them the most.
fn terms(random: &mut Random, longest: usize) -> [usize; 3] {
    let mut terms = [0; 3].map(|_| random.below(longest + 1));
    terms[random.below(3)] = longest;
    terms
}

/// Pole, meridian and so many coefficients of the three terms.
fn body_lines(random: &mut Random, body: u32, terms: [usize; 3]) -> String {
    let mut lines = String::new();
    for word in ["POLE_RA", "POLE_DEC", "PM"] {
        add(&mut lines, random, body, word, 2);
    }
    for (word, count) in ["NUT_PREC_RA", "NUT_PREC_DEC", "NUT_PREC_PM"]
        .into_iter()
        .zip(terms)
    {
        add(&mut lines, random, body, word, count);
    }
    lines
}

/// A statement of so many values, none if there are none.
fn add(lines: &mut String, random: &mut Random, code: u32, word: &str, count: usize) {
    if count > 0 {
        let values: Vec<String> = (0..count).map(|_| coefficient(random)).collect();
        lines.push_str(&format!("BODY{code}_{word} = (\n{})\n", values.join("\n")));
    }
}

impl System {
    /// Any degree, and groups that mostly are enough.
    fn random(random: &mut Random) -> System {
        let (body, system) = random.one(&BODIES);
        let said = (!random.once_in(8)).then(|| said(random));
        let longest: usize = random.one(&[0, 1, 2, 3, 5, 13, 31, 32]);
        let groups = match random.below(12) {
            0 => random.below(ANGLES + 3),
            1 => longest.saturating_sub(1),
            2 => ANGLES + 1,
            3 | 4 => ANGLES,
            _ => random.between(longest, ANGLES),
        };
        let values = groups * group(said);
        let missing = if random.once_in(12) {
            random.between(1, HIGHEST_DEGREE)
        } else {
            0
        };
        System {
            body,
            system,
            said,
            values: values.saturating_sub(missing),
            terms: terms(random, longest),
        }
    }

    /// Asks for its orientation at some epochs; each answer has the number that is counted here.
    fn compare(&self, pair: &mut Pair, random: &mut Random, tally: &mut Tally) {
        let lines = self.lines(random);
        load(pair, &lines);
        for _ in 0..QUESTIONS {
            let (body, epoch) = (self.body, admitted(random));
            let answer = pair.ask(&Call::Orientation { body, epoch });
            assert_eq!(answer.number, self.number(), "{lines}");
            tally.add(answer.number);
        }
    }

    /// Its variables as lines of a data section, the degree before or after the others.
    fn lines(&self, random: &mut Random) -> String {
        let mut lines = body_lines(random, self.body, self.terms);
        add(
            &mut lines,
            random,
            self.system,
            "NUT_PREC_ANGLES",
            self.values,
        );
        let Some(said) = self.said else {
            return lines;
        };
        let degree = format!("BODY{}_MAX_PHASE_DEGREE = {}\n", self.system, said.words);
        if random.once_in(2) {
            degree + &lines
        } else {
            lines + &degree
        }
    }

    /// The number of its answers: whether there are terms, angles, a degree, and whole groups, not
    /// too many, and enough of them.
    fn number(&self) -> u32 {
        let longest = self.terms.into_iter().max().unwrap_or(0);
        let group = group(self.said);
        let (groups, rest) = (self.values / group, self.values % group);
        let is_none = self.said.is_some_and(|said| said.degree.is_none());
        match (longest, self.values) {
            (0, _) => 0,
            (_, 0) => 11,
            _ if is_none => 23,
            _ if rest > 0 || groups > ANGLES || groups < longest => 12,
            _ => 0,
        }
    }
}
