//! Random histories, compared with a model that keeps texts as lists and works everything out
//! anew at each question.

mod common;

use common::Random;
use twin::answers::{orientation, radii};
use twin::layout::WORDS;
use twin::parts::{close, drop, feed, open};
use twin::pool::{clear, fetch, fetch_string, load, make_empty, remove, totals, Totals};
use twin::refusal::{Refusal, Refused};
use twin::rotation::{check_epoch, evaluate, Elements, Nutation, Orientation};
use twin::text::{read, Operator, Statement, Value};

const HISTORIES: u64 = 4_000;
const CALLS: u64 = 30;

const LABELS: [u32; 20] = [
    0,
    1,
    2,
    3,
    4,
    5,
    6,
    7,
    8,
    9,
    10,
    11,
    12,
    13,
    14,
    15,
    16,
    17,
    18,
    u32::MAX,
];
const BODIES: [u32; 5] = [3, 10, 301, 399, 11];
/// One data section for each fault of a statement.
const FAULTY: [&str; 7] = [
    "X = ?",
    "X = 1\nY = 1E23",
    "X = ( 1",
    "X = 'a",
    "X = 1\n 'Y'",
    "X",
    "X = 1 2",
];
const WORDS_OF_A_BODY: [&str; 9] = [
    "POLE_RA",
    "POLE_DEC",
    "PM",
    "NUT_PREC_RA",
    "NUT_PREC_DEC",
    "NUT_PREC_PM",
    "NUT_PREC_ANGLES",
    "MAX_PHASE_DEGREE",
    "RADII",
];

#[test]
fn a_pool_answers_as_its_texts_do() {
    let mut random = Random(7);
    let mut met = [0u32; 25];
    for _ in 0..HISTORIES {
        let mut memory = vec![random.below(u64::MAX); WORDS];
        make_empty(&mut memory).unwrap();
        let mut model = Model::default();
        for _ in 0..CALLS {
            let number = step(&mut memory, &mut model, &mut random);
            met[number as usize] += 1;
        }
    }
    println!("answers by number: {met:?}");
    for number in [
        0, 1, 2, 6, 7, 8, 9, 10, 11, 12, 13, 14, 16, 17, 18, 19, 20, 21, 22, 23, 24,
    ] {
        assert!(met[number] > 0, "{number} is never met");
    }
}

/// One call on both sides; the number it is answered with.
fn step(memory: &mut [u64], model: &mut Model, random: &mut Random) -> u32 {
    let before = memory.to_vec();
    match random.below(26) {
        18..=25 => part_step(memory, model, random),
        0..=5 => {
            let label = random.one(&LABELS);
            let text = random_text(random);
            let answer = load(memory, label, &text);
            assert_eq!(answer, model.load(label, &text));
            keeps_if_refused(memory, &before, &answer)
        }
        6..=7 => {
            let label = random.one(&LABELS);
            let answer = remove(memory, label);
            assert_eq!(answer, model.remove(label));
            keeps_if_refused(memory, &before, &answer)
        }
        8 if random.below(8) == 0 => {
            let answer = clear(memory);
            assert_eq!(answer, model.clear());
            keeps_if_refused(memory, &before, &answer)
        }
        8..=9 => {
            let answer = totals(memory);
            assert_eq!(answer, Ok(model.totals()));
            number(&answer)
        }
        10..=11 => {
            let name = random_name(random);
            let room = random.one(&[0, 1, 2, 3, 4, 6, 3072]);
            let mut buffer = vec![0.0; room];
            let answer = fetch(memory, name.as_bytes(), &mut buffer);
            match model.fetch(name.as_bytes(), room) {
                Ok(values) => {
                    assert_eq!(answer, Ok(values.len()));
                    assert_eq!(bits(&buffer[..values.len()]), bits(&values));
                }
                Err(refusal) => assert_eq!(answer, Err(refusal.into())),
            }
            number(&answer)
        }
        12..=13 => string_step(memory, model, random),
        14..=16 => {
            let code = random.one(&BODIES);
            let epoch = random.one(&[0.0, 1e9, -3.3e10, f64::NAN]);
            let answer = orientation(memory, code, epoch);
            let expected = model.orientation(code, epoch);
            assert_eq!(
                answer.map(|o| bits(&o.doubles())),
                expected.map(|o| bits(&o.doubles()))
            );
            answer.map_or_else(Refusal::number, |_| 0)
        }
        _ => {
            let code = random.one(&BODIES);
            let answer = radii(memory, code);
            assert_eq!(answer, model.radii(code));
            answer.map_or_else(Refusal::number, |_| 0)
        }
    }
}

/// A text is opened, fed with a part of what is to come, closed or dropped, on both sides.
fn part_step(memory: &mut [u64], model: &mut Model, random: &mut Random) -> u32 {
    let before = memory.to_vec();
    match random.below(12) {
        0..=2 => {
            let label = random.one(&LABELS);
            let answer = open(memory, label);
            assert_eq!(answer, model.open(label));
            if answer.is_ok() {
                model.coming = random_text(random);
            }
            keeps_if_refused(memory, &before, &answer)
        }
        3..=8 => {
            let most = random.one(&[0, 1, 5, 40, 512, 70_000]);
            let length = model.coming.len().min(most);
            let part: Vec<u8> = model.coming.drain(..length).collect();
            let answer = feed(memory, &part);
            assert_eq!(answer, model.feed(&part));
            keeps_if_refused(memory, &before, &answer)
        }
        9 | 10 => {
            let answer = close(memory);
            assert_eq!(answer, model.close());
            assert_eq!(memory[4], 0);
            number(&answer)
        }
        _ => {
            let answer = drop(memory);
            assert_eq!(answer, model.drop());
            keeps_if_refused(memory, &before, &answer)
        }
    }
}

/// One fetch of a string on both sides.
fn string_step(memory: &[u64], model: &Model, random: &mut Random) -> u32 {
    let name = if random.below(2) == 0 {
        "CAPTION".to_string()
    } else {
        random_name(random)
    };
    let place = random.below(6) as usize;
    let room = random.one(&[0, 1, 5, 60]);
    let mut buffer = vec![1; room];
    let answer = fetch_string(memory, name.as_bytes(), place, &mut buffer);
    let mut expected = vec![1; room];
    match model.fetch_string(name.as_bytes(), place, room) {
        Ok(string) => {
            assert_eq!(answer, Ok(string.len()));
            expected[..string.len()].copy_from_slice(&string);
        }
        Err(refusal) => assert_eq!(answer, Err(refusal.into())),
    }
    assert_eq!(buffer, expected);
    number(&answer)
}

fn keeps_if_refused(memory: &[u64], before: &[u64], answer: &Result<(), Refused>) -> u32 {
    if answer.is_err() {
        assert_eq!(memory, before);
    }
    number(answer)
}

fn number<T>(answer: &Result<T, Refused>) -> u32 {
    match answer {
        Ok(_) => 0,
        Err(refused) => refused.refusal.number(),
    }
}

fn bits(values: &[f64]) -> Vec<u64> {
    values.iter().map(|value| value.to_bits()).collect()
}

/// The held texts in load order, the open one with all its bytes, and what is still to be fed.
#[derive(Default)]
struct Model {
    texts: Vec<(u32, Vec<Statement>)>,
    open: Option<(u32, Vec<u8>)>,
    coming: Vec<u8>,
}

impl Model {
    fn is_closed(&self) -> Result<(), Refused> {
        match self.open {
            None => Ok(()),
            Some(_) => Err(Refusal::TextOpen.into()),
        }
    }

    fn is_new(&self, label: u32) -> Result<(), Refused> {
        if self.texts.iter().any(|(held, _)| *held == label) {
            return Err(Refusal::LabelHeld.into());
        }
        Ok(())
    }

    fn open(&mut self, label: u32) -> Result<(), Refused> {
        self.is_closed()?;
        self.is_new(label)?;
        self.open = Some((label, Vec::new()));
        Ok(())
    }

    fn feed(&mut self, part: &[u8]) -> Result<(), Refused> {
        let (_, text) = self.open.as_mut().ok_or(Refusal::NotHeld)?;
        text.extend_from_slice(part);
        Ok(())
    }

    fn close(&mut self) -> Result<(), Refused> {
        let (label, text) = self.open.take().ok_or(Refusal::NotHeld)?;
        self.hold(label, &text)
    }

    fn drop(&mut self) -> Result<(), Refused> {
        self.open.take().ok_or(Refusal::NotHeld)?;
        Ok(())
    }

    fn clear(&mut self) -> Result<(), Refused> {
        self.is_closed()?;
        self.texts.clear();
        Ok(())
    }

    fn load(&mut self, label: u32, text: &[u8]) -> Result<(), Refused> {
        self.is_closed()?;
        self.is_new(label)?;
        if text.len() > 65_536 {
            return Err(Refusal::TextTooLong.into());
        }
        self.hold(label, text)
    }

    /// Holds a text, if it is right and there is room.
    fn hold(&mut self, label: u32, text: &[u8]) -> Result<(), Refused> {
        self.texts.push((label, read(text)?));
        let totals = self.totals();
        let string_bytes: usize = self
            .statements()
            .flat_map(|statement| &statement.values)
            .map(|value| string_of(value).map_or(0, |string| string.len()))
            .sum();
        if totals.texts > 16
            || totals.statements > 512
            || totals.values > 3072
            || string_bytes > 8192
        {
            self.texts.pop();
            return Err(Refusal::NoRoom.into());
        }
        Ok(())
    }

    fn remove(&mut self, label: u32) -> Result<(), Refused> {
        self.is_closed()?;
        let held = self.texts.len();
        self.texts.retain(|(other, _)| *other != label);
        if self.texts.len() == held {
            return Err(Refusal::NotHeld.into());
        }
        Ok(())
    }

    fn totals(&self) -> Totals {
        Totals {
            texts: self.texts.len(),
            statements: self.statements().count(),
            values: self.statements().map(|s| s.values.len()).sum(),
        }
    }

    fn statements(&self) -> impl Iterator<Item = &Statement> {
        self.texts.iter().flat_map(|(_, statements)| statements)
    }

    fn variable(&self, name: &[u8]) -> Option<Vec<Value>> {
        let of_name: Vec<&Statement> = self.statements().filter(|s| s.name == name).collect();
        let last_direct = of_name
            .iter()
            .rposition(|s| s.operator == Operator::Direct)
            .unwrap_or(0);
        let values = of_name.get(last_direct..)?;
        if values.is_empty() {
            return None;
        }
        Some(values.iter().flat_map(|s| s.values.clone()).collect())
    }

    fn fetch(&self, name: &[u8], room: usize) -> Result<Vec<f64>, Refusal> {
        let values = self.variable(name).ok_or(Refusal::NoVariable)?;
        let numbers = numbers_of(&values)?;
        if numbers.len() > room {
            return Err(Refusal::ShortBuffer);
        }
        Ok(numbers)
    }

    fn fetch_string(&self, name: &[u8], place: usize, room: usize) -> Result<Vec<u8>, Refusal> {
        let values = self.variable(name).ok_or(Refusal::NoVariable)?;
        if place == 0 || place > values.len() {
            return Err(Refusal::NoVariable);
        }
        let strings: Option<Vec<&Vec<u8>>> = values.iter().map(string_of).collect();
        let string = strings.ok_or(Refusal::MixedKind)?[place - 1];
        if string.len() > room {
            return Err(Refusal::ShortBuffer);
        }
        Ok(string.clone())
    }

    fn body(&self, code: u32, word: &str) -> Option<Vec<Value>> {
        self.variable(format!("BODY{code}_{word}").as_bytes())
    }

    fn orientation(&self, code: u32, epoch: f64) -> Result<Orientation, Refusal> {
        check_epoch(epoch)?;
        if code == 0 || (code > 10 && code < 100) || code > 999 {
            return Err(Refusal::UnknownBody);
        }
        let system = if code <= 10 { code } else { code / 100 };
        let elements = ["POLE_RA", "POLE_DEC", "PM"].map(|word| self.body(code, word));
        if elements.iter().all(Option::is_none) {
            return Err(Refusal::UnknownBody);
        }
        let terms =
            ["NUT_PREC_RA", "NUT_PREC_DEC", "NUT_PREC_PM"].map(|word| self.body(code, word));
        let angles = self.body(system, "NUT_PREC_ANGLES");
        let wants_angles = terms.iter().any(Option::is_some);
        if elements.iter().any(Option::is_none) || (wants_angles && angles.is_none()) {
            return Err(Refusal::Incomplete);
        }
        let angles = angles.filter(|_| wants_angles);
        let degree = if wants_angles {
            degree_of(self.body(system, "MAX_PHASE_DEGREE"))?
        } else {
            1
        };
        let all = elements.iter().chain(&terms).chain([&angles]).flatten();
        for values in all {
            numbers_of(values)?;
        }
        let [ra, dec, pm] = elements.map(numbers_or_none);
        let terms = terms.map(numbers_or_none);
        let angles = numbers_or_none(angles);
        let longest = terms.iter().map(Vec::len).max().unwrap_or(0);
        let group = degree + 1;
        let wrong_angles =
            angles.len() % group > 0 || angles.len() > 32 * group || angles.len() < longest * group;
        if [&ra, &dec, &pm].iter().any(|values| values.len() > 3) || (wants_angles && wrong_angles)
        {
            return Err(Refusal::WrongCount);
        }
        let elements = Elements {
            ra: padded(&ra),
            dec: padded(&dec),
            pm: padded(&pm),
        };
        let nutation = Nutation {
            degree,
            angles: &angles,
            ra: &terms[0],
            dec: &terms[1],
            pm: &terms[2],
        };
        Ok(evaluate(&elements, &nutation, epoch))
    }

    fn radii(&self, code: u32) -> Result<[f64; 3], Refusal> {
        if !(1..=10).contains(&code) && !(100..=999).contains(&code) {
            return Err(Refusal::UnknownBody);
        }
        let radii = self.body(code, "RADII").ok_or(Refusal::UnknownBody)?;
        let radii = numbers_of(&radii)?;
        let radii: [f64; 3] = radii.try_into().map_err(|_| Refusal::WrongCount)?;
        for radius in radii {
            if radius.is_sign_negative() || radius == 0.0 {
                return Err(Refusal::BadRadius);
            }
        }
        Ok(radii)
    }
}

fn string_of(value: &Value) -> Option<&Vec<u8>> {
    match value {
        Value::Number(_) => None,
        Value::String(string) => Some(string),
    }
}

/// The values of a variable, if all are numbers.
fn numbers_of(values: &[Value]) -> Result<Vec<f64>, Refusal> {
    let numbers = values.iter().map(|value| match value {
        Value::Number(number) => Ok(*number),
        Value::String(_) => Err(Refusal::MixedKind),
    });
    numbers.collect()
}

/// The degree that a variable gives.
fn degree_of(variable: Option<Vec<Value>>) -> Result<usize, Refusal> {
    match variable.as_deref() {
        None => Ok(1),
        Some([Value::Number(number)]) if [1.0, 2.0, 3.0].contains(number) => Ok(*number as usize),
        Some(_) => Err(Refusal::BadDegree),
    }
}

fn numbers_or_none(values: Option<Vec<Value>>) -> Vec<f64> {
    numbers_of(&values.unwrap_or_default()).unwrap_or_default()
}

fn padded(values: &[f64]) -> [f64; 3] {
    let mut all = [0.0; 3];
    all[..values.len()].copy_from_slice(values);
    all
}

fn random_name(random: &mut Random) -> String {
    format!(
        "BODY{}_{}",
        random.one(&BODIES),
        random.one(&WORDS_OF_A_BODY)
    )
}

/// A text: a whole body, some statements, many of them, or a faulty one.
fn random_text(random: &mut Random) -> Vec<u8> {
    let mut text = String::from("\\begindata\n");
    match random.below(14) {
        0..=4 => {
            let body = random.one(&BODIES);
            for word in ["POLE_RA", "POLE_DEC", "PM", "RADII"] {
                let count = if word == "RADII" {
                    3
                } else {
                    1 + random.below(3)
                };
                add(
                    &mut text,
                    random,
                    &format!("BODY{body}_{word}"),
                    " = ",
                    count,
                );
            }
            if random.below(2) == 0 {
                let name = random.one(&["NUT_PREC_RA", "NUT_PREC_DEC", "NUT_PREC_PM"]);
                let count = 1 + random.below(4);
                add(
                    &mut text,
                    random,
                    &format!("BODY{body}_{name}"),
                    " = ",
                    count,
                );
                let system = random.one(&[3, 10]);
                if random.below(2) == 0 {
                    let degree = random.one(&["1", "2.0", "30D-1", "2", "3", "0", "'2'"]);
                    text.push_str(&format!("BODY{system}_MAX_PHASE_DEGREE = {degree}\n"));
                }
                let count = random.one(&[12, 24, 24, 2, 7, 64, 66, 96, 99, 128, 132]);
                add(
                    &mut text,
                    random,
                    &format!("BODY{system}_NUT_PREC_ANGLES"),
                    " = ",
                    count,
                );
            }
        }
        5..=8 => {
            for _ in 0..random.below(5) {
                let name = random_name(random);
                let operator = random.one(&[" = ", " += "]);
                let count = 1 + random.below(4);
                add(&mut text, random, &name, operator, count);
            }
        }
        9 => {
            for _ in 0..random.below(300) {
                add(&mut text, random, "MANY", " += ", 1);
            }
            let count = 1 + random.below(1200);
            add(&mut text, random, "MANY", " += ", count);
        }
        10 => text = "\n".repeat(65_530 + random.below(12) as usize),
        11..=12 => add_strings(&mut text, random),
        _ => text.push_str(random.one(&FAULTY)),
    }
    text.into_bytes()
}

/// Captions, mostly under their own name, now and then so many that no room is left.
fn add_strings(text: &mut String, random: &mut Random) {
    for _ in 0..random.one(&[1, 2, 5, 60]) {
        let name = if random.below(4) == 0 {
            random_name(random)
        } else {
            "CAPTION".to_string()
        };
        text.push_str(&name);
        text.push_str(random.one(&[" = (", " += (", " += ("]));
        for _ in 0..1 + random.below(3) {
            let length = random.one(&[0, 1, 4, 7, 8, 9, 60]) as usize;
            let bytes = random.one(&["caption", "''", "\t (,) ", "it''s "]);
            text.push_str(&format!("\n'{}'", repeated(bytes, length)));
        }
        text.push_str(")\n");
    }
}

/// What stands for so many bytes at most: quotes are not torn apart.
fn repeated(written: &str, length: usize) -> String {
    let bytes = written.replace("''", "'").len();
    written.repeat(length / bytes)
}

fn add(text: &mut String, random: &mut Random, name: &str, operator: &str, count: u64) {
    text.push_str(name);
    text.push_str(operator);
    text.push('(');
    for _ in 0..count {
        text.push_str(random.one(&[
            "\n0",
            "\n-0",
            "\n1.5",
            "\n-270.25",
            "\n3.5E2",
            "\n1D-9",
            "\n13",
        ]));
    }
    text.push_str(")\n");
}
