//! Settings blocks: any bytes and any settings to the library's three functions. The crate has no such thing, so what is expected is a reading of
//! docs/SETTINGS.md: a block as a list of numbers, the target as a number, the tests in their order.
use crate::files::LentBytes;
use crate::limits::{BLOCK_BYTES, COUNT_WORDS, SETTINGS_VERSION};
use crate::random::Random;
use crate::reading::Refused;
use crate::request::written_form;
use houayletan::{lent, Count, Direction, Refusal, Setting, Target};
use num_bigint::BigUint;
use std::collections::BTreeMap;

/// Bytes before the sums, and where the target stands.
const SUMMED: usize = BLOCK_BYTES - 4;
const TARGET: std::ops::Range<usize> = 4..68;

/// Direction, kind, flag and target, as they are offered.
#[derive(Clone, Debug, Eq, PartialEq)]
struct Fields {
    direction: u32,
    kind: u32,
    flag: u32,
    target: BigUint,
}

#[derive(Clone, Debug)]
enum Request {
    /// By the reader that knows versions up to this one.
    Read { newest: u32, bytes: Vec<u8>, seed: u32 },
    Write { version: u32, fields: Fields, lent: usize, seed: u32 },
}

/// A version and fields; of a writer also its block.
type Answer = Result<(u32, Fields, Vec<u8>), Refused>;

impl Request {
    fn name(&self) -> &'static str {
        match self {
            Request::Read { newest: 1, .. } => "read_settings_v1",
            Request::Read { .. } => "read_settings",
            Request::Write { .. } => "write_settings",
        }
    }
}

// ---- the reading

fn sums(front: &[u8]) -> [u8; 4] {
    let plain: u64 = front.iter().map(|b| *b as u64).sum();
    let weighed: u64 = front.iter().enumerate().map(|(i, b)| (i as u64 + 1) * *b as u64).sum();
    [plain % 256, plain / 256 % 256, weighed % 256, weighed / 256 % 256].map(|x| x as u8)
}

fn sealed(front: &[u8]) -> Vec<u8> {
    [front, &sums(front)].concat()
}

fn block(version: u32, fields: &Fields) -> Vec<u8> {
    let mut front: Vec<u8> = [version, fields.direction, fields.kind, fields.flag].map(|x| x as u8).into();
    front.extend(fields.target.to_bytes_le());
    front.resize(SUMMED, 0);
    sealed(&front)
}

fn in_range(version: u32, fields: &Fields) -> bool {
    let bits = if fields.kind == 0 { 32 } else { 32 * COUNT_WORDS as u64 };
    fields.direction <= 1 && fields.kind <= 1 && fields.flag <= (version != 1) as u32 && fields.target.bits() <= bits
}

fn read(newest: u32, bytes: &[u8]) -> Answer {
    if bytes.len() != BLOCK_BYTES {
        return Err((21, 0));
    }
    let (front, back) = bytes.split_at(SUMMED);
    if sums(front) != back {
        return Err((22, 0));
    }
    let version = front[0] as u32;
    if !(1..=newest).contains(&version) {
        return Err((38, 0));
    }
    let flag = if version == 1 { 0 } else { front[3] };
    let [direction, kind, flag] = [front[1], front[2], flag].map(u32::from);
    let fields = Fields { direction, kind, flag, target: BigUint::from_bytes_le(&front[TARGET]) };
    if !in_range(version, &fields) {
        return Err((39, 0));
    }
    // all that the fields don't account for
    if front != &block(version, &fields)[..SUMMED] {
        return Err((24, 0));
    }
    Ok((version, fields, vec![]))
}

fn write(version: u32, fields: &Fields, lent: usize) -> Answer {
    if !(1..=SETTINGS_VERSION as u32).contains(&version) {
        Err((38, 0))
    } else if !in_range(version, fields) {
        Err((39, 0))
    } else if lent < BLOCK_BYTES {
        Err((4, 0))
    } else {
        Ok((version, fields.clone(), block(version, fields)))
    }
}

fn expected(request: &Request) -> Answer {
    match request {
        Request::Read { newest, bytes, .. } => read(*newest, bytes),
        Request::Write { version, fields, lent, .. } => write(*version, fields, *lent),
    }
}

// ---- the library

fn words_of(target: &BigUint) -> [u32; COUNT_WORDS] {
    let mut words = [0; COUNT_WORDS];
    words.iter_mut().zip(target.to_u32_digits()).for_each(|(to, from)| *to = from);
    words
}

fn lent_form(fields: &Fields) -> lent::Setting {
    let Fields { direction, kind, flag, target } = fields;
    lent::Setting { direction: *direction, kind: *kind, as_is: *flag, target: Count::new(words_of(target)) }
}

fn fields_of(setting: lent::Setting) -> Fields {
    let lent::Setting { direction, kind, as_is, target } = setting;
    Fields { direction, kind, flag: as_is, target: BigUint::from_slice(&target.words()) }
}

/// The library's answer, or what it did wrong to what it was lent.
fn ask(request: &Request) -> Result<Answer, &'static str> {
    match request {
        Request::Read { newest, bytes, seed } => {
            let mut lent = LentBytes::of(bytes, *seed);
            let read = if *newest == 1 { lent::read_settings_v1(lent.bytes()) } else { lent::read_settings(lent.bytes()) };
            let lent::SettingRead { number, place, version, setting } = read;
            match number {
                _ if !lent.guarded() => Err("a guard has changed"),
                _ if lent.bytes() != bytes => Err("the input has changed"),
                0 if place == 0 => Ok(Ok((version, fields_of(setting), vec![]))),
                0 => Err("an answer has a place"),
                _ if version == 0 && setting == lent::Setting::default() => Ok(Err((number, place))),
                _ => Err("a refusal shows something"),
            }
        }
        Request::Write { version, fields, lent, seed } => {
            let mut output = LentBytes::new(*lent, *seed);
            let lent::SettingWritten { number, place, bytes } = lent::write_settings(*version, lent_form(fields), output.bytes());
            let written = if number == 0 { BLOCK_BYTES } else { 0 };
            match number {
                _ if !output.guarded() => Err("a guard has changed"),
                _ if bytes != written || number == 0 && place != 0 => Err("the number of bytes, or a place"),
                _ if bytes > *lent || !output.kept_from(bytes) => Err("what was lent beyond the result"),
                0 => Ok(Ok((*version, fields.clone(), output.bytes()[..bytes].to_vec()))),
                _ => Ok(Err((number, place))),
            }
        }
    }
}

/// As the Rust crate's type has it, where it does.
fn typed(fields: &Fields) -> Option<Setting> {
    let direction = [Direction::Under, Direction::Over].get(fields.direction as usize).copied()?;
    let target = match fields.kind {
        0 => Target::Size(u32::try_from(&fields.target).ok()?),
        1 => Target::Count(Count::new(words_of(&fields.target))),
        _ => return None,
    };
    (fields.flag <= 1).then_some(Setting { direction, target, as_is: fields.flag == 1 })
}

/// By the functions that allocate for themselves; whether they could be asked: not for fields that their type hasn't, nor for a short output.
fn held_to(request: &Request, expected: &Answer) -> Result<bool, String> {
    let refused = |(number, place): &Refused| Refusal { number: *number, place: *place };
    let (said, wanted) = match request {
        Request::Read { newest, bytes, .. } => {
            let said = if *newest == 1 { houayletan::read_settings_v1(bytes).map(|setting| (1, setting)) } else { houayletan::read_settings(bytes) };
            let wanted = expected.as_ref().map(|(version, fields, _)| (*version, typed(fields).expect("a setting"))).map_err(refused);
            (format!("{said:?}"), format!("{wanted:?}"))
        }
        Request::Write { version, fields, .. } => {
            let (Some(setting), true) = (typed(fields), !matches!(expected, Err((4, _)))) else { return Ok(false) };
            let said = houayletan::write_settings(*version, setting).map(|block| block.to_vec());
            (format!("{said:?}"), format!("{:?}", expected.as_ref().map(|(_, _, block)| block.clone()).map_err(refused)))
        }
    };
    if said == wanted { Ok(true) } else { Err(format!("expected {wanted}, got {said}")) }
}

// ---- the requests

/// Mostly in its range; in a third one field is anything.
fn any_fields(random: &mut Random) -> (u32, Fields) {
    let mut version = random.from_to(1, 2) as u32;
    let kind = random.below(2) as u32;
    let bits = random.from_to(0, if kind == 0 { 32 } else { 32 * COUNT_WORDS });
    let any = BigUint::from_slice(&[0; COUNT_WORDS].map(|_| random.word()));
    let most = (BigUint::from(1u32) << bits) - 1u32;
    let target = if random.one_in(4) { most } else { any & most };
    let flag = if version == 1 && !random.one_in(10) { 0 } else { random.below(2) as u32 };
    let mut fields = Fields { direction: random.below(2) as u32, kind, flag, target };
    let far = random.pick(&[2, 3, 128, 255, 256, 257, u32::MAX]);
    match random.below(15) {
        0 => fields.direction = far,
        1 => fields.kind = far,
        2 => fields.flag = far,
        3 => fields.target = BigUint::from(random.pick(&[1u64 << 32, (1 << 32) - 1, u64::MAX])) << random.pick(&[0, 0, 64, 440]),
        4 => version = random.pick(&[0, 3, 4, 255, 256, 257, 258, u32::MAX]),
        _ => (),
    }
    (version, fields)
}

/// A block whole, or changed: any bytes, another length, a byte or a few, two exchanged; with the sums left or mended.
fn any_block(random: &mut Random) -> Vec<u8> {
    let (version, fields) = any_fields(random);
    let mut bytes = block(version, &fields);
    match random.below(10) {
        0 => bytes = (0..BLOCK_BYTES).map(|_| random.word() as u8).collect(),
        1 => {
            let len = random.pick(&[0, 1, 4, SUMMED, BLOCK_BYTES - 1, BLOCK_BYTES + 1, BLOCK_BYTES + 2, 2 * BLOCK_BYTES]);
            bytes.resize(len, random.word() as u8 & 1);
            return bytes;
        }
        2 => (0..random.from_to(1, 3)).for_each(|_| bytes[random.below(BLOCK_BYTES)] ^= 1 << random.below(8)),
        3 => bytes[random.below(TARGET.end + 1)] ^= random.word() as u8,
        4 => bytes[random.from_to(TARGET.end, SUMMED - 1)] = random.word() as u8,
        5 => bytes.swap(random.below(BLOCK_BYTES), random.below(TARGET.end)),
        6 => bytes[random.below(4)] = random.pick(&[0, 1, 2, 3, 255]),
        _ => return bytes,
    }
    if random.one_in(2) { sealed(&bytes[..SUMMED]) } else { bytes }
}

fn any_request(random: &mut Random) -> Request {
    if random.one_in(3) {
        let (version, fields) = any_fields(random);
        let lent = match random.below(8) {
            0 => random.below(BLOCK_BYTES),
            1 => BLOCK_BYTES - 1,
            2 | 3 => BLOCK_BYTES + random.from_to(1, 40),
            _ => BLOCK_BYTES,
        };
        return Request::Write { version, fields, lent, seed: random.word() };
    }
    Request::Read { newest: random.from_to(1, SETTINGS_VERSION) as u32, bytes: any_block(random), seed: random.word() }
}

fn joined(numbers: impl IntoIterator<Item = u32>) -> String {
    numbers.into_iter().map(|x| format!(" {x}")).collect()
}

fn flat(fields: &Fields) -> String {
    joined([fields.direction, fields.kind, fields.flag].into_iter().chain(words_of(&fields.target)))
}

/// As a line of tests/c/replay.txt.
fn line(request: &Request, answer: &Answer) -> String {
    let (number, place) = answer.as_ref().err().copied().unwrap_or((0, 0));
    let nothing = Fields { direction: 0, kind: 0, flag: 0, target: BigUint::from(0u32) };
    let (version, fields, block) = answer.clone().unwrap_or((0, nothing, vec![]));
    match request {
        Request::Read { bytes, seed, .. } => {
            let given = joined(bytes.iter().map(|b| *b as u32));
            format!("{} {}{given} {seed} = {number} {place} {version}{}", request.name(), bytes.len(), flat(&fields))
        }
        Request::Write { version, fields, lent, seed } => {
            let block: Vec<u32> = block.iter().map(|b| *b as u32).collect();
            let answer = format!("{number} {place} {} {}{}", block.len(), block.len(), written_form(&block));
            format!("{} {version}{} {lent} {seed} = {answer}", request.name(), flat(fields))
        }
    }
}

/// As many requests as that. Ends the program at the first difference.
pub fn compare(seed: u64, requests: u64) {
    let random = &mut Random(seed);
    let (mut answered, mut refused, mut safe) = (BTreeMap::<_, u64>::new(), BTreeMap::<_, u64>::new(), 0u64);
    for i in 0..requests {
        let request = any_request(random);
        let expected = expected(&request);
        let said = ask(&request);
        let held = if said.as_ref() != Ok(&expected) { Err(format!("got {said:?}")) } else { held_to(&request, &expected) };
        match held {
            Ok(asked) => safe += asked as u64,
            Err(fault) => {
                println!("DIFFERENT, after {i} settings blocks: {}\nexpected {expected:?}\n{fault}", request.name());
                println!("{}", line(&request, &expected));
                std::process::exit(1);
            }
        }
        match expected {
            Ok(_) => *answered.entry(request.name()).or_default() += 1,
            Err((number, _)) => *refused.entry((request.name(), number)).or_default() += 1,
        }
    }
    println!("\nsettings blocks: {requests} requests, no difference; {safe} of them by the allocating functions too");
    println!("\n| function | answered | refused |\n|---|--:|---|");
    for (name, answered) in &answered {
        let refused = refused.iter().filter(|((of, _), _)| of == name);
        let refused: Vec<String> = refused.map(|((_, number), times)| format!("{number}: {times}")).collect();
        println!("| {name} | {answered} | {} |", refused.join(", "));
    }
}

/// For tests/c/replay.txt.
pub fn store(seed: u64, requests: u64) {
    let random = &mut Random(seed);
    for _ in 0..requests {
        let request = any_request(random);
        println!("{}", line(&request, &expected(&request)));
    }
}
