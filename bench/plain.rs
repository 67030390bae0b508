//! A sequential simulator of Parallel DEVS in plain Rust, to measure `twarp seq` by: the same networks, the same bytes.
//!
//!     rustc -O -C target-cpu=x86-64 -C codegen-units=1 bench/plain.rs
//!     plain NET --until T
//!
//! It reads a network file of format tw-1 (docs/FORMATS.md), simulates it before tick T, and writes the trace as it goes, in
//! one pass. It ends with 0; with 3 where a component met a limit; with 2, and a message, where the command or the file is
//! wrong; with 5, and a message, where the output failed.
//!
//! It is written for speed:
//!
//! - The agenda is a timing wheel. Nothing is taken from it before its time: while a component waits, no input changes when it
//!   is due.
//! - Those that are imminent or awake are sets of bits, which are read in order.
//! - The bags have all the room that they can ever need.
//! - A line is written through a bare pointer, since its greatest length is known before.

use std::borrow::Cow;
use std::collections::HashMap;
use std::fs::File;
use std::io::Write;
use std::os::fd::AsFd;
use std::process::exit;

const MAX_TICK: u64 = (1 << 40) - 2;
const MAX_COMPONENTS: usize = 1024;
const PORTS: usize = 16;
const RELAY_ROOM: usize = 32;
const QUEUE_ROOM: usize = 64;

fn main() {
    match run() {
        Ok(status) => exit(status),
        Err(why) => {
            eprintln!("plain: {why}");
            exit(2)
        }
    }
}

fn run() -> Result<i32, String> {
    let words: Vec<String> = std::env::args().collect();
    let [_, path, option, until] = words.as_slice() else {
        return Err("plain NET --until T".to_string());
    };
    let until = until
        .parse()
        .ok()
        .filter(|tick| option == "--until" && *tick <= MAX_TICK);
    let until: u64 = until.ok_or("--until T: a tick")?;
    let text = std::fs::read_to_string(path).map_err(|why| why.to_string())?;
    let mut simulator = Simulator::new(network(&Reader::read(&text)?)?);
    let mut trace = Trace::new()?;
    let met = simulator.simulate(until, &mut trace);
    trace.flush();
    Ok(if met.is_ok() { 0 } else { 3 })
}

// ---- JSON --------------------------------------------------------------------------------------

enum Json<'a> {
    Whole(i128),
    Text(Cow<'a, str>),
    List(Vec<Json<'a>>),
    Object(Vec<(Cow<'a, str>, Json<'a>)>),
    Other,
}

struct Reader<'a> {
    text: &'a str,
    at: usize,
}

impl<'a> Reader<'a> {
    fn read(text: &str) -> Result<Json<'_>, String> {
        let mut reader = Reader { text, at: 0 };
        let value = reader.value(0)?;
        match reader.next() {
            None => Ok(value),
            Some(_) => reader.wrong(),
        }
    }

    fn wrong<T>(&self) -> Result<T, String> {
        Err(format!("byte {}: not the JSON of a network", self.at))
    }

    fn byte(&self) -> Option<u8> {
        self.text.as_bytes().get(self.at).copied()
    }

    /// The next byte that is no blank.
    fn next(&mut self) -> Option<u8> {
        while matches!(self.byte(), Some(b' ' | b'\t' | b'\r' | b'\n')) {
            self.at += 1;
        }
        self.byte()
    }

    fn take(&mut self, word: &str) -> Result<(), String> {
        if !self.text.as_bytes()[self.at..].starts_with(word.as_bytes()) {
            return self.wrong();
        }
        self.at += word.len();
        Ok(())
    }

    fn value(&mut self, depth: usize) -> Result<Json<'a>, String> {
        match self.next() {
            Some(b'{' | b'[') if depth == 127 => self.wrong(),
            Some(b'{') => self
                .all(b'}', |reader| reader.member(depth))
                .map(Json::Object),
            Some(b'[') => self
                .all(b']', |reader| reader.value(depth + 1))
                .map(Json::List),
            Some(b'"') => self.string().map(Json::Text),
            Some(b'-' | b'0'..=b'9') => self.whole().map(Json::Whole),
            Some(b't') => self.take("true").map(|()| Json::Other),
            Some(b'f') => self.take("false").map(|()| Json::Other),
            _ => self.take("null").map(|()| Json::Other),
        }
    }

    fn member(&mut self, depth: usize) -> Result<(Cow<'a, str>, Json<'a>), String> {
        if self.next() != Some(b'"') {
            return self.wrong();
        }
        let name = self.string()?;
        self.next();
        self.take(":")?;
        Ok((name, self.value(depth + 1)?))
    }

    /// What stands between brackets, with commas between.
    fn all<T>(
        &mut self,
        end: u8,
        one: impl Fn(&mut Self) -> Result<T, String>,
    ) -> Result<Vec<T>, String> {
        let mut found = Vec::with_capacity(4);
        self.at += 1;
        if self.next() == Some(end) {
            self.at += 1;
            return Ok(found);
        }
        loop {
            found.push(one(self)?);
            let next = self.next();
            self.at += 1;
            match next {
                Some(b',') => {}
                Some(byte) if byte == end => return Ok(found),
                _ => return self.wrong(),
            }
        }
    }

    /// A whole number. Fractions, exponents and -0 are none.
    fn whole(&mut self) -> Result<i128, String> {
        let negative = self.byte() == Some(b'-');
        self.at += negative as usize;
        let start = self.at;
        let mut number: i128 = 0;
        while let Some(digit @ b'0'..=b'9') = self.byte() {
            number = number
                .saturating_mul(10)
                .saturating_add((digit - b'0') as i128);
            self.at += 1;
        }
        let digits = &self.text[start..self.at];
        let zeros = digits.starts_with('0') && (negative || digits.len() > 1);
        if digits.is_empty() || zeros || matches!(self.byte(), Some(b'.' | b'e' | b'E')) {
            return self.wrong();
        }
        Ok(if negative { -number } else { number })
    }

    fn string(&mut self) -> Result<Cow<'a, str>, String> {
        let plain = self.letters()?;
        if self.byte() == Some(b'"') {
            self.at += 1;
            return Ok(Cow::Borrowed(plain));
        }
        let mut whole = plain.to_string();
        while self.byte() == Some(b'\\') {
            whole.push(self.escaped()?);
            whole.push_str(self.letters()?);
        }
        self.at += 1;
        Ok(Cow::Owned(whole))
    }

    /// The letters behind this byte, up to a backslash or the end of the text.
    fn letters(&mut self) -> Result<&'a str, String> {
        self.at += 1;
        let start = self.at;
        loop {
            match self.byte() {
                Some(b'"' | b'\\') => return Ok(&self.text[start..self.at]),
                Some(b' '..) => self.at += 1,
                _ => return self.wrong(),
            }
        }
    }

    /// The letter that a backslash writes; the reader is left at its last byte.
    fn escaped(&mut self) -> Result<char, String> {
        self.at += 1;
        match self.byte() {
            Some(b'n') => Ok('\n'),
            Some(b't') => Ok('\t'),
            Some(b'r') => Ok('\r'),
            Some(b'b') => Ok('\u{8}'),
            Some(b'f') => Ok('\u{c}'),
            Some(byte @ (b'"' | b'\\' | b'/')) => Ok(byte as char),
            Some(b'u') => {
                let mut units = vec![self.unit()?];
                if (0xd800..0xdc00).contains(&units[0]) {
                    self.at += 1;
                    self.take("\\u")?;
                    self.at -= 1;
                    units.push(self.unit()?);
                }
                match char::decode_utf16(units).next() {
                    Some(Ok(letter)) => Ok(letter),
                    _ => self.wrong(),
                }
            }
            _ => self.wrong(),
        }
    }

    /// The four digits behind `u`.
    fn unit(&mut self) -> Result<u16, String> {
        let digits = self
            .text
            .get(self.at + 1..self.at + 5)
            .filter(|digits| !digits.starts_with('+'));
        self.at += 4;
        match digits.and_then(|digits| u16::from_str_radix(digits, 16).ok()) {
            Some(unit) => Ok(unit),
            None => self.wrong(),
        }
    }
}

impl Json<'_> {
    fn member(&self, name: &str) -> Result<&Json<'_>, String> {
        let Json::Object(members) = self else {
            return Err(format!("no object with {name}"));
        };
        let found = members.iter().find(|member| member.0 == name);
        found
            .map(|member| &member.1)
            .ok_or_else(|| format!("no member {name}"))
    }

    /// The members of an object that has exactly these.
    fn members<const N: usize>(&self, names: [&str; N]) -> Result<[&Json<'_>; N], String> {
        let mut found = [self; N];
        for (place, name) in names.iter().enumerate() {
            found[place] = self.member(name)?;
        }
        match self {
            Json::Object(members) if members.len() == N => Ok(found),
            _ => Err(format!("an object has more than {}", names.join(", "))),
        }
    }

    fn list(&self, most: usize) -> Result<&[Json<'_>], String> {
        match self {
            Json::List(values) if values.len() <= most => Ok(values),
            _ => Err(format!("no array of at most {most}")),
        }
    }

    fn text(&self) -> Result<&str, String> {
        match self {
            Json::Text(text) => Ok(text),
            _ => Err("no text".to_string()),
        }
    }

    fn whole(&self, least: u64, most: u64) -> Result<u64, String> {
        match self {
            Json::Whole(number) if (least as i128..=most as i128).contains(number) => {
                Ok(*number as u64)
            }
            _ => Err(format!("no whole number from {least} to {most}")),
        }
    }

    fn value(&self) -> Result<i64, String> {
        match self {
            Json::Whole(number) if *number as i64 as i128 == *number => Ok(*number as i64),
            _ => Err("no value of 64 bits".to_string()),
        }
    }
}

// ---- The network -------------------------------------------------------------------------------

struct Network {
    micro_limit: u64,
    components: Vec<(String, Declared)>,
    /// Source and port, destination and port, in order.
    couplings: Vec<[usize; 4]>,
    /// In order.
    inputs: Vec<Input>,
}

enum Declared {
    Gen { period: u64, value: i64 },
    Tally,
    Relay { delay: u64 },
    Queue { service: u64 },
    Hop { seed: u64, ports: u64, spread: u64 },
}

#[derive(Clone, Copy, PartialEq, Eq, PartialOrd, Ord)]
struct Input {
    tick: u64,
    to: usize,
    item: Item,
}

#[derive(Clone, Copy, Default, PartialEq, Eq, PartialOrd, Ord)]
struct Item {
    port: u8,
    value: i64,
}

fn network(file: &Json<'_>) -> Result<Network, String> {
    let [format, micro_limit, components, couplings, inputs] =
        file.members(["format", "micro_limit", "components", "couplings", "inputs"])?;
    if format.text()? != "tw-1" {
        return Err("the format is not tw-1".to_string());
    }
    let components = components
        .list(MAX_COMPONENTS)?
        .iter()
        .map(component)
        .collect::<Result<Vec<_>, _>>()?;
    let mut numbers = HashMap::new();
    for (number, (name, _)) in components.iter().enumerate() {
        let letters = name
            .bytes()
            .all(|byte| byte.is_ascii_alphanumeric() || byte == b'_' || byte == b'-');
        if !letters
            || name.is_empty()
            || name.len() > 32
            || numbers.insert(name.as_str(), number).is_some()
        {
            return Err(format!("the name {name:?} is none, or stood before"));
        }
    }
    let number = |name: &Json<'_>| {
        let name = name.text()?;
        numbers
            .get(name)
            .copied()
            .ok_or_else(|| format!("no component {name:?}"))
    };
    let port = |port: &Json<'_>| port.whole(0, PORTS as u64 - 1).map(|port| port as usize);
    let mut found = Vec::new();
    for coupling in couplings.list(8192)? {
        let [from, exit, to, entrance] = coupling.list(4)? else {
            return Err("a coupling has not four members".to_string());
        };
        let coupling = [number(from)?, port(exit)?, number(to)?, port(entrance)?];
        if coupling[0] == coupling[2] {
            return Err("a component is coupled to itself".to_string());
        }
        found.push(coupling);
    }
    found.sort_unstable();
    if found.windows(2).any(|two| two[0] == two[1]) {
        return Err("a coupling stands twice".to_string());
    }
    let mut given = Vec::new();
    for input in inputs.list(65_536)? {
        let [tick, to, entrance, value] = input.members(["tick", "to", "port", "value"])?;
        let item = Item {
            port: port(entrance)? as u8,
            value: value.value()?,
        };
        given.push(Input {
            tick: tick.whole(0, MAX_TICK)?,
            to: number(to)?,
            item,
        });
    }
    given.sort_unstable();
    Ok(Network {
        micro_limit: micro_limit.whole(1, 8_388_607)?,
        components,
        couplings: found,
        inputs: given,
    })
}

fn component(part: &Json<'_>) -> Result<(String, Declared), String> {
    let declared = match part.member("model")?.text()? {
        "gen" => {
            let [_, _, period, value] = part.members(["name", "model", "period", "value"])?;
            Declared::Gen {
                period: period.whole(1, MAX_TICK)?,
                value: value.value()?,
            }
        }
        "tally" => {
            part.members(["name", "model"])?;
            Declared::Tally
        }
        "relay" => {
            let [_, _, delay] = part.members(["name", "model", "delay"])?;
            Declared::Relay {
                delay: delay.whole(0, MAX_TICK)?,
            }
        }
        "queue" => {
            let [_, _, service] = part.members(["name", "model", "service"])?;
            Declared::Queue {
                service: service.whole(0, MAX_TICK)?,
            }
        }
        "hop" => {
            let [_, _, seed, ports, spread] =
                part.members(["name", "model", "seed", "ports", "spread"])?;
            let seed = seed.whole(0, u64::MAX)?;
            Declared::Hop {
                seed,
                ports: ports.whole(1, 16)?,
                spread: spread.whole(1, 1_048_576)?,
            }
        }
        other => return Err(format!("no model {other:?}")),
    };
    Ok((part.member("name")?.text()?.to_string(), declared))
}

impl Declared {
    /// The most items of an output.
    fn most_sent(&self) -> usize {
        match self {
            Declared::Tally => 0,
            Declared::Relay { .. } => RELAY_ROOM,
            Declared::Gen { .. } | Declared::Queue { .. } | Declared::Hop { .. } => 1,
        }
    }
}

// ---- Sets and the agenda -----------------------------------------------------------------------

/// The places of the bits that are set, the least first.
struct Bits(u64);

impl Iterator for Bits {
    type Item = usize;

    #[inline(always)]
    fn next(&mut self) -> Option<usize> {
        if self.0 == 0 {
            return None;
        }
        let place = self.0.trailing_zeros() as usize;
        self.0 &= self.0 - 1;
        Some(place)
    }
}

/// A set of components: `words` has a bit for each, and `used` one for each word that is not 0.
struct Set {
    used: u64,
    words: [u64; 64],
}

impl Set {
    fn new() -> Set {
        Set {
            used: 0,
            words: [0; 64],
        }
    }

    #[inline(always)]
    fn insert(&mut self, component: usize) {
        let word = component / 64 % 64;
        self.words[word] |= 1 << (component % 64);
        self.used |= 1 << word;
    }

    /// Takes a component out, and answers whether it was in.
    #[inline(always)]
    fn remove(&mut self, component: usize) -> bool {
        let word = component / 64 % 64;
        let bit = 1 << (component % 64);
        let was = self.words[word] & bit != 0;
        if was {
            self.words[word] ^= bit;
            if self.words[word] == 0 {
                self.used ^= 1 << word;
            }
        }
        was
    }
}

/// Seven levels are enough for ticks of 40 bits.
const LEVELS: usize = 8;
const NONE: u16 = u16::MAX;

/// A hierarchical timing wheel (Varghese and Lauck 1987). A tick is digits of six bits. What is due at a tick stands on the level
/// of the highest digit in which the tick differs from `now`, in the slot of that digit. When a level comes to a slot, what is
/// in it goes to the levels below.
struct Wheel {
    now: u64,
    /// A bit for each slot that is not empty.
    used: [u64; LEVELS],
    /// The first component in each slot, or none; the next in its slot after each component; the tick at which each is due.
    first: [[u16; 64]; LEVELS],
    next: Vec<u16>,
    due: Vec<u64>,
}

impl Wheel {
    fn new(count: usize) -> Wheel {
        Wheel {
            now: 0,
            used: [0; LEVELS],
            first: [[NONE; 64]; LEVELS],
            next: vec![NONE; count],
            due: vec![0; count],
        }
    }

    #[inline(always)]
    fn insert(&mut self, component: usize, tick: u64) {
        self.due[component] = tick;
        let highest = ((tick ^ self.now) | 1).ilog2() as usize;
        let level = highest * 43 / 256 % LEVELS; // highest / 6
        let slot = (tick >> (6 * level)) as usize % 64;
        self.next[component] = self.first[level][slot];
        self.first[level][slot] = component as u16;
        self.used[level] |= 1 << slot;
    }

    /// Goes on to the next tick at which something is due, and puts what is due then into the set.
    #[inline(always)]
    fn advance(&mut self, due: &mut Set) -> Option<u64> {
        while self.used[0] == 0 {
            let level = (1..LEVELS).find(|level| self.used[*level] != 0)?;
            self.turn(level);
        }
        let slot = self.used[0].trailing_zeros() as usize;
        self.now = self.now & !63 | slot as u64;
        let mut component = self.empty(0, slot);
        while component != NONE {
            due.insert(component as usize);
            component = self.next[component as usize];
        }
        Some(self.now)
    }

    /// Goes on to the next slot of a level, when all below it are empty.
    fn turn(&mut self, level: usize) {
        let slot = self.used[level].trailing_zeros() as usize;
        let below = 6 * level;
        self.now = self.now >> (below + 6) << (below + 6) | (slot as u64) << below;
        let mut component = self.empty(level, slot);
        while component != NONE {
            let after = self.next[component as usize];
            self.insert(component as usize, self.due[component as usize]);
            component = after;
        }
    }

    /// Empties a slot, and answers the first that was in it.
    #[inline(always)]
    fn empty(&mut self, level: usize, slot: usize) -> u16 {
        self.used[level] &= !(1 << slot);
        std::mem::replace(&mut self.first[level][slot], NONE)
    }
}

// ---- The text ----------------------------------------------------------------------------------

const PORTION: usize = 1 << 16;
/// Bytes of a line that has no items: a time, a name, a word, the numbers of a full queue, and what a copy writes too much.
const LINE: usize = 24 + 40 + 8 + 21 * (1 + QUEUE_ROOM) + 48;
/// Bytes of an item with the blank before it.
const ITEM: usize = 24;

/// The digits of each number below 1,000, and how many they are.
static SMALL: [[u8; 4]; 1000] = {
    let mut table = [[0; 4]; 1000];
    let mut number = 0;
    while number < 1000 {
        let (hundreds, tens, ones) = (
            b'0' + (number / 100) as u8,
            b'0' + (number / 10 % 10) as u8,
            b'0' + (number % 10) as u8,
        );
        table[number] = match number {
            0..10 => [ones, 0, 0, 1],
            10..100 => [tens, ones, 0, 2],
            _ => [hundreds, tens, ones, 3],
        };
        number += 1;
    }
    table
};

/// The four digits of each number below 10,000.
static FOURS: [[u8; 4]; 10_000] = {
    let mut table = [[0; 4]; 10_000];
    let mut number = 0;
    while number < 10_000 {
        table[number] = [
            b'0' + (number / 1000) as u8,
            b'0' + (number / 100 % 10) as u8,
            b'0' + (number / 10 % 10) as u8,
            b'0' + (number % 10) as u8,
        ];
        number += 1;
    }
    table
};

/// A line of which all the room is there: what writes it looks no more. Whoever makes one has room for all that will be
/// written, and for what the last copies write too much.
struct Line {
    at: *mut u8,
}

impl Line {
    #[inline(always)]
    fn put<const N: usize>(&mut self, bytes: [u8; N]) {
        self.put_first(bytes, N);
    }

    /// The first `count` of these bytes; all are copied.
    #[inline(always)]
    fn put_first<const N: usize>(&mut self, bytes: [u8; N], count: usize) {
        // SAFETY: whoever made the line has the room.
        unsafe {
            self.at.cast::<[u8; N]>().write_unaligned(bytes);
            self.at = self.at.add(count);
        }
    }

    #[inline(always)]
    fn label(&mut self, label: &Label) {
        if label.len <= 16 {
            self.put_first::<16>(*label.bytes.first_chunk().expect("40 bytes"), label.len);
        } else {
            self.put_first(label.bytes, label.len);
        }
    }

    /// A number below 10,000, without zeros before it.
    #[inline(always)]
    fn first_four(&mut self, number: u64) {
        let digits = u32::from_le_bytes(FOURS[number as usize]);
        let zeros = (digits & 0x0f0f_0f0f | 1 << 24).trailing_zeros() as usize / 8;
        self.put_first((digits >> (8 * zeros)).to_le_bytes(), 4 - zeros);
    }

    /// All four digits of a number below 10,000.
    #[inline(always)]
    fn four(&mut self, number: u64) {
        self.put(FOURS[number as usize]);
    }

    /// All eight digits of a number below 100,000,000.
    #[inline(always)]
    fn eight(&mut self, number: u64) {
        self.four(number / 10_000);
        self.four(number % 10_000);
    }

    /// A number below 100,000,000, without zeros before it.
    #[inline(always)]
    fn first_eight(&mut self, number: u64) {
        if number < 10_000 {
            self.first_four(number);
        } else {
            self.first_four(number / 10_000);
            self.four(number % 10_000);
        }
    }

    #[inline(always)]
    fn number(&mut self, number: u64) {
        if number < 1000 {
            let digits = SMALL[number as usize];
            self.put_first(digits, digits[3] as usize);
        } else {
            self.large(number);
        }
    }

    /// A number of four digits and more.
    #[inline(always)]
    fn large(&mut self, number: u64) {
        const E8: u64 = 100_000_000;
        const E16: u64 = E8 * E8;
        if number < E8 {
            self.first_eight(number);
        } else if number < E16 {
            self.first_eight(number / E8);
            self.eight(number % E8);
        } else {
            self.first_four(number / E16);
            self.eight(number % E16 / E8);
            self.eight(number % E8);
        }
    }

    #[inline(always)]
    fn value(&mut self, value: i64) {
        if value < 0 {
            self.put([b'-']);
        }
        self.number(value.unsigned_abs());
    }

    #[inline(always)]
    fn item(&mut self, item: Item) {
        if item.port < 10 {
            self.put([b'0' + item.port, b'=']);
        } else {
            self.put([b'1', b'0' - 10 + item.port, b'=']);
        }
        self.value(item.value);
    }

    /// A bag that is not empty.
    #[inline(always)]
    fn bag(&mut self, bag: &[Item]) {
        self.item(bag[0]);
        for item in &bag[1..] {
            self.put([b' ']);
            self.item(*item);
        }
    }
}

/// A text that stands at the same place of many lines, with the blanks around it.
#[derive(Clone, Copy)]
struct Label {
    bytes: [u8; 40],
    len: usize,
}

impl Label {
    fn of(text: &str) -> Label {
        let mut bytes = [0; 40];
        bytes[..text.len()].copy_from_slice(text.as_bytes());
        Label {
            bytes,
            len: text.len(),
        }
    }
}

/// The lines that are not yet written, and the text of the time of the round.
struct Trace {
    out: File,
    text: Vec<u8>,
    time: Label,
}

impl Trace {
    fn new() -> Result<Trace, String> {
        let out = std::io::stdout()
            .as_fd()
            .try_clone_to_owned()
            .map_err(|why| why.to_string())?;
        Ok(Trace {
            out: File::from(out),
            text: Vec::with_capacity(2 * PORTION),
            time: Label::of(""),
        })
    }

    fn begin_round(&mut self, tick: u64, micro: u64) {
        // At most 13 digits, a point, and 7 digits.
        let mut line = Line {
            at: self.time.bytes.as_mut_ptr(),
        };
        line.number(tick);
        line.put([b'.']);
        line.number(micro);
        self.time.len = line.at as usize - self.time.bytes.as_ptr() as usize;
    }

    /// Begins the line of a component: there is room for a bag of so many items.
    #[inline(always)]
    fn line(&mut self, label: &Label, items: usize) -> Line {
        let room = LINE + ITEM * items;
        if self.text.capacity() - self.text.len() < room {
            self.text.reserve(room);
        }
        // SAFETY: within the capacity. LINE and ITEM are enough for each line.
        let mut line = Line {
            at: unsafe { self.text.as_mut_ptr().add(self.text.len()) },
        };
        line.label(&self.time);
        line.label(label);
        line
    }

    #[inline(always)]
    fn end_line(&mut self, mut line: Line) {
        line.put([b'\n']);
        // SAFETY: all bytes up to the end of the line are written.
        unsafe {
            let len = line.at.offset_from_unsigned(self.text.as_ptr());
            self.text.set_len(len);
        }
    }

    fn flush(&mut self) {
        if let Err(why) = self.out.write_all(&self.text) {
            eprintln!("plain: {why}");
            exit(5);
        }
        self.text.clear();
    }
}

// ---- The simulator -----------------------------------------------------------------------------

/// A divisor by which a remainder costs two multiplications (Lemire, Kaser and Kurz 2019). It is exact for numbers of 32 bits.
struct Divisor {
    divisor: u64,
    inverse: u64,
}

impl Divisor {
    fn new(divisor: u64) -> Divisor {
        Divisor {
            divisor,
            inverse: (u64::MAX / divisor).wrapping_add(1),
        }
    }

    #[inline(always)]
    fn remainder(&self, number: u64) -> u64 {
        let fraction = self.inverse.wrapping_mul(number);
        ((fraction as u128 * self.divisor as u128) >> 64) as u64
    }
}

/// Values that wait, a ring in `Simulator::values` from `start` on, with room for a power of two.
struct Waiting {
    start: usize,
    room: u32,
    head: u32,
    len: u32,
    dropped: u64,
}

impl Waiting {
    #[inline(always)]
    fn place(&self, number: u32) -> usize {
        self.start + ((self.head + number) & (self.room - 1)) as usize
    }

    #[inline(always)]
    fn drop_first(&mut self) {
        self.head = (self.head + 1) & (self.room - 1);
        self.len -= 1;
    }

    /// Lets those values of a bag wait that find room, and counts the others.
    #[inline(always)]
    fn push(&mut self, values: &mut [i64], bag: &[Item]) {
        for item in bag {
            if self.len < self.room {
                values[self.place(self.len)] = item.value;
                self.len += 1;
            } else {
                self.dropped = self.dropped.wrapping_add(1);
            }
        }
    }

    #[inline(always)]
    fn write(&self, values: &[i64], line: &mut Line) {
        line.number(self.dropped);
        for number in 0..self.len {
            line.put([b' ']);
            line.value(values[self.place(number)]);
        }
    }
}

enum Model {
    Gen {
        period: u64,
        value: i64,
        count: u64,
    },
    Tally {
        count: u64,
        sum: i64,
        last: i64,
    },
    Relay {
        delay: u64,
        held: Waiting,
    },
    Queue {
        service: u64,
        jobs: Waiting,
    },
    Hop {
        x: u64,
        ports: Divisor,
        spread: Divisor,
    },
}

#[inline(always)]
fn lcg(x: u64) -> u64 {
    x.wrapping_mul(6_364_136_223_846_793_005)
        .wrapping_add(1_442_695_040_888_963_407)
}

/// How long a hop waits.
#[inline(always)]
fn wait(x: u64, spread: &Divisor) -> u64 {
    1 + spread.remainder(x >> 33)
}

#[repr(align(64))]
struct Component {
    label: Label,
    model: Model,
}

#[derive(Clone, Copy, Default)]
struct Route {
    to: u16,
    port: u8,
}

/// Where the items of a bag stand in `Arrivals::items`.
#[derive(Clone, Copy, Default)]
struct Bag {
    start: u32,
    len: u32,
}

/// What comes to each component in a round.
struct Arrivals {
    bags: Vec<Bag>,
    items: Vec<Item>,
    awake: Set,
}

impl Arrivals {
    #[inline(always)]
    fn deliver(&mut self, to: usize, item: Item) {
        let bag = &mut self.bags[to];
        self.items[(bag.start + bag.len) as usize] = item;
        bag.len += 1;
        self.awake.insert(to);
    }

    /// The bag of a component, in order, which is then empty.
    #[inline(always)]
    fn take(&mut self, component: usize) -> &[Item] {
        let bag = &mut self.bags[component];
        let items = &mut self.items[bag.start as usize..][..bag.len as usize];
        bag.len = 0;
        if items.len() > 1 && !items.is_sorted() {
            items.sort_unstable();
        }
        items
    }
}

/// Where the outputs of each port of each component go: `routes` between two of `starts`.
struct Routing {
    starts: Vec<u16>,
    routes: Vec<Route>,
}

impl Routing {
    #[inline(always)]
    fn send(&self, source: usize, item: Item, arrivals: &mut Arrivals) {
        let exit = source * PORTS + item.port as usize;
        for route in &self.routes[self.starts[exit] as usize..self.starts[exit + 1] as usize] {
            arrivals.deliver(
                route.to as usize,
                Item {
                    port: route.port,
                    value: item.value,
                },
            );
        }
    }
}

/// A component whose next own step would pass a limit.
struct Fault {
    number: usize,
    limit: &'static str,
}

struct Simulator {
    micro_limit: u64,
    components: Vec<Component>,
    routing: Routing,
    arrivals: Arrivals,
    values: Vec<i64>,
    /// Those that are not yet given, the first at the end. On the agenda they are one more component, the last.
    inputs: Vec<Input>,
    agenda: Wheel,
    imminent: Set,
    /// Those that are due at the next microstep.
    soon: Set,
    tick: u64,
    micro: u64,
}

impl Simulator {
    fn new(network: Network) -> Simulator {
        let count = network.components.len();
        let mut agenda = Wheel::new(count + 1);
        let mut values = Vec::new();
        let mut components = Vec::new();
        let arrivals = arrivals(&network);
        let mut inputs = network.inputs;
        inputs.reverse();
        if let Some(input) = inputs.last() {
            agenda.insert(count, input.tick);
        }
        for (number, (name, declared)) in network.components.into_iter().enumerate() {
            let mut waiting = |room: usize| {
                values.resize(values.len() + room, 0);
                Waiting {
                    start: values.len() - room,
                    room: room as u32,
                    head: 0,
                    len: 0,
                    dropped: 0,
                }
            };
            let model = match declared {
                Declared::Gen { period, value } => {
                    agenda.insert(number, period);
                    Model::Gen {
                        period,
                        value,
                        count: 0,
                    }
                }
                Declared::Tally => Model::Tally {
                    count: 0,
                    sum: 0,
                    last: 0,
                },
                Declared::Relay { delay } => Model::Relay {
                    delay,
                    held: waiting(RELAY_ROOM),
                },
                Declared::Queue { service } => Model::Queue {
                    service,
                    jobs: waiting(QUEUE_ROOM),
                },
                Declared::Hop {
                    seed,
                    ports,
                    spread,
                } => {
                    let spread = Divisor::new(spread);
                    agenda.insert(number, wait(seed, &spread));
                    Model::Hop {
                        x: seed,
                        ports: Divisor::new(ports),
                        spread,
                    }
                }
            };
            components.push(Component {
                label: Label::of(&format!(" {name} ")),
                model,
            });
        }
        Simulator {
            micro_limit: network.micro_limit,
            components,
            routing: routing(count, &network.couplings),
            arrivals,
            values,
            inputs,
            agenda,
            imminent: Set::new(),
            soon: Set::new(),
            tick: 0,
            micro: 0,
        }
    }

    /// Makes all rounds before a tick. With a fault its line is in the trace, in place of the transitions of the last round.
    fn simulate(&mut self, until: u64, trace: &mut Trace) -> Result<(), Fault> {
        while self.next_round(until) {
            trace.begin_round(self.tick, self.micro);
            let inputs = self.imminent.remove(self.components.len());
            self.outputs(trace);
            if inputs {
                self.give_inputs();
            }
            let before = trace.text.len();
            if let Err(fault) = self.transitions(trace) {
                trace.text.truncate(before);
                self.write_fault(&fault, trace);
                return Err(fault);
            }
            if trace.text.len() >= PORTION {
                trace.flush();
            }
        }
        Ok(())
    }

    /// Goes on to the next round, if there is one before a tick.
    #[inline(always)]
    fn next_round(&mut self, until: u64) -> bool {
        if self.soon.used != 0 {
            std::mem::swap(&mut self.imminent, &mut self.soon);
            self.micro += 1;
            return true;
        }
        match self.agenda.advance(&mut self.imminent) {
            Some(tick) if tick < until => {
                self.tick = tick;
                self.micro = 0;
                true
            }
            _ => false,
        }
    }

    fn write_fault(&self, fault: &Fault, trace: &mut Trace) {
        let label = &self.components[fault.number].label;
        let mut line = format!("fault: {} limit:", fault.limit).into_bytes();
        line.extend_from_slice(&label.bytes[..label.len]);
        line.extend_from_slice(format!("at {}.{}\n", self.tick, self.micro).as_bytes());
        trace.text.extend_from_slice(&line);
    }

    fn give_inputs(&mut self) {
        let tick = self.tick;
        while let Some(input) = self.inputs.pop_if(|input| input.tick == tick) {
            self.arrivals.deliver(input.to, input.item);
        }
        if let Some(input) = self.inputs.last() {
            self.agenda.insert(self.components.len(), input.tick);
        }
    }

    #[inline(always)]
    fn outputs(&mut self, trace: &mut Trace) {
        for word in Bits(self.imminent.used) {
            for bit in Bits(self.imminent.words[word]) {
                self.output(64 * word + bit, trace);
            }
        }
    }

    #[inline(always)]
    fn output(&mut self, number: usize, trace: &mut Trace) {
        let component = &self.components[number];
        let item = match &component.model {
            Model::Gen { value, .. } => Item {
                port: 0,
                value: *value,
            },
            Model::Queue { jobs, .. } => Item {
                port: 0,
                value: self.values[jobs.place(0)],
            },
            Model::Hop { x, ports, .. } => Item {
                port: ports.remainder(x >> 48) as u8,
                value: ((x >> 32) % 1000) as i64,
            },
            Model::Relay { held, .. } if held.len == 1 => Item {
                port: 0,
                value: self.values[held.place(0)],
            },
            Model::Relay { held, .. } => {
                let mut bag = [Item::default(); RELAY_ROOM];
                let bag = &mut bag[..held.len as usize];
                for (item, value) in bag.iter_mut().zip(&self.values[held.start..]) {
                    item.value = *value;
                }
                bag.sort_unstable();
                let mut line = trace.line(&component.label, bag.len());
                line.put(*b"out ");
                line.bag(bag);
                trace.end_line(line);
                for item in bag {
                    self.routing.send(number, *item, &mut self.arrivals);
                }
                return;
            }
            Model::Tally { .. } => unreachable!("a tally is never due"),
        };
        let mut line = trace.line(&component.label, 1);
        line.put(*b"out ");
        line.item(item);
        trace.end_line(line);
        self.routing.send(number, item, &mut self.arrivals);
    }

    /// Makes the transitions of a round, up to the first that meets a limit.
    #[inline(always)]
    fn transitions(&mut self, trace: &mut Trace) -> Result<(), Fault> {
        for word in Bits(self.imminent.used | self.arrivals.awake.used) {
            let imminent = std::mem::take(&mut self.imminent.words[word]);
            let awake = std::mem::take(&mut self.arrivals.awake.words[word]);
            for bit in Bits(imminent | awake) {
                let number = 64 * word + bit;
                if let Some(advance) = self.transition(number, imminent >> bit & 1 != 0, trace) {
                    self.schedule(number, advance)
                        .map_err(|limit| Fault { number, limit })?;
                }
            }
        }
        self.imminent.used = 0;
        self.arrivals.awake.used = 0;
        Ok(())
    }

    /// Puts the next own step of a component on the agenda. Refused with the limit that it would pass.
    #[inline(always)]
    fn schedule(&mut self, number: usize, advance: u64) -> Result<(), &'static str> {
        if advance == 0 {
            if self.micro == self.micro_limit {
                return Err("microstep");
            }
            self.soon.insert(number);
        } else {
            if self.tick + advance > MAX_TICK {
                return Err("tick");
            }
            self.agenda.insert(number, self.tick + advance);
        }
        Ok(())
    }

    /// Makes the transition of a component and its line. Answers its time advance where one begins.
    #[inline(always)]
    fn transition(&mut self, number: usize, imminent: bool, trace: &mut Trace) -> Option<u64> {
        let component = &mut self.components[number];
        let bag = self.arrivals.take(number);
        let mut line = trace.line(&component.label, bag.len());
        if bag.is_empty() {
            line.put(*b"int");
        } else {
            line.put(if imminent { *b"con " } else { *b"ext " });
            line.bag(bag);
        }
        line.put(*b" | ");
        let values = &mut self.values;
        let advance = match &mut component.model {
            Model::Gen { period, count, .. } => {
                *count = count.wrapping_add(imminent as u64);
                line.number(*count);
                imminent.then_some(*period)
            }
            Model::Tally { count, sum, last } => {
                for item in bag {
                    *count = count.wrapping_add(1);
                    *sum = sum.wrapping_add(item.value);
                    *last = item.value;
                }
                line.number(*count);
                line.put([b' ']);
                line.value(*sum);
                line.put([b' ']);
                line.value(*last);
                None
            }
            Model::Relay { delay, held } => {
                if imminent {
                    held.len = 0;
                }
                let begins = held.len == 0 && !bag.is_empty();
                held.push(values, bag);
                held.write(values, &mut line);
                begins.then_some(*delay)
            }
            Model::Queue { service, jobs } => {
                if imminent {
                    jobs.drop_first();
                }
                let begins = imminent || jobs.len == 0;
                jobs.push(values, bag);
                jobs.write(values, &mut line);
                (begins && jobs.len > 0).then_some(*service)
            }
            Model::Hop { x, spread, .. } => {
                let mut advance = None;
                if imminent {
                    *x = lcg(*x);
                    advance = Some(wait(*x, spread));
                }
                for item in bag {
                    *x = lcg(x.wrapping_add(item.value as u64));
                }
                line.number(*x);
                advance
            }
        };
        trace.end_line(line);
        advance
    }
}

/// Bags with room for all that can come to each component in a round.
fn arrivals(network: &Network) -> Arrivals {
    let mut rooms = vec![0; network.components.len()];
    for [from, _, to, _] in &network.couplings {
        rooms[*to] += network.components[*from].1.most_sent();
    }
    for same in network
        .inputs
        .chunk_by(|one, other| (one.tick, one.to) == (other.tick, other.to))
    {
        rooms[same[0].to] += same.len();
    }
    let mut bags = Vec::new();
    let mut start = 0;
    for room in rooms {
        bags.push(Bag {
            start: start as u32,
            len: 0,
        });
        start += room;
    }
    Arrivals {
        bags,
        items: vec![Item::default(); start],
        awake: Set::new(),
    }
}

/// The routes of couplings that are in order.
fn routing(count: usize, couplings: &[[usize; 4]]) -> Routing {
    let mut starts = vec![0; count * PORTS + 1];
    for [from, port, _, _] in couplings {
        starts[from * PORTS + port + 1] += 1;
    }
    for exit in 0..count * PORTS {
        starts[exit + 1] += starts[exit];
    }
    let routes = couplings
        .iter()
        .map(|[_, _, to, port]| Route {
            to: *to as u16,
            port: *port as u8,
        })
        .collect();
    Routing { starts, routes }
}
