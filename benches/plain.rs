//! The script language of `cipherbench` in plain Rust: a flat store of 32-bit
//! words under up to four read caches, with prices for reads and writes.
//!
//! It shares no code with the proved program. It is the yardstick for its
//! speed and a second opinion on its answers: for every script, standard
//! output and exit status are the same.
//!
//!     rustc --edition 2021 -C opt-level=3 benches/plain.rs -o plain
//!     ./plain [SCRIPT]        (standard input without SCRIPT)

use std::io::{self, Read, Write};
use std::process::ExitCode;
use std::{env, fmt, fs, mem};

const MAX_SIZE: u64 = 4096;
const MAX_PRICE: u64 = 255;
const PRICE_CAP: u32 = 65535;
const MAX_LAYERS: usize = 4;
const MAX_LINE: u64 = 16;
const MAX_SETS: u64 = 64;
const MAX_WAYS: u64 = 8;
const MAX_KEPT: u64 = 64;

// ---------------------------------------------------------------- memory

/// A request that was understood but not granted; the pile is unchanged.
struct Refusal {
    number: u8,
    place: u64,
}

impl Refusal {
    const SIZE: u8 = 1;
    const PRICE: u8 = 3;
    const GEOMETRY: u8 = 4;
    const ADDRESS: u8 = 9;

    /// Refuses with `number` at `place` unless `granted`.
    fn unless(granted: bool, number: u8, place: u64) -> Result<(), Refusal> {
        if granted {
            Ok(())
        } else {
            Err(Refusal { number, place })
        }
    }
}

/// No line has this number: addresses are below `MAX_SIZE`.
const EMPTY: u32 = u32::MAX;

#[derive(Clone, Copy)]
enum Policy {
    Direct,
    Lru,
}

/// The line numbers a layer keeps.
enum Table {
    /// One slot to a set.
    Direct(Box<[u32]>),
    /// `ways` adjacent slots to a set, newest first, `EMPTY` ones last.
    Lru { ways: usize, slots: Box<[u32]> },
}

/// A read cache. It keeps line numbers only: writes go through to the store,
/// so a kept word would always equal the store's.
struct Layer {
    line_shift: u32,
    set_mask: u32,
    hit: u32,
    table: Table,
}

impl Layer {
    fn new(policy: Policy, [line, sets, ways, hit]: [u64; 4]) -> Result<Layer, Refusal> {
        let power_to = |n: u64, max: u64| n.is_power_of_two() && n <= max;
        Refusal::unless(hit <= MAX_PRICE, Refusal::PRICE, 1)?;
        Refusal::unless(power_to(line, MAX_LINE), Refusal::GEOMETRY, 1)?;
        Refusal::unless(power_to(sets, MAX_SETS), Refusal::GEOMETRY, 2)?;
        Refusal::unless((1..=MAX_WAYS).contains(&ways), Refusal::GEOMETRY, 3)?;
        Refusal::unless(sets * ways <= MAX_KEPT, Refusal::GEOMETRY, 4)?;

        let empty = |slots: u64| vec![EMPTY; slots as usize].into_boxed_slice();
        Ok(Layer {
            line_shift: line.trailing_zeros(),
            set_mask: sets as u32 - 1,
            hit: hit as u32,
            table: match policy {
                Policy::Direct => Table::Direct(empty(sets)),
                Policy::Lru => Table::Lru {
                    ways: ways as usize,
                    slots: empty(sets * ways),
                },
            },
        })
    }

    /// Enters the line of a read address; true if it was kept already.
    fn enter(&mut self, address: u32) -> bool {
        let line = address >> self.line_shift;
        let set = (line & self.set_mask) as usize;
        match &mut self.table {
            Table::Direct(slots) => mem::replace(&mut slots[set], line) == line,
            Table::Lru { ways, slots } => {
                // Put the line in front and shift the others back, up to the
                // slot it came from or the first empty one; from a full set
                // the last line falls out.
                let mut moved = line;
                for slot in &mut slots[set * *ways..][..*ways] {
                    mem::swap(slot, &mut moved);
                    if moved == line {
                        return true;
                    }
                    if moved == EMPTY {
                        break;
                    }
                }
                false
            }
        }
    }

    fn clear(&mut self) {
        match &mut self.table {
            Table::Direct(slots) | Table::Lru { slots, .. } => slots.fill(EMPTY),
        }
    }
}

/// A store and the layers over it, bottom first.
struct Pile {
    words: Vec<u32>,
    read_price: u32,
    write_price: u32,
    layers: Vec<Layer>,
}

impl Pile {
    fn new([read, write, size]: [u64; 3]) -> Result<Pile, Refusal> {
        Refusal::unless((1..=MAX_SIZE).contains(&size), Refusal::SIZE, size)?;
        Refusal::unless(read <= MAX_PRICE, Refusal::PRICE, 1)?;
        Refusal::unless(write <= MAX_PRICE, Refusal::PRICE, 2)?;
        Ok(Pile {
            words: vec![0; size as usize],
            read_price: read as u32,
            write_price: write as u32,
            layers: Vec::with_capacity(MAX_LAYERS),
        })
    }

    fn word(&mut self, address: u64) -> Result<&mut u32, Refusal> {
        let word = usize::try_from(address)
            .ok()
            .and_then(|a| self.words.get_mut(a));
        // An address past the end is its own maximum with the size.
        word.ok_or(Refusal {
            number: Refusal::ADDRESS,
            place: address,
        })
    }

    fn peek(&mut self, address: u64) -> Result<u32, Refusal> {
        self.word(address).copied()
    }

    fn poke(&mut self, address: u64, word: u32) -> Result<(), Refusal> {
        *self.word(address)? = word;
        Ok(())
    }

    /// The word and the price of reading it.
    fn read(&mut self, address: u64) -> Result<(u32, u32), Refusal> {
        let word = self.peek(address)?;
        let mut price = 0;
        for layer in self.layers.iter_mut().rev() {
            price += layer.hit;
            if layer.enter(address as u32) {
                return Ok((word, price.min(PRICE_CAP)));
            }
        }
        // Prices only add up, so one cap at the end equals a cap at each layer.
        Ok((word, (price + self.read_price).min(PRICE_CAP)))
    }

    /// Writes through every layer; the price of that.
    fn write(&mut self, address: u64, word: u32) -> Result<u32, Refusal> {
        self.poke(address, word)?;
        let hits: u32 = self.layers.iter().map(|layer| layer.hit).sum();
        Ok((hits + self.write_price).min(PRICE_CAP))
    }

    fn chill(&mut self) {
        self.layers.iter_mut().for_each(Layer::clear);
    }
}

// ---------------------------------------------------------------- script

/// What a mistaken line lacks.
type Expected = &'static str;

/// The unread rest of a script, taken word by word and line by line.
struct Scanner<'a> {
    rest: &'a [u8],
    line: u64,
}

impl<'a> Scanner<'a> {
    fn is_blank(byte: u8) -> bool {
        matches!(byte, b' ' | b'\t' | b'\r')
    }

    fn ends_word(byte: u8) -> bool {
        Self::is_blank(byte) || matches!(byte, b'\n' | b'#')
    }

    /// The next word of this line.
    fn word(&mut self) -> Option<&'a [u8]> {
        let rest = self.rest;
        let start = rest
            .iter()
            .position(|&b| !Self::is_blank(b))
            .unwrap_or(rest.len());
        let rest = &rest[start..];
        let end = rest
            .iter()
            .position(|&b| Self::ends_word(b))
            .unwrap_or(rest.len());
        let (word, rest) = rest.split_at(end);
        self.rest = rest;
        (!word.is_empty()).then_some(word)
    }

    /// Goes past this line; false at the end of the script.
    fn next_line(&mut self) -> bool {
        match self.rest.iter().position(|&b| b == b'\n') {
            Some(at) => {
                self.rest = &self.rest[at + 1..];
                self.line += 1;
                true
            }
            None => false,
        }
    }

    fn number(&mut self) -> Result<u64, Expected> {
        self.word()
            .and_then(parse_number)
            .ok_or("a number below 2^64")
    }

    fn numbers<const N: usize>(&mut self) -> Result<[u64; N], Expected> {
        let mut numbers = [0; N];
        for number in &mut numbers {
            *number = self.number()?;
        }
        Ok(numbers)
    }

    fn memory_word(&mut self) -> Result<u32, Expected> {
        self.word()
            .and_then(parse_memory_word)
            .ok_or("a word of 1 to 8 hexadecimal digits")
    }

    fn end(&mut self) -> Result<(), Expected> {
        match self.word() {
            None => Ok(()),
            Some(_) => Err("the end of the line"),
        }
    }
}

// `str::parse` would take a leading plus sign, which the language does not.
fn parse_number(digits: &[u8]) -> Option<u64> {
    digits.iter().try_fold(0u64, |number, &byte| {
        let digit = byte.wrapping_sub(b'0');
        if digit > 9 {
            return None;
        }
        number.checked_mul(10)?.checked_add(digit.into())
    })
}

fn parse_memory_word(digits: &[u8]) -> Option<u32> {
    if digits.len() > 8 {
        return None;
    }
    digits.iter().try_fold(0, |word, &byte| {
        Some(word << 4 | char::from(byte).to_digit(16)?)
    })
}

// --------------------------------------------------------------- answers

/// Answers on their way to standard output.
struct Answers<W: Write> {
    sink: W,
    buffer: Vec<u8>,
}

impl<W: Write> Answers<W> {
    const FULL: usize = 64 * 1024;
    /// Above the longest answer, so that the buffer does not grow.
    const ROOM: usize = 128;

    fn new(sink: W) -> Self {
        Answers {
            sink,
            buffer: Vec::with_capacity(Self::FULL + Self::ROOM),
        }
    }

    fn text(&mut self, text: &str) {
        self.buffer.extend_from_slice(text.as_bytes());
    }

    fn memory_word(&mut self, word: u32) {
        let digit = |at: usize| b"0123456789abcdef"[(word >> (28 - 4 * at) & 15) as usize];
        self.buffer
            .extend_from_slice(&std::array::from_fn::<u8, 8, _>(digit));
    }

    // `write!` costs several times as much, and each read and write has a price.
    fn number(&mut self, mut number: u64) {
        let mut digits = [0; 20];
        let mut start = digits.len();
        loop {
            start -= 1;
            digits[start] = b'0' + (number % 10) as u8;
            number /= 10;
            if number == 0 {
                break;
            }
        }
        self.buffer.extend_from_slice(&digits[start..]);
    }

    fn refused(&mut self, name: &str, refusal: Refusal) {
        self.text(name);
        self.text(": refused ");
        self.number(refusal.number.into());
        self.text(" place ");
        self.number(refusal.place);
        self.text(" layer 1\n");
    }

    fn flush_if_full(&mut self) -> io::Result<()> {
        if self.buffer.len() >= Self::FULL {
            self.flush()?;
        }
        Ok(())
    }

    fn flush(&mut self) -> io::Result<()> {
        self.sink.write_all(&self.buffer)?;
        self.buffer.clear();
        self.sink.flush()
    }
}

// -------------------------------------------------------------- commands

const NO_PILE: Expected = "a store before this command";

/// Runs the command `name`, whose other words are next in `script`. Every
/// mistake is found before anything is done or answered.
fn run_command<W: Write>(
    name: &[u8],
    script: &mut Scanner,
    pile: &mut Option<Pile>,
    answers: &mut Answers<W>,
) -> Result<(), Expected> {
    match name {
        b"read" => {
            let address = script.number()?;
            script.end()?;
            match pile.as_mut().ok_or(NO_PILE)?.read(address) {
                Ok((word, price)) => {
                    answers.text("read: ");
                    answers.memory_word(word);
                    answers.text(" price ");
                    answers.number(price.into());
                    answers.text("\n");
                }
                Err(refusal) => answers.refused("read", refusal),
            }
        }
        b"write" => {
            let address = script.number()?;
            let word = script.memory_word()?;
            script.end()?;
            match pile.as_mut().ok_or(NO_PILE)?.write(address, word) {
                Ok(price) => {
                    answers.text("write: price ");
                    answers.number(price.into());
                    answers.text("\n");
                }
                Err(refusal) => answers.refused("write", refusal),
            }
        }
        b"peek" => {
            let address = script.number()?;
            script.end()?;
            match pile.as_mut().ok_or(NO_PILE)?.peek(address) {
                Ok(word) => {
                    answers.text("peek: ");
                    answers.memory_word(word);
                    answers.text("\n");
                }
                Err(refusal) => answers.refused("peek", refusal),
            }
        }
        b"poke" => {
            let address = script.number()?;
            let word = script.memory_word()?;
            script.end()?;
            match pile.as_mut().ok_or(NO_PILE)?.poke(address, word) {
                Ok(()) => answers.text("poke: ok\n"),
                Err(refusal) => answers.refused("poke", refusal),
            }
        }
        b"size" => {
            script.end()?;
            let size = pile.as_ref().ok_or(NO_PILE)?.words.len();
            answers.text("size: ");
            answers.number(size as u64);
            answers.text("\n");
        }
        b"chill" => {
            script.end()?;
            pile.as_mut().ok_or(NO_PILE)?.chill();
            answers.text("chill: ok\n");
        }
        b"store" => {
            if script.word() != Some(b"flat") {
                return Err("the kind of store: flat");
            }
            let shape = script.numbers()?;
            script.end()?;
            match Pile::new(shape) {
                Ok(new) => {
                    *pile = Some(new);
                    answers.text("store: ok\n");
                }
                Err(refusal) => answers.refused("store", refusal),
            }
        }
        b"layer" => {
            let policy = match script.word() {
                Some(b"direct") => Policy::Direct,
                Some(b"lru") => Policy::Lru,
                _ => return Err("the kind of layer: direct or lru"),
            };
            let shape = script.numbers()?;
            script.end()?;
            let layers = &mut pile.as_mut().ok_or(NO_PILE)?.layers;
            if layers.len() == MAX_LAYERS {
                return Err("at most four layers");
            }
            match Layer::new(policy, shape) {
                Ok(layer) => {
                    layers.push(layer);
                    answers.text("layer: ok\n");
                }
                Err(refusal) => answers.refused("layer", refusal),
            }
        }
        _ => return Err("a command"),
    }
    Ok(())
}

/// Why the program stopped before the end of the script.
enum Stop {
    Mistake { line: u64, expected: Expected },
    Io(io::Error),
}

impl From<io::Error> for Stop {
    fn from(error: io::Error) -> Stop {
        Stop::Io(error)
    }
}

impl fmt::Display for Stop {
    fn fmt(&self, f: &mut fmt::Formatter) -> fmt::Result {
        match self {
            Stop::Mistake { line, expected } => write!(f, "line {line}: expected {expected}"),
            Stop::Io(error) => error.fmt(f),
        }
    }
}

fn run_script<W: Write>(script: &[u8], sink: W) -> Result<(), Stop> {
    let mut script = Scanner {
        rest: script,
        line: 1,
    };
    let mut answers = Answers::new(sink);
    let mut pile = None;
    loop {
        if let Some(name) = script.word() {
            if let Err(expected) = run_command(name, &mut script, &mut pile, &mut answers) {
                answers.flush()?;
                return Err(Stop::Mistake {
                    line: script.line,
                    expected,
                });
            }
            answers.flush_if_full()?;
        }
        if !script.next_line() {
            return Ok(answers.flush()?);
        }
    }
}

fn read_script() -> io::Result<Vec<u8>> {
    match env::args_os().nth(1) {
        Some(path) => fs::read(path),
        None => {
            let mut script = Vec::new();
            io::stdin().lock().read_to_end(&mut script)?;
            Ok(script)
        }
    }
}

fn main() -> ExitCode {
    let done = read_script()
        .map_err(Stop::Io)
        .and_then(|script| run_script(&script, io::stdout().lock()));
    match done {
        Ok(()) => ExitCode::SUCCESS,
        Err(stop) => {
            eprintln!("cipherbench: {stop}");
            ExitCode::FAILURE
        }
    }
}
