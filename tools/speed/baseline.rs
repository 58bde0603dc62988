//! The replay of the row of examples/primes.toml in plain Rust, for a measure of speed: the same work in the
//! same form, with nothing proved. Its script has lines `map 0 ADDRESS 4k rwxu` alone.
//!
//!     rustc -O -C target-cpu=x86-64-v2 tools/speed/baseline.rs && ./baseline SCRIPT TRACE

use std::env;
use std::fs::{self, File};
use std::io::{self, Read};

const PAGE: u64 = 4096;
const LEVELS: usize = 3;
const TABLE_FRAMES: usize = 64;

/// The value of each byte as a hexadecimal digit, and 16 where it is none.
static HEX_DIGITS: [u8; 256] = hex_digits();

const fn hex_digits() -> [u8; 256] {
    let mut table = [16; 256];
    let mut i = 0;
    while i < 16 {
        table[b"0123456789abcdef"[i] as usize] = i as u8;
        table[b"0123456789ABCDEF"[i] as usize] = i as u8;
        i += 1;
    }
    table
}

#[derive(Clone, Copy)]
enum Kind {
    Fetch,
    Load,
    Store,
}

#[derive(Clone, Copy, PartialEq)]
enum Letter {
    I,
    L,
    S,
    M,
}

struct Reference {
    letter: Letter,
    addr: u64,
    size: u32,
}

enum Verdict {
    Skipped,
    Found(Reference),
    Bad(u8),
}

fn hex_digit(byte: u8) -> Option<u64> {
    let value = HEX_DIGITS[byte as usize];
    (value < 16).then_some(value as u64)
}

fn eight_digits(text: &[u8]) -> Option<u64> {
    let mut value = 0;
    for byte in text.get(..8)? {
        value = value * 16 + hex_digit(*byte)?;
    }
    Some(value)
}

fn address(text: &[u8]) -> Option<(u64, usize)> {
    let (mut value, count) = eight_digits(text).map_or((0, 0), |value| (value, 8));
    for at in count..text.len() {
        match hex_digit(text[at]) {
            Some(digit) if at < 16 => value = value * 16 + digit,
            None if text[at] == b',' && at > 0 => return Some((value, at)),
            _ => return None,
        }
    }
    None
}

fn size(text: &[u8]) -> Option<(u32, usize)> {
    let digits = text.iter().take(7).take_while(|byte| byte.is_ascii_digit());
    let (value, count) = digits.fold((0, 0), |(value, count), byte| {
        (value * 10 + (*byte - b'0') as u32, count + 1)
    });
    (1 <= count && count <= 6 && value <= 65536).then_some((value, count))
}

fn fits(addr: u64, size: u32) -> bool {
    u64::MAX - addr >= size.max(1) as u64 - 1
}

/// A line in the form that Lackey itself writes, and how many bytes it has with its newline.
fn usual_line(text: &[u8]) -> Option<(usize, Verdict)> {
    let (letter, numbers) = match text {
        [b'I', b' ', b' ', rest @ ..] => (Letter::I, rest),
        [b' ', b'L', b' ', rest @ ..] => (Letter::L, rest),
        [b' ', b'S', b' ', rest @ ..] => (Letter::S, rest),
        [b' ', b'M', b' ', rest @ ..] => (Letter::M, rest),
        _ => return None,
    };
    let (addr, comma) = address(numbers)?;
    let rest = &numbers[comma + 1..];
    let (size, digits) = size(rest)?;
    let whole = rest.get(digits) == Some(&b'\n') && fits(addr, size);
    whole.then_some((comma + digits + 5, Verdict::Found(Reference { letter, addr, size })))
}

fn blanks(text: &[u8]) -> usize {
    let blank = |byte: &u8| *byte == b' ' || *byte == b'\t';
    text.iter().take_while(|byte| blank(byte)).count()
}

fn judge(line: &[u8]) -> Verdict {
    let text = line.strip_suffix(b"\r").unwrap_or(line);
    match text {
        [b'=', b'=', ..] | [b'-', b'-', ..] | [b'*', b'*', ..] => return Verdict::Skipped,
        [b'S', b'B', b' ', ..] | [b'#', ..] => return Verdict::Skipped,
        _ if text.len() > 256 => return Verdict::Bad(6),
        _ => {}
    }
    let text = &text[blanks(text)..];
    let letter = match text.first() {
        None | Some(b'#') => return Verdict::Skipped,
        Some(b'I') => Letter::I,
        Some(b'L') => Letter::L,
        Some(b'S') => Letter::S,
        Some(b'M') => Letter::M,
        Some(_) => return Verdict::Bad(1),
    };
    let count = blanks(&text[1..]);
    if count == 0 {
        return Verdict::Bad(2);
    }
    let text = &text[1 + count..];
    let Some((addr, comma)) = address(text) else {
        return Verdict::Bad(2);
    };
    let text = &text[comma + 1..];
    let Some((size, digits)) = size(text) else {
        return Verdict::Bad(3);
    };
    let text = &text[digits..];
    let text = &text[blanks(text)..];
    if !text.is_empty() && text[0] != b'#' {
        return Verdict::Bad(4);
    }
    if !fits(addr, size) {
        return Verdict::Bad(5);
    }
    Verdict::Found(Reference { letter, addr, size })
}

/// The first line of a text that a newline ends, and how many bytes it has with the newline.
fn next_line(text: &[u8]) -> Option<(usize, Verdict)> {
    if let Some(found) = usual_line(text) {
        return Some(found);
    }
    let at = text.iter().position(|byte| *byte == b'\n')?;
    Some((at + 1, judge(&text[..at])))
}

#[derive(Clone, Copy)]
struct Perm {
    r: bool,
    w: bool,
    x: bool,
    u: bool,
}

enum Pte {
    Invalid,
    Pointer(u64),
    Leaf(u64, Perm),
    Reserved,
    Misaligned,
}

fn decode(word: u64, level: usize) -> Pte {
    if word % 2 == 0 {
        return Pte::Invalid;
    }
    if word >> 54 != 0 {
        return Pte::Reserved;
    }
    let number = word >> 10;
    let bit = |k: u32| (word >> k) % 2 == 1;
    let (r, w, x, u) = (bit(1), bit(2), bit(3), bit(4));
    match (r, w, x) {
        (false, true, _) => Pte::Reserved,
        (false, false, false) if level == 0 => Pte::Reserved,
        (false, false, false) => Pte::Pointer(number),
        _ if number % (1 << (9 * level)) == 0 => Pte::Leaf(number, Perm { r, w, x, u }),
        _ => Pte::Misaligned,
    }
}

#[derive(Default)]
struct Counts {
    accesses: u64,
    ok: u64,
    unmapped: u64,
    denied: u64,
    not_canonical: u64,
    walks: u64,
    reads: u64,
    pasum: u64,
}

struct Machine {
    words: Vec<u64>,
    loads: u64,
    nodes: u64,
    frames: u64,
    counts: Counts,
}

fn place(node: u64, page: u64, level: usize) -> usize {
    (node * 512 + (page >> (9 * level)) % 512) as usize
}

impl Machine {
    fn open() -> Machine {
        Machine {
            words: vec![0; TABLE_FRAMES * 512],
            loads: 0,
            nodes: 1,
            frames: 0,
            counts: Counts::default(),
        }
    }

    /// Maps a page of 4 KiB for all kinds of access.
    fn map(&mut self, va: u64) {
        let page = va / PAGE % (1 << 27);
        let mut node = 0;
        for level in (1..LEVELS).rev() {
            let at = place(node, page, level);
            if self.words[at] == 0 {
                self.words[at] = self.nodes * 1024 + 1;
                self.nodes += 1;
            }
            node = self.words[at] >> 10;
        }
        self.words[place(node, page, 0)] = self.frames * 1024 + 0xdf;
        self.frames += 1;
    }

    fn load(&mut self, line: usize) -> Option<[u64; 4]> {
        self.loads = self.loads.wrapping_add(1);
        self.words.get(4 * line..4 * line + 4)?.try_into().ok()
    }

    /// The level at which the walk of a page ended, and the leaf found there.
    fn walk(&mut self, page: u64) -> (usize, Option<(u64, Perm)>) {
        let mut level = LEVELS - 1;
        let mut node = 0;
        loop {
            let at = place(node, page, level);
            let Some(words) = self.load(at / 4) else {
                return (level, None);
            };
            match decode(words[at % 4], level) {
                Pte::Pointer(next) => {
                    node = next;
                    level -= 1;
                }
                Pte::Leaf(frame, perm) => return (level, Some((frame, perm))),
                Pte::Invalid | Pte::Reserved | Pte::Misaligned => return (level, None),
            }
        }
    }

    fn access(&mut self, va: u64, kind: Kind) {
        let counts = &mut self.counts;
        counts.accesses = counts.accesses.wrapping_add(1);
        if va >> 38 != 0 && va >> 38 != (1 << 26) - 1 {
            counts.not_canonical = counts.not_canonical.wrapping_add(1);
            return;
        }
        let page = va / PAGE % (1 << 27);
        let (level, leaf) = self.walk(page);
        let counts = &mut self.counts;
        counts.walks = counts.walks.wrapping_add(1);
        counts.reads = counts.reads.wrapping_add((LEVELS - level) as u64);
        let Some((frame, perm)) = leaf else {
            counts.unmapped = counts.unmapped.wrapping_add(1);
            return;
        };
        let allowed = match kind {
            Kind::Fetch => perm.x,
            Kind::Load => perm.r,
            Kind::Store => perm.w,
        };
        if perm.u && allowed {
            counts.ok = counts.ok.wrapping_add(1);
            let frame = frame + page % (1 << (9 * level));
            counts.pasum = counts.pasum.wrapping_add(frame * PAGE + va % PAGE);
        } else {
            counts.denied = counts.denied.wrapping_add(1);
        }
    }

    fn touch(&mut self, reference: &Reference, kind: Kind) {
        self.access(reference.addr, kind);
        let first = reference.addr / PAGE;
        let last = (reference.addr + (reference.size.max(1) as u64 - 1)) / PAGE;
        for page in first + 1..last + 1 {
            self.access(page * PAGE, kind);
        }
    }

    fn serve(&mut self, reference: &Reference) {
        match reference.letter {
            Letter::I => self.touch(reference, Kind::Fetch),
            Letter::L => self.touch(reference, Kind::Load),
            Letter::S => self.touch(reference, Kind::Store),
            Letter::M => {
                self.touch(reference, Kind::Load);
                self.touch(reference, Kind::Store);
            }
        }
    }

    /// Replays a trace, read in pieces.
    fn replay(&mut self, trace: &mut File) -> io::Result<()> {
        let mut buf = vec![0; 65536];
        let (mut start, mut end, mut lines) = (0, 0, 0u64);
        loop {
            while let Some((count, verdict)) = next_line(&buf[start..end]) {
                start += count;
                lines += 1;
                match verdict {
                    Verdict::Skipped => {}
                    Verdict::Found(reference) => self.serve(&reference),
                    Verdict::Bad(reason) => {
                        return Err(io::Error::other(format!("line {lines}: reason {reason}")));
                    }
                }
            }
            buf.copy_within(start..end, 0);
            (start, end) = (0, end - start);
            let count = trace.read(&mut buf[end..])?;
            if count == 0 {
                return Ok(());
            }
            end += count;
        }
    }
}

fn main() -> io::Result<()> {
    let words: Vec<String> = env::args().collect();
    let mut machine = Machine::open();
    for line in fs::read_to_string(&words[1])?.lines() {
        let va = line.split(' ').nth(2).and_then(|va| u64::from_str_radix(va, 16).ok());
        machine.map(va.ok_or_else(|| io::Error::other("a line of the script is no map"))?);
    }
    machine.replay(&mut File::open(&words[2])?)?;
    let counts = &machine.counts;
    println!(
        "accesses={} ok={} unmapped={} denied={} notcanonical={} walks={} reads={} pasum={:016x}",
        counts.accesses,
        counts.ok,
        counts.unmapped,
        counts.denied,
        counts.not_canonical,
        counts.walks,
        counts.reads,
        counts.pasum
    );
    Ok(())
}
