//! Reads a configuration text of either version on standard input, and writes it again on standard output, as `step 0`
//! does, with the same refusals and exit codes: lines by `read_until`, vectors of numbers, and a buffered writer. A word
//! on the command line says how often the text is written, once where there is none; so two runs tell what one writing
//! takes.
use std::io::{self, BufRead, BufReader, BufWriter, Read, Write};
use std::process::ExitCode;

const MOST_BYTES: u64 = 1 << 28;
const MOST_ELEMENTS: [u64; 2] = [1 << 20, 1 << 22];
const GREATEST: u64 = 1 << 62;
const LOOSE: u32 = u32::MAX;
const BUFFER: usize = 1 << 16;

// A line of an element has a number: 4 times the element's, and its own.
const NORTH: u32 = 0;
const EAST: u32 = 1;
const SOUTH: u32 = 2;
const WEST: u32 = 3;
const SIDES: [u8; 4] = *b"nesw";

enum Refusal {
    Text(u64, &'static str),
    TooLong,
    Reading,
    Memory,
}

/// A line of a text, from left to right; `None` where what is asked for doesn't stand there.
struct Cursor<'a>(&'a [u8]);

impl Cursor<'_> {
    fn word(&mut self, word: &[u8]) -> Option<()> {
        self.0 = self.0.strip_prefix(word)?;
        Some(())
    }

    fn number(&mut self) -> Option<u64> {
        let count = self.0.iter().take_while(|byte| byte.is_ascii_digit()).count();
        let (digits, rest) = self.0.split_at(count);
        if digits.is_empty() || digits.len() > 19 || (digits[0] == b'0' && digits.len() > 1) {
            return None;
        }
        let value = digits.iter().fold(0, |value, digit| 10 * value + u64::from(digit - b'0'));
        self.0 = rest;
        (value <= GREATEST).then_some(value)
    }

    fn letter<const N: usize>(&mut self, letters: &[u8; N]) -> Option<u32> {
        let (first, rest) = self.0.split_first()?;
        self.0 = rest;
        letters.iter().position(|letter| letter == first).map(|place| place as u32)
    }

    fn line(&mut self) -> Option<(u64, u32)> {
        let element = self.number()?;
        self.word(b".")?;
        Some((element, self.letter(&SIDES)?))
    }

    fn target(&mut self) -> Option<Option<(u64, u32)>> {
        self.word(b" ")?;
        if self.word(b"-").is_some() {
            return Some(None);
        }
        self.line().map(Some)
    }

    fn end(&self) -> Option<()> {
        self.0.is_empty().then_some(())
    }
}

enum Entry {
    Element { number: u64, upright: bool, targets: [Option<(u64, u32)>; 4] },
    Column { number: u64, rows: u64, upright: bool },
}

fn entry_of(line: &[u8]) -> Option<Entry> {
    let mut at = Cursor(line);
    let is_element = at.word(b"e ").is_some();
    if !is_element {
        at.word(b"c ")?;
    }
    let number = at.number()?;
    at.word(b" ")?;
    let entry = if is_element {
        let upright = at.letter(b"HV")? == 1;
        Entry::Element { number, upright, targets: [at.target()?, at.target()?, at.target()?, at.target()?] }
    } else {
        let rows = at.number()?;
        at.word(b" ")?;
        Entry::Column { number, rows, upright: at.letter(b"HV")? == 1 }
    };
    at.end()?;
    Some(entry)
}

fn row_of(line: &[u8]) -> Option<[Option<(u64, u32)>; 2]> {
    let mut at = Cursor(line);
    at.word(b"r")?;
    let targets = [at.target()?, at.target()?];
    at.end()?;
    Some(targets)
}

fn number_after(line: &[u8], word: &[u8]) -> Option<u64> {
    let mut at = Cursor(line);
    at.word(word)?;
    let number = at.number()?;
    at.end()?;
    Some(number)
}

fn line_after(line: &[u8], word: &[u8]) -> Option<(u64, u32)> {
    let mut at = Cursor(line);
    at.word(word)?;
    let line = at.line()?;
    at.end()?;
    Some(line)
}

/// The lines of the input, up to its limit.
struct Lines<R> {
    input: R,
    line: Vec<u8>,
    number: u64,
}

impl<R: BufRead> Lines<R> {
    fn fault<T>(&self, fault: &'static str) -> Result<T, Refusal> {
        Err(Refusal::Text(self.number, fault))
    }

    /// What the next line says, without its end.
    fn next<T>(&mut self, say: impl FnOnce(&[u8]) -> Option<T>) -> Result<T, Refusal> {
        self.number += 1;
        self.line.clear();
        self.input.read_until(b'\n', &mut self.line).map_err(|_| Refusal::Reading)?;
        match self.line.strip_suffix(b"\n").and_then(say) {
            Some(said) => Ok(said),
            None => self.fault("syntax"),
        }
    }

    fn finish(&mut self) -> Result<(), Refusal> {
        self.number += 1;
        match self.input.fill_buf() {
            Ok([]) => Ok(()),
            Ok(_) => self.fault("syntax"),
            Err(_) => Err(Refusal::Reading),
        }
    }
}

struct Circuit {
    version: u64,
    count: u32,
    start: u32,
    end: u32,
    steps: u64,
    has_left: bool,
    place: u32,
    upright: Vec<bool>,
    own: Vec<bool>,
    targets: Vec<u32>,
    fed: Vec<bool>,
}

fn filled<T: Clone>(value: T, count: usize) -> Result<Vec<T>, Refusal> {
    let mut values = Vec::new();
    values.try_reserve_exact(count).map_err(|_| Refusal::Memory)?;
    values.resize(count, value);
    Ok(values)
}

impl Circuit {
    fn read<R: BufRead>(lines: &mut Lines<R>) -> Result<Circuit, Refusal> {
        let mut circuit = Circuit::read_header(lines)?;
        let mut element = 0;
        while element < circuit.count {
            element = circuit.read_entry(lines, element)?;
        }
        lines.finish()?;
        circuit.hold_spelling()?;
        Ok(circuit)
    }

    fn read_header<R: BufRead>(lines: &mut Lines<R>) -> Result<Circuit, Refusal> {
        let version = lines.next(|line| match line {
            b"rotary 1" => Some(1),
            b"rotary 2" => Some(2),
            _ => None,
        })?;
        let count = lines.next(|line| number_after(line, b"elements ").filter(|count| *count > 0))?;
        if count > MOST_ELEMENTS[version as usize - 1] {
            return lines.fault("too many");
        }
        let named = |lines: &Lines<R>, (element, side): (u64, u32)| match element < count {
            true => Ok(4 * element as u32 + side),
            false => lines.fault("target"),
        };
        let start = lines.next(|line| line_after(line, b"start "))?;
        let start = named(lines, start)?;
        let end = lines.next(|line| line_after(line, b"end "))?;
        let end = named(lines, end)?;
        let steps = lines.next(|line| number_after(line, b"steps "))?;
        let (has_left, place) = lines.next(|line| match line_after(line, b"at ") {
            Some(place) => Some((false, place)),
            None => line_after(line, b"left ").map(|place| (true, place)),
        })?;
        let place = named(lines, place)?;
        let wide = count as usize;
        Ok(Circuit {
            version,
            count: count as u32,
            start,
            end,
            steps,
            has_left,
            place,
            upright: filled(false, wide)?,
            own: filled(false, wide)?,
            targets: filled(LOOSE, 4 * wide)?,
            fed: filled(false, 4 * wide)?,
        })
    }

    /// Reads the entry at this element, and answers the next one's.
    fn read_entry<R: BufRead>(&mut self, lines: &mut Lines<R>, element: u32) -> Result<u32, Refusal> {
        let version = self.version;
        let entry = lines.next(|line| match entry_of(line) {
            Some(Entry::Column { rows, .. }) if version == 1 || rows == 0 => None,
            entry => entry,
        })?;
        let (Entry::Element { number, .. } | Entry::Column { number, .. }) = entry;
        if number != u64::from(element) {
            return lines.fault("order");
        }
        match entry {
            Entry::Element { upright, targets, .. } => {
                self.upright[element as usize] = upright;
                self.own[element as usize] = true;
                self.connect_all(lines, 4 * element, &targets)?;
                Ok(element + 1)
            }
            Entry::Column { rows, upright, .. } => {
                if u64::from(element) + rows >= u64::from(self.count) {
                    return lines.fault("target");
                }
                let bottom = element + rows as u32;
                self.upright[element as usize..bottom as usize].fill(true);
                self.upright[bottom as usize] = upright;
                self.connect_column(lines, element, bottom)?;
                for row in element..bottom {
                    let [east, west] = lines.next(row_of)?;
                    self.connect_all(lines, 4 * row + EAST, &[east, None, west])?;
                }
                Ok(bottom + 1)
            }
        }
    }

    fn connect_all<R>(&mut self, lines: &Lines<R>, first: u32, targets: &[Option<(u64, u32)>]) -> Result<(), Refusal>
    where
        R: BufRead,
    {
        for (from, target) in (first..).zip(targets) {
            let Some((element, side)) = *target else { continue };
            if element >= u64::from(self.count) {
                return lines.fault("target");
            }
            let to = 4 * element as u32 + side;
            if let Some(fault) = self.faults(from, to).into_iter().flatten().next() {
                return lines.fault(fault);
            }
            self.targets[from as usize] = to;
            self.fed[to as usize] = true;
        }
        Ok(())
    }

    /// The faults that a wire has, in their order.
    fn faults(&self, from: u32, to: u32) -> [Option<&'static str>; 4] {
        [
            (from == self.end).then_some("end wired"),
            (self.has_left && from == self.place).then_some("left wired"),
            (to == self.start).then_some("start fed"),
            self.fed[to as usize].then_some("two sources"),
        ]
    }

    fn connect_column<R: BufRead>(&mut self, lines: &Lines<R>, first: u32, bottom: u32) -> Result<(), Refusal> {
        let rungs = (first..bottom).flat_map(|row| {
            let (down, up) = (4 * row + SOUTH, 4 * (row + 1) + NORTH);
            [(down, up), (up, down)]
        });
        let (top, south) = (4 * first + NORTH, 4 * bottom + SOUTH);
        let ends = [(south, south), (4 * bottom + WEST, top), (top, 4 * bottom + EAST)];
        let wires = rungs.chain(ends);
        for fault in 0..4 {
            if let Some(found) = wires.clone().find_map(|(from, to)| self.faults(from, to)[fault]) {
                return lines.fault(found);
            }
        }
        for (from, to) in wires {
            self.targets[from as usize] = to;
            self.fed[to as usize] = true;
        }
        Ok(())
    }

    /// How many rows the column has that begins at this element.
    fn rows_at(&self, first: u32) -> Option<u32> {
        let to = |element: u32, side: u32| self.targets[(4 * element + side) as usize];
        let back = to(first, NORTH);
        let bottom = back / 4;
        if back == LOOSE || back % 4 != EAST || bottom <= first {
            return None;
        }
        let is_column = to(bottom, SOUTH) == 4 * bottom + SOUTH
            && to(bottom, WEST) == 4 * first + NORTH
            && to(bottom, EAST) == LOOSE
            && (first..bottom).all(|row| {
                self.upright[row as usize]
                    && to(row, SOUTH) == 4 * (row + 1) + NORTH
                    && to(row + 1, NORTH) == 4 * row + SOUTH
            });
        is_column.then_some(bottom - first)
    }

    /// Holds that no column is spelled out.
    fn hold_spelling(&self) -> Result<(), Refusal> {
        let spelled = |element: &u32| self.own[*element as usize] && self.rows_at(*element).is_some();
        match (0..self.count).find(spelled) {
            Some(element) if self.version == 2 => Err(Refusal::Text(u64::from(element) + 7, "spelling")),
            _ => Ok(()),
        }
    }

    fn write<W: Write>(&self, out: &mut W) -> io::Result<()> {
        let place = if self.has_left { "left" } else { "at" };
        writeln!(out, "rotary {}\nelements {}", self.version, self.count)?;
        writeln!(out, "start {}\nend {}\nsteps {}", name(self.start), name(self.end), self.steps)?;
        writeln!(out, "{place} {}", name(self.place))?;
        let mut line = Vec::with_capacity(128);
        let mut element = 0;
        while element < self.count {
            element = match self.rows_at(element).filter(|_| self.version == 2) {
                Some(rows) => self.write_column(out, &mut line, element, rows)?,
                None => self.write_element(out, &mut line, element)?,
            }
        }
        out.flush()
    }

    fn write_element<W: Write>(&self, out: &mut W, line: &mut Vec<u8>, element: u32) -> io::Result<u32> {
        line.clear();
        line.extend_from_slice(b"e ");
        put_number(line, element);
        line.extend_from_slice(self.bar(element));
        for from in 4 * element..4 * element + 4 {
            self.put_target(line, from);
        }
        line.push(b'\n');
        out.write_all(line)?;
        Ok(element + 1)
    }

    fn write_column<W: Write>(&self, out: &mut W, line: &mut Vec<u8>, first: u32, rows: u32) -> io::Result<u32> {
        line.clear();
        line.extend_from_slice(b"c ");
        put_number(line, first);
        line.push(b' ');
        put_number(line, rows);
        line.extend_from_slice(self.bar(first + rows));
        line.push(b'\n');
        out.write_all(line)?;
        for row in first..first + rows {
            line.clear();
            line.push(b'r');
            self.put_target(line, 4 * row + EAST);
            self.put_target(line, 4 * row + WEST);
            line.push(b'\n');
            out.write_all(line)?;
        }
        Ok(first + rows + 1)
    }

    fn bar(&self, element: u32) -> &'static [u8] {
        if self.upright[element as usize] { b" V" } else { b" H" }
    }

    fn put_target(&self, line: &mut Vec<u8>, from: u32) {
        let to = self.targets[from as usize];
        if to == LOOSE {
            line.extend_from_slice(b" -");
        } else {
            line.push(b' ');
            put_number(line, to / 4);
            line.extend_from_slice(&[b'.', SIDES[to as usize % 4]]);
        }
    }
}

fn name(line: u32) -> String {
    format!("{}.{}", line / 4, char::from(SIDES[line as usize % 4]))
}

fn put_number(line: &mut Vec<u8>, number: u32) {
    let mut digits = [0; 10];
    let mut first = digits.len();
    let mut rest = number;
    loop {
        first -= 1;
        digits[first] = b'0' + (rest % 10) as u8;
        rest /= 10;
        if rest == 0 {
            break;
        }
    }
    line.extend_from_slice(&digits[first..]);
}

/// The circuit, where the whole input spells one within the limit.
fn read_input() -> Result<Circuit, Refusal> {
    let input = BufReader::with_capacity(BUFFER, io::stdin().lock().take(MOST_BYTES + 1));
    let mut lines = Lines { input, line: Vec::with_capacity(128), number: 0 };
    let read = Circuit::read(&mut lines);
    if let Err(Refusal::Reading | Refusal::Memory) = read {
        return read;
    }
    io::copy(&mut lines.input, &mut io::sink()).map_err(|_| Refusal::Reading)?;
    if lines.input.get_ref().limit() == 0 {
        return Err(Refusal::TooLong);
    }
    read
}

/// Writes the answer so often, and gives the exit code.
fn answer(read: Result<Circuit, Refusal>, times: u32) -> io::Result<u8> {
    let mut out = BufWriter::with_capacity(BUFFER, io::stdout().lock());
    let code = match read {
        Ok(circuit) => {
            for _ in 0..times {
                circuit.write(&mut out)?;
            }
            0
        }
        Err(Refusal::Text(line, fault)) => {
            writeln!(out, "text: line {line} {fault}")?;
            3
        }
        Err(Refusal::TooLong) => {
            writeln!(out, "size: input")?;
            6
        }
        Err(Refusal::Reading) => {
            writeln!(out, "read fault")?;
            7
        }
        Err(Refusal::Memory) => 9,
    };
    out.flush()?;
    Ok(code)
}

fn main() -> ExitCode {
    let times = std::env::args().nth(1).and_then(|word| word.parse().ok()).unwrap_or(1);
    ExitCode::from(answer(read_input(), times).unwrap_or(8))
}
