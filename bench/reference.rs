//! A plain program in Rust that does the work of some commands, so that our times can be compared: reference COMMAND <in >out.
//!
//! The program is short and fast, as people write programs without proofs. `convert`, `check`, `screen TIME`, `state TIME`, `q`, `planar`,
//! `raw`, `scratch SEED` and `save` read a stream of raw blocks without lead-in. The other commands are `text LEAD-IN`, `thin`,
//! `author LENGTH -- SHEET SCRIPT`, `press LENGTH -- SHEET FILE`, `merge -- FIRST SECOND`, `resume TIME -- SAVE REST` and
//! `trial SEED PICTURES`. It reads only the Q frames of a program, and only the tracks and index lines of sheets, and its
//! error messages are short.
use std::fs::{self, File};
use std::io::{self, BufReader, BufWriter, Read, Stdin, Write};
use std::os::fd::AsFd;

const BLOCK: usize = 96;
const WORD: usize = 24;
/// The place of each symbol of a word, from the slot of the word on.
const PLACES: [usize; WORD] = [
    0, 66, 125, 191, 100, 50, 150, 175, 8, 33, 58, 83, 108, 133, 158, 183, 16, 41, 25, 91, 116, 141, 166, 75,
];

type Word = [u8; WORD];
type Input = BufReader<Stdin>;
/// Standard output as a file. `Stdout` would search the output for line feeds and split writes there.
type Output = BufWriter<File>;

/// The field of 64 elements, with tables of logarithms.
struct Field {
    power: [u8; 126],
    log: [u8; 64],
    /// The four syndromes of a symbol at a place, six bits each.
    sums: [[u32; 64]; WORD],
    /// The two places, counted from the end, whose powers have a on_word sum and product; 255 if there are none.
    pairs: Vec<[u8; 2]>,
}

impl Field {
    fn new() -> Field {
        let mut field = Field { power: [0; 126], log: [0; 64], sums: [[0; 64]; WORD], pairs: vec![[255; 2]; 4096] };
        let mut x = 1u8;
        for k in 0..63 {
            field.power[k] = x;
            field.power[k + 63] = x;
            field.log[x as usize] = k as u8;
            x = if x & 32 != 0 { x << 1 ^ 0b1000011 } else { x << 1 };
        }
        for place in 0..WORD {
            for value in 1..64 {
                for j in 0..4 {
                    let sum = field.times(field.power[j * (23 - place) % 63], value as u8);
                    field.sums[place][value] |= (sum as u32) << (6 * j);
                }
            }
        }
        for a in 0..WORD {
            for b in a + 1..WORD {
                let (x, y) = (field.power[a], field.power[b]);
                let product = field.times(x, y);
                field.pairs[64 * (x ^ y) as usize + product as usize] = [a as u8, b as u8];
            }
        }
        field
    }

    fn times(&self, a: u8, b: u8) -> u8 {
        if a == 0 || b == 0 {
            return 0;
        }
        self.power[self.log[a as usize] as usize + self.log[b as usize] as usize]
    }

    fn over(&self, a: u8, b: u8) -> u8 {
        if a == 0 {
            return 0;
        }
        self.power[self.log[a as usize] as usize + 63 - self.log[b as usize] as usize]
    }

    /// The four syndromes of a word.
    fn sums_of(&self, word: &Word) -> u32 {
        (0..WORD).fold(0, |sums, i| sums ^ self.sums[i][word[i] as usize])
    }

    /// Corrects at most two wrong symbols; returns their number if the word is near a codeword.
    fn correct(&self, word: &mut Word) -> Option<usize> {
        let sums = self.sums_of(word);
        if sums == 0 {
            return Some(0);
        }
        let s: [u8; 4] = std::array::from_fn(|j| (sums >> (6 * j) & 63) as u8);
        if s[0] != 0 && s[1] != 0 {
            let place = (self.log[s[1] as usize] as usize + 63 - self.log[s[0] as usize] as usize) % 63;
            if place < WORD && self.sums[23 - place][s[0] as usize] == sums {
                word[23 - place] ^= s[0];
                return Some(1);
            }
        }
        let below = self.times(s[1], s[1]) ^ self.times(s[0], s[2]);
        if below == 0 {
            return None;
        }
        let sum = self.over(self.times(s[0], s[3]) ^ self.times(s[1], s[2]), below);
        let product = self.over(self.times(s[1], s[3]) ^ self.times(s[2], s[2]), below);
        let roots = self.pairs[64 * sum as usize + product as usize].map(usize::from);
        if roots[0] == 255 {
            return None;
        }
        let (x, y) = (self.power[roots[0]], self.power[roots[1]]);
        let second = self.over(s[1] ^ self.times(s[0], x), x ^ y);
        let first = s[0] ^ second;
        let (i, j) = (23 - roots[0], 23 - roots[1]);
        if self.sums[i][first as usize] ^ self.sums[j][second as usize] != sums {
            return None;
        }
        word[i] ^= first;
        word[j] ^= second;
        Some(2)
    }
}

impl Field {
    /// The codeword that differs from a word only at these places (at most four), if there is one.
    fn fill(&self, word: &Word, places: &[usize]) -> Option<Word> {
        let sums = self.sums_of(word);
        let n = places.len();
        // One row for each of the first n syndromes: the powers of the places, and the syndrome.
        let mut rows = [[0u8; 5]; 4];
        for (j, row) in rows.iter_mut().enumerate().take(n) {
            for (k, &place) in places.iter().enumerate() {
                row[k] = self.power[j * (23 - place) % 63];
            }
            row[n] = (sums >> (6 * j) & 63) as u8;
        }
        for k in 0..n {
            let pivot = (k..n).find(|&j| rows[j][k] != 0)?;
            rows.swap(k, pivot);
            let head = rows[k];
            for row in rows.iter_mut().take(n).enumerate().filter(|it| it.0 != k).map(|it| it.1) {
                let factor = self.over(row[k], head[k]);
                for (it, other) in row.iter_mut().zip(head) {
                    *it ^= self.times(factor, other);
                }
            }
        }
        let mut filled = *word;
        for (k, &place) in places.iter().enumerate() {
            filled[place] ^= self.over(rows[k][n], rows[k][k]);
        }
        (self.sums_of(&filled) == 0).then_some(filled)
    }

    /// The codeword on which two readings of a word agree: twice the number of symbols that are equally wrong in both, plus the
    /// number of symbols in which they differ, is at most four.
    fn agreed(&self, one: &Word, other: &Word) -> Option<Word> {
        let differing: Vec<usize> = (0..WORD).filter(|&i| one[i] != other[i]).collect();
        if differing.len() > 4 {
            return None;
        }
        let both = |word: &Word| (0..WORD).filter(|&i| one[i] == other[i] && word[i] != one[i]).count();
        for reading in [one, other] {
            let mut word = *reading;
            if self.correct(&mut word).is_some() && 2 * both(&word) + differing.len() <= 4 {
                return Some(word);
            }
        }
        if let Some(word) = self.fill(one, &differing) {
            return Some(word);
        }
        if differing.len() > 2 {
            return None;
        }
        (0..WORD).filter(|i| !differing.contains(i)).find_map(|place| {
            let mut places = differing.clone();
            places.push(place);
            self.fill(one, &places)
        })
    }
}

/// Reads a block; returns false at the end of the input.
fn read_block(input: &mut impl Read, block: &mut [u8]) -> io::Result<bool> {
    match input.read_exact(block) {
        Ok(()) => Ok(true),
        Err(error) if error.kind() == io::ErrorKind::UnexpectedEof => Ok(false),
        Err(error) => Err(error),
    }
}

/// The symbols of the seven slots before a block and of the block.
struct Window {
    symbols: [u8; 168 + BLOCK],
    /// The number of slots before (at most seven), and the number of idle blocks in a row.
    before: usize,
    idle_blocks: usize,
}

impl Window {
    fn new() -> Window {
        Window { symbols: [0; 168 + BLOCK], before: 0, idle_blocks: 0 }
    }

    fn take(&mut self, block: &[u8]) {
        // Most blocks of a disc are idle. If the slots before a block are idle too, its words are idle, and nothing is moved.
        self.idle_blocks = if block.iter().fold(0, |all, it| all | it) & 63 == 0 { self.idle_blocks + 1 } else { 0 };
        if self.idle_blocks > 3 {
            return;
        }
        self.symbols.copy_within(BLOCK.., 0);
        for (symbol, byte) in self.symbols[168..].iter_mut().zip(block) {
            *symbol = byte & 63;
        }
    }

    /// The first slot of the block that ends a word.
    fn first(&mut self) -> usize {
        let first = (7 - self.before).min(4);
        self.before = 7.min(self.before + 4);
        first
    }

    fn is_idle(&self) -> bool {
        self.idle_blocks > 2
    }

    fn word(&self, slot: usize) -> Word {
        std::array::from_fn(|i| self.symbols[WORD * slot + PLACES[i]])
    }
}

/// Passes each corrected word of a stream to a function, with the number of wrong symbols.
fn for_each_word(
    input: &mut impl Read,
    on_word: impl FnMut(&Word, Option<usize>) -> io::Result<()>,
) -> io::Result<()> {
    for_each_word_and_block(input, |_| {}, on_word)
}

/// Passes each block and each corrected word to a function.
fn for_each_word_and_block(
    input: &mut impl Read,
    on_block: impl FnMut(&[u8]),
    on_word: impl FnMut(&Word, Option<usize>) -> io::Result<()>,
) -> io::Result<()> {
    words_from(&mut Window::new(), input, on_block, on_word)
}

/// Like `for_each_word_and_block`, but with a window that may already contain symbols of the stream.
fn words_from(
    window: &mut Window,
    input: &mut impl Read,
    mut on_block: impl FnMut(&[u8]),
    mut on_word: impl FnMut(&Word, Option<usize>) -> io::Result<()>,
) -> io::Result<()> {
    let (field, mut block) = (Field::new(), [0; BLOCK]);
    while read_block(input, &mut block)? {
        on_block(&block);
        window.take(&block);
        for slot in window.first()..4 {
            if window.is_idle() {
                on_word(&[0; WORD], Some(0))?;
                continue;
            }
            let mut word = window.word(slot);
            let wrong = field.correct(&mut word);
            on_word(if wrong.is_some() { &word } else { &[0; WORD] }, wrong)?;
        }
    }
    Ok(())
}

/// Writes the packs on which two readings agree, and zeros if they agree on none.
fn merge(first: &str, second: &str, out: &mut Output) -> io::Result<()> {
    let open = |name| fs::File::open(name).map(|file| BufReader::with_capacity(65_536, file));
    let (field, mut inputs) = (Field::new(), [open(first)?, open(second)?]);
    let (mut windows, mut block) = ([Window::new(), Window::new()], [0; BLOCK]);
    loop {
        for (input, window) in inputs.iter_mut().zip(&mut windows) {
            if !read_block(input, &mut block)? {
                return Ok(());
            }
            window.take(&block);
        }
        let [one, other] = &mut windows;
        let (first, same) = (one.first(), one.symbols == other.symbols);
        for slot in first..4 {
            if one.is_idle() && other.is_idle() {
                out.write_all(&[0; WORD])?;
                continue;
            }
            let mut word = one.word(slot);
            let found = if same { field.correct(&mut word).map(|_| word) } else { field.agreed(&word, &other.word(slot)) };
            out.write_all(&found.unwrap_or([0; WORD]))?;
        }
    }
}

/// Writes a checkpoint after a stream.
fn save(input: &mut Input, out: &mut Output) -> io::Result<()> {
    let (mut window, mut screen, mut blocks, mut bad) = (Window::new(), Screen::new(), 0u32, 0u32);
    let on_word = |word: &Word, wrong: Option<usize>| {
        bad += u32::from(wrong.is_none());
        screen.execute(word);
        Ok(())
    };
    words_from(&mut window, input, |_| blocks += 1, on_word)?;
    let mut file = Vec::with_capacity(SAVED);
    file.extend(b"CDGSAVE1");
    for number in [0, 0, blocks, bad] {
        file.extend(u32::to_be_bytes(number));
    }
    file.extend(&window.symbols[BLOCK..]);
    file.extend(&screen.memory);
    file.extend([screen.border, screen.offsets.0 as u8, screen.offsets.1 as u8]);
    for colour in screen.colours {
        file.extend(colour.to_be_bytes());
    }
    file.extend(screen.levels);
    let check = Check::new().of(&file);
    file.extend(check);
    out.write_all(&file)
}

const SAVED: usize = 65_045;

/// Writes the picture at a time, from a checkpoint without a lead-in and the rest of its stream.
fn resume(time: u32, saved: &[u8], rest: &str, out: &mut Output) -> io::Result<()> {
    if saved.len() != SAVED || !saved.starts_with(b"CDGSAVE1") || !Check::new().is_good(saved) {
        refused("bad-save");
    }
    let blocks = u32::from_be_bytes(saved[16..20].try_into().unwrap());
    let mut window = Window::new();
    window.symbols[BLOCK..].copy_from_slice(&saved[24..192]);
    window.before = 7.min(4 * blocks as usize);
    let mut screen = Screen::new();
    screen.memory.copy_from_slice(&saved[192..64_992]);
    screen.border = saved[64_992];
    screen.offsets = (saved[64_993].into(), saved[64_994].into());
    for (k, colour) in screen.colours.iter_mut().enumerate() {
        *colour = u16::from_be_bytes(saved[64_995 + 2 * k..64_997 + 2 * k].try_into().unwrap());
    }
    screen.levels.copy_from_slice(&saved[65_027..65_043]);
    let mut left = (4 * time).saturating_sub(7) - (4 * blocks).saturating_sub(7);
    let input = &mut BufReader::with_capacity(65_536, fs::File::open(rest)?);
    words_from(&mut window, input, |_| {}, |word, _| {
        if left > 0 {
            left -= 1;
            screen.execute(word);
        }
        Ok(())
    })?;
    screen.write(out)
}

fn convert(input: &mut Input, out: &mut Output) -> io::Result<()> {
    for_each_word(input, |word, _| out.write_all(word))
}

/// The CRC of the bytes of a Q frame.
struct Check([u16; 256]);

impl Check {
    fn new() -> Check {
        Check(std::array::from_fn(|byte| {
            (0..8).fold((byte as u16) << 8, |x, _| if x & 0x8000 != 0 { x << 1 ^ 0x1021 } else { x << 1 })
        }))
    }

    fn of(&self, bytes: &[u8]) -> [u8; 2] {
        let check = bytes.iter().fold(0u16, |x, &byte| x << 8 ^ self.0[(x >> 8) as usize ^ byte as usize]);
        (!check).to_be_bytes()
    }

    /// Whether the last two bytes are the CRC of the others.
    fn is_good(&self, bytes: &[u8]) -> bool {
        let (bytes, check) = bytes.split_at(bytes.len() - 2);
        self.of(bytes) == check
    }
}

fn q_frame(block: &[u8]) -> [u8; 12] {
    std::array::from_fn(|k| block[8 * k..8 * k + 8].iter().fold(0, |byte, it| byte << 1 | it >> 6 & 1))
}

fn check(input: &mut Input, out: &mut Output) -> io::Result<()> {
    let mut counts = [0u64; 8];
    let (mut blocks, mut q_good) = (0u64, 0u64);
    let table = Check::new();
    let on_block = |block: &[u8]| {
        blocks += 1;
        q_good += u64::from(table.is_good(&q_frame(block)));
    };
    for_each_word_and_block(input, on_block, |word, wrong| {
        let known = matches!(word[1], 1 | 2 | 6 | 20 | 24 | 28 | 30 | 31 | 38);
        match wrong {
            None => counts[3] += 1,
            Some(wrong) => {
                counts[wrong] += 1;
                counts[match word[0] {
                    0 => 4,
                    9 if known => 5,
                    9 => 6,
                    _ => 7,
                }] += 1;
            }
        }
        Ok(())
    })?;
    let packs: u64 = counts[..4].iter().sum();
    writeln!(out, "lead-in 0\nprogram {blocks}\npacks {packs}")?;
    for (name, count) in ["clean", "one", "two", "bad", "idle", "graphics", "unknown", "foreign"].iter().zip(counts) {
        writeln!(out, "{name} {count}")?;
    }
    writeln!(out, "q-good {q_good}\nq-bad {}", blocks - q_good)
}

/// The screen of a player.
#[derive(Clone, PartialEq)]
struct Screen {
    memory: Vec<u8>,
    border: u8,
    colours: [u16; 16],
    levels: [u8; 16],
    offsets: (usize, usize),
}

impl Screen {
    fn new() -> Screen {
        Screen { memory: vec![0; 300 * 216], border: 0, colours: [0; 16], levels: [0; 16], offsets: (0, 0) }
    }

    fn tile(&mut self, c: &[u8], combined: bool) {
        let (row, column) = ((c[2] & 31) as usize, c[3] as usize);
        if row > 17 || column > 49 {
            return;
        }
        for line in 0..12 {
            let at = (12 * row + line) * 300 + 6 * column;
            for i in 0..6 {
                let colour = if c[4 + line] >> (5 - i) & 1 == 0 { c[0] & 15 } else { c[1] & 15 };
                let pixel = &mut self.memory[at + i];
                *pixel = if combined { *pixel ^ colour } else { colour };
            }
        }
    }

    fn scroll(&mut self, c: &[u8], fill: Option<u8>) {
        let across = [0, 6, 294, 0][(c[1] >> 4 & 3) as usize];
        let down = [0, 12, 204, 0][(c[2] >> 4 & 3) as usize];
        self.offsets = ((c[1] & 7).min(5) as usize, (c[2] & 15).min(11) as usize);
        if across == 0 && down == 0 {
            return;
        }
        let old = self.memory.clone();
        for y in 0..216 {
            for x in 0..300 {
                let (to_x, to_y) = ((x + across) % 300, (y + down) % 216);
                let enters = (across == 6 && to_x < 6)
                    || (across == 294 && to_x >= 294)
                    || (down == 12 && to_y < 12)
                    || (down == 204 && to_y >= 204);
                let moved = old[300 * y + x];
                self.memory[300 * to_y + to_x] = if enters { fill.unwrap_or(moved) } else { moved };
            }
        }
    }

    fn execute(&mut self, word: &Word) {
        let c = &word[4..20];
        match (word[0], word[1]) {
            (9, 1) => self.memory.fill(c[0] & 15),
            (9, 2) => self.border = c[0] & 15,
            (9, 6) => self.tile(c, false),
            (9, 38) => self.tile(c, true),
            (9, 20) => self.scroll(c, Some(c[0] & 15)),
            (9, 24) => self.scroll(c, None),
            (9, 28) => self.levels.copy_from_slice(c),
            (9, part @ (30 | 31)) => {
                for k in 0..8 {
                    let first = if part == 30 { 0 } else { 8 };
                    self.colours[first + k] = (c[2 * k] as u16) << 6 | c[2 * k + 1] as u16;
                }
            }
            _ => {}
        }
    }

    /// The number of the colour at a place of the screen.
    fn shown(&self, x: usize, y: usize) -> u8 {
        let (h, v) = self.offsets;
        let inside = (6..=293).contains(&x) && (12..=203).contains(&y);
        if inside { self.memory[300 * (y + v) + x + h] } else { self.border }
    }

    fn write(&self, out: &mut Output) -> io::Result<()> {
        out.write_all(b"P6\n300 216\n255\n")?;
        for y in 0..216 {
            for x in 0..300 {
                let colour = self.colours[self.shown(x, y) as usize];
                out.write_all(&[8, 4, 0].map(|k| 17 * (colour >> k & 15) as u8))?;
            }
        }
        Ok(())
    }
}

/// The screen after some blocks.
fn screen_at(input: &mut Input, blocks: usize) -> io::Result<Screen> {
    let mut screen = Screen::new();
    let mut left = (4 * blocks).saturating_sub(7);
    for_each_word(input, |word, _| {
        if left > 0 {
            left -= 1;
            screen.execute(word);
        }
        Ok(())
    })?;
    Ok(screen)
}

fn state(screen: &Screen, out: &mut Output) -> io::Result<()> {
    writeln!(out, "border {:02}\noffset {} {:02}", screen.border, screen.offsets.0, screen.offsets.1)?;
    for (k, (colour, level)) in screen.colours.iter().zip(screen.levels).enumerate() {
        writeln!(out, "colour {k:02} {colour:04x} level {level:02}")?;
    }
    Ok(())
}

/// Writes the packs of a file. Packs that change nothing are replaced by zeros.
fn thin(input: &mut Input, out: &mut Output) -> io::Result<()> {
    let (mut screen, mut pack) = (Screen::new(), [0; WORD]);
    while read_block(input, &mut pack)? {
        let word = pack.map(|symbol| symbol & 63);
        let draws = word[0] == 9 && matches!(word[1], 1 | 2 | 6 | 20 | 24 | 28 | 30 | 31 | 38);
        let is_kept = !draws || changes(&mut screen, &word);
        out.write_all(if is_kept { &pack } else { &[0; WORD] })?;
    }
    Ok(())
}

/// Executes an instruction; returns whether it changes anything.
fn changes(screen: &mut Screen, word: &Word) -> bool {
    let c = &word[4..20];
    // A tile changes only its own pixels, and is by far the most common instruction.
    if matches!(word[1], 6 | 38) {
        let (row, column) = ((c[2] & 31) as usize, c[3] as usize);
        if row > 17 || column > 49 {
            return false;
        }
        let line = |line: usize| (12 * row + line) * 300 + 6 * column;
        let old: [[u8; 6]; 12] = std::array::from_fn(|j| std::array::from_fn(|i| screen.memory[line(j) + i]));
        screen.execute(word);
        return (0..12).any(|j| screen.memory[line(j)..line(j) + 6] != old[j]);
    }
    let before = screen.clone();
    screen.execute(word);
    *screen != before
}

/// Writes the texts of a lead-in, and the numbers of good, bad and other packs.
fn text(input: &mut Input, out: &mut Output, lead_in: usize) -> io::Result<()> {
    let (check, mut block, mut packs) = (Check::new(), [0; BLOCK], vec![None; 256]);
    let (mut good, mut bad, mut other) = (0, 0, 0);
    for _ in 0..lead_in {
        if !read_block(input, &mut block)? {
            break;
        }
        for slot in block.chunks(WORD) {
            let mut pack = [0; 18];
            for (bytes, symbols) in pack.chunks_mut(3).zip(slot.chunks(4)) {
                let bits = symbols.iter().fold(0u32, |bits, &symbol| bits << 6 | u32::from(symbol & 63));
                bytes.copy_from_slice(&bits.to_be_bytes()[1..]);
            }
            if !check.is_good(&pack) {
                bad += 1;
            } else if pack[3] & 0xF0 != 0 {
                other += 1;
            } else {
                good += 1;
                packs[pack[2] as usize].get_or_insert(pack);
            }
        }
    }
    let packs: Vec<[u8; 18]> = packs.into_iter().flatten().collect();
    let sizes: Vec<&[u8; 18]> = packs.iter().filter(|pack| pack[0] == 0x8F).collect();
    if let Some(first) = sizes.first() {
        let tracks = (first[6] + 1 - first[5]) as usize;
        for (name, kind) in ["title", "performer", "songwriter", "composer", "arranger", "message", "code"]
            .iter()
            .zip([0x80, 0x81, 0x82, 0x83, 0x84, 0x85, 0x8E])
        {
            let bytes: Vec<u8> = packs.iter().filter(|pack| pack[0] == kind).flat_map(|pack| &pack[4..16]).copied().collect();
            let mut before = Vec::new();
            for (k, string) in bytes.split(|&byte| byte == 0).take(tracks + 1).enumerate() {
                let string = if string == b"\t" && k > 0 { before } else { string.to_vec() };
                if !string.is_empty() {
                    let track = if k == 0 { 0 } else { first[5] as usize + k - 1 };
                    write!(out, "{name} {track:02} ")?;
                    for &byte in &string {
                        match byte {
                            0x20..=0x7E if byte != b'\\' => out.write_all(&[byte])?,
                            _ => write!(out, "\\{byte:02x}")?,
                        }
                    }
                    writeln!(out)?;
                }
                before = string;
            }
        }
    }
    writeln!(out, "packs good {good} bad {bad} other {other}")
}

fn q(input: &mut Input, out: &mut Output) -> io::Result<()> {
    let table = Check::new();
    let mut block = [0; BLOCK];
    let mut number = 0;
    while read_block(input, &mut block)? {
        let f = q_frame(&block);
        if !table.is_good(&f) {
            writeln!(out, "{number:06} bad crc")?;
        } else if f[0] & 15 == 1 && f[1] != 0 && f[1] != 0xAA {
            writeln!(
                out,
                "{number:06} {:x} track {:02x} index {:02x} {:02x}:{:02x}:{:02x} abs {:02x}:{:02x}:{:02x}",
                f[0] >> 4, f[1], f[2], f[3], f[4], f[5], f[7], f[8], f[9]
            )?;
        } else {
            writeln!(out, "{number:06} {:x} other", f[0] >> 4)?;
        }
        number += 1;
    }
    Ok(())
}

/// For each byte, a number whose eight bytes are the bits of the byte, the highest bit first in memory.
fn lanes() -> [u64; 256] {
    std::array::from_fn(|byte| (0..8).fold(0, |lanes, k| lanes | (byte as u64 >> (7 - k) & 1) << (8 * k)))
}

fn planar(input: &mut Input, out: &mut Output) -> io::Result<()> {
    let (lanes, mut block, mut output_block) = (lanes(), [0; BLOCK], [0; BLOCK]);
    while read_block(input, &mut block)? {
        for k in 0..12 {
            let bits = block[8 * k..8 * k + 8].iter().fold(0, |bits, &byte| bits << 1 | lanes[byte as usize]);
            for (channel, byte) in bits.to_le_bytes().into_iter().enumerate() {
                output_block[12 * channel + k] = byte;
            }
        }
        out.write_all(&output_block)?;
    }
    Ok(())
}

fn raw(input: &mut Input, out: &mut Output) -> io::Result<()> {
    let (lanes, mut block, mut output_block) = (lanes(), [0; BLOCK], [0; BLOCK]);
    while read_block(input, &mut block)? {
        for k in 0..12 {
            let bits = (0..8).fold(0, |bits, channel| bits << 1 | lanes[block[12 * channel + k] as usize]);
            output_block[8 * k..8 * k + 8].copy_from_slice(&bits.to_le_bytes());
        }
        out.write_all(&output_block)?;
    }
    Ok(())
}

/// The words of PCG32 with stream 54.
struct Random(u64);

impl Random {
    const STREAM: u64 = 54 << 1 | 1;

    fn new(seed: u64) -> Random {
        let mut random = Random(Self::STREAM.wrapping_add(seed));
        random.step();
        random
    }

    fn step(&mut self) {
        self.0 = self.0.wrapping_mul(6364136223846793005).wrapping_add(Self::STREAM);
    }

    fn next(&mut self) -> u32 {
        let old = self.0;
        self.step();
        ((((old >> 18) ^ old) >> 27) as u32).rotate_right((old >> 59) as u32)
    }
}

/// The bursts of a seed: the number of symbols before the next burst, the rest of its length, and its change.
struct Needle {
    random: Random,
    gap: usize,
    left: usize,
    change: u8,
}

impl Needle {
    fn new(seed: u64) -> Needle {
        let mut needle = Needle { random: Random::new(seed), gap: 0, left: 0, change: 0 };
        needle.lift();
        needle
    }

    fn lift(&mut self) {
        let a = self.random.next();
        self.gap = (192 + a % 64) as usize;
        self.left = (1 + a / 256 % 16) as usize;
        self.change = (1 + (a >> 16) % 63) as u8;
    }

    fn scratch(&mut self, bytes: &mut [u8]) {
        let (mut at, count) = (0, bytes.len());
        while at < count {
            let clean = self.gap.min(count - at);
            self.gap -= clean;
            at += clean;
            let hit = if self.gap == 0 { self.left.min(count - at) } else { 0 };
            for byte in &mut bytes[at..at + hit] {
                *byte ^= self.change;
            }
            at += hit;
            self.left -= hit;
            if self.left == 0 {
                self.lift();
            }
        }
    }
}

fn scratch(input: &mut Input, out: &mut Output, seed: u64) -> io::Result<()> {
    let (mut needle, mut buffer) = (Needle::new(seed), [0; 65_536]);
    loop {
        let count = input.read(&mut buffer)?;
        if count == 0 {
            return Ok(());
        }
        needle.scratch(&mut buffer[..count]);
        out.write_all(&buffer[..count])?;
    }
}

/// The block of a time `MM:SS:FF`.
fn blocks_of(time: &[u8]) -> Option<u32> {
    let digits = |at: usize| match time[at..at + 2] {
        [a @ b'0'..=b'9', b @ b'0'..=b'9'] => Some(10 * u32::from(a - b'0') + u32::from(b - b'0')),
        _ => None,
    };
    if time.len() != 8 || time[2] != b':' || time[5] != b':' {
        return None;
    }
    let (minutes, seconds, frames) = (digits(0)?, digits(3)?, digits(6)?);
    (seconds < 60 && frames < 75).then_some((60 * minutes + seconds) * 75 + frames)
}

/// The words of a line.
fn words_of(line: &[u8]) -> impl Iterator<Item = &[u8]> {
    line.split(|byte| matches!(byte, b' ' | b'\t' | b'\r')).filter(|word| !word.is_empty())
}

/// The number in a word of one to three digits, if it is below a limit.
fn number(word: &[u8], limit: usize) -> Option<usize> {
    if word.is_empty() || word.len() > 3 || !word.iter().all(u8::is_ascii_digit) {
        return None;
    }
    let value = word.iter().fold(0, |value, digit| 10 * value + usize::from(digit - b'0'));
    (value < limit).then_some(value)
}

/// A track on the disc: its number, its first block, and its index lines by number and block.
struct Track {
    number: u8,
    begin: u32,
    lines: Vec<(u8, u32)>,
}

impl Track {
    fn music(&self) -> u32 {
        self.lines.iter().find(|line| line.0 == 1).map_or(self.begin, |line| line.1)
    }
}

/// The places of the tracks of a sheet.
struct Layout {
    tracks: Vec<Track>,
    blocks: u32,
}

impl Layout {
    /// The layout of a sheet whose tracks have only index lines.
    fn of(sheet: &[u8], length: u32) -> Option<Layout> {
        let mut tracks: Vec<Track> = Vec::new();
        for line in sheet.split(|&byte| byte == b'\n') {
            let mut words = words_of(line);
            match words.next() {
                Some(b"TRACK") => {
                    let number = number(words.next()?, 100)? as u8;
                    tracks.push(Track { number, begin: 0, lines: Vec::new() });
                }
                Some(b"INDEX") => {
                    let index = number(words.next()?, 100)? as u8;
                    let block = 150 + blocks_of(words.next()?)?;
                    let first = tracks.len() == 1;
                    let track = tracks.last_mut()?;
                    if track.lines.is_empty() && !first {
                        track.begin = block;
                    }
                    track.lines.push((index, block));
                }
                None | Some(b"FILE" | b"REM") => {}
                Some(_) => return None,
            }
        }
        Some(Layout { tracks, blocks: 150 + length })
    }

    fn frame(&self, block: u32, check: &Check) -> [u8; 12] {
        let track = &self.tracks[self.tracks.partition_point(|track| track.begin <= block) - 1];
        let index = track.lines.iter().rev().find(|line| line.1 <= block).map_or(0, |line| line.0);
        let bcd = |n: u32| (n / 10 * 16 + n % 10) as u8;
        let [m, s, f] = [4500, 75, 1].map(|unit| block.abs_diff(track.music()) / unit);
        let [am, a_s, af] = [4500, 75, 1].map(|unit| block / unit);
        let number = bcd(track.number.into());
        let mut frame = [1, number, bcd(index.into()), bcd(m), bcd(s % 60), bcd(f % 75), 0, bcd(am), bcd(a_s % 60), bcd(af % 75), 0, 0];
        let check = check.of(&frame[..10]);
        frame[10..].copy_from_slice(&check);
        frame
    }

    fn p_bit(&self, block: u32) -> bool {
        self.tracks.iter().find(|track| block < track.music()).is_some_and(|track| {
            let pause = (track.music() - track.begin).max(150);
            track.music() - pause <= block
        })
    }
}

/// The parity of packs.
struct Parity {
    /// The remainders of a symbol followed by two or four symbols, for the polynomials of the Q and P parity.
    q: [u32; 64],
    p: [u32; 64],
}

impl Parity {
    fn new() -> Parity {
        let field = Field::new();
        let table = |count: usize| {
            // The coefficients of the product of (x - 2^k), without the highest one, in descending order.
            let mut product = vec![1];
            for k in 0..count {
                product.push(0);
                for i in (1..product.len()).rev() {
                    product[i] ^= field.times(product[i - 1], field.power[k]);
                }
            }
            std::array::from_fn(|value| {
                product[1..].iter().fold(0, |bits, &it| bits << 6 | u32::from(field.times(it, value as u8)))
            })
        };
        Parity { q: table(2), p: table(4) }
    }

    /// Writes both parities of a pack.
    fn seal(&self, word: &mut Word) {
        let q = word[..2].iter().fold(0, |rest, &it| (rest & 63) << 6 ^ self.q[(rest >> 6 ^ u32::from(it)) as usize]);
        word[2..4].copy_from_slice(&[6, 0].map(|shift| (q >> shift & 63) as u8));
        let p = word[..20]
            .iter()
            .fold(0, |rest, &it| (rest & 0x3_FFFF) << 6 ^ self.p[(rest >> 18 ^ u32::from(it)) as usize]);
        word[20..].copy_from_slice(&[18, 12, 6, 0].map(|shift| (p >> shift & 63) as u8));
    }
}

/// Writes the program blocks of a layout with their packs; a missing pack is idle.
fn write_stream(layout: &Layout, mut pack: impl FnMut(u32) -> Option<Word>, out: &mut impl Write) -> io::Result<()> {
    let (check, lanes) = (Check::new(), lanes());
    // The symbols of a block and of the seven slots after it.
    let mut symbols = [0; BLOCK + 168];
    for b in 0..layout.blocks {
        for slot in 0..4 {
            if let Some(word) = pack(4 * b + slot) {
                for (place, symbol) in PLACES.iter().zip(word) {
                    symbols[WORD * slot as usize + place] = symbol;
                }
            }
        }
        let (frame, p) = (layout.frame(b, &check), if layout.p_bit(b) { 0x8080_8080_8080_8080 } else { 0 });
        let mut block = [0; BLOCK];
        for (k, bytes) in block.chunks_mut(8).enumerate() {
            let six = u64::from_le_bytes(symbols[8 * k..8 * k + 8].try_into().unwrap());
            bytes.copy_from_slice(&(six | lanes[frame[k] as usize] << 6 | p).to_le_bytes());
        }
        out.write_all(&block)?;
        symbols.copy_within(BLOCK.., 0);
        symbols[168..].fill(0);
    }
    Ok(())
}

/// A line of a script that draws.
enum Line {
    Colour { number: usize, value: u16 },
    Border { colour: u8 },
    Fill { colour: u8 },
    Rect { x: u16, y: u8, width: u16, height: u8, colour: u8 },
    Row { x: u16, y: u8, first: usize, count: u16 },
}

/// A picture: the lines before its show line, and its times.
struct Shown {
    place: usize,
    ready: u32,
    hold: u32,
}

struct Script {
    lines: Vec<Line>,
    pixels: Vec<u8>,
    shown: Vec<Shown>,
}

impl Script {
    /// The script of a text, or the number of the first refused line.
    fn parse(text: &[u8]) -> Result<Script, usize> {
        let mut script = Script { lines: Vec::new(), pixels: Vec::new(), shown: Vec::new() };
        for (number, line) in text.split(|&byte| byte == b'\n').enumerate() {
            script.line(line).ok_or(number + 1)?;
        }
        Ok(script)
    }

    fn line(&mut self, line: &[u8]) -> Option<()> {
        let mut words = words_of(line);
        let Some(command) = words.next() else {
            return Some(());
        };
        let hex = |byte: &u8| (*byte as char).to_digit(16);
        let mut next = |limit| number(words.next()?, limit);
        match command {
            b"colour" => {
                let number = next(16)?;
                let word = words.next()?;
                if word.len() != 4 || word[0] != b'0' {
                    return None;
                }
                let value = word.iter().try_fold(0, |value, byte| Some(16 * value + hex(byte)? as u16))?;
                self.lines.push(Line::Colour { number, value });
            }
            b"border" => self.lines.push(Line::Border { colour: next(16)? as u8 }),
            b"fill" => self.lines.push(Line::Fill { colour: next(16)? as u8 }),
            b"rect" => {
                let (x, y, width, height, colour) = (next(288)?, next(192)?, next(289)?, next(193)?, next(16)?);
                if width == 0 || height == 0 || x + width > 288 || y + height > 192 {
                    return None;
                }
                let (x, y, width, height) = (x as u16, y as u8, width as u16, height as u8);
                self.lines.push(Line::Rect { x, y, width, height, colour: colour as u8 });
            }
            b"row" => {
                let (x, y, digits) = (next(288)?, next(192)?, words.next()?);
                if x + digits.len() > 288 {
                    return None;
                }
                let first = self.pixels.len();
                for digit in digits {
                    self.pixels.push(hex(digit)? as u8);
                }
                self.lines.push(Line::Row { x: x as u16, y: y as u8, first, count: digits.len() as u16 });
            }
            b"show" => {
                let (ready, hold) = (blocks_of(words.next()?)?, blocks_of(words.next()?)?);
                let after = self.shown.last().is_none_or(|before| before.hold < ready);
                if hold < ready || !after || self.shown.len() == 20_000 {
                    return None;
                }
                self.shown.push(Shown { place: self.lines.len(), ready, hold });
            }
            _ if command[0] == b'#' => return Some(()),
            _ => return None,
        }
        words.next().is_none().then_some(())
    }
}

const WIDTH: usize = 288;
const PIXELS: usize = 72;
type Tile = [u8; PIXELS];

/// A picture of a script.
#[derive(Clone)]
struct Canvas {
    pixels: Vec<u8>,
    border: u8,
    colours: [u16; 16],
    drawn: usize,
}

impl Canvas {
    fn new() -> Canvas {
        Canvas { pixels: vec![0; WIDTH * 192], border: 0, colours: [0; 16], drawn: 0 }
    }

    /// Draws the lines up to a place. Lines before the last one that fills the window draw no pixels.
    fn draw(&mut self, script: &Script, to: usize) {
        let lines = &script.lines[self.drawn..to];
        self.drawn = to;
        let last_fill = lines.iter().rposition(|line| matches!(line, Line::Fill { .. })).unwrap_or(0);
        for (i, line) in lines.iter().enumerate() {
            match *line {
                Line::Colour { number, value } => self.colours[number] = value,
                Line::Border { colour } => self.border = colour,
                _ if i < last_fill => {}
                Line::Fill { colour } => self.pixels.fill(colour),
                Line::Rect { x, y, width, height, colour } => {
                    let (x, y) = (usize::from(x), usize::from(y));
                    for row in self.pixels.chunks_mut(WIDTH).skip(y).take(height.into()) {
                        row[x..x + usize::from(width)].fill(colour);
                    }
                }
                Line::Row { x, y, first, count } => {
                    let (at, count) = (WIDTH * usize::from(y) + usize::from(x), usize::from(count));
                    self.pixels[at..at + count].copy_from_slice(&script.pixels[first..first + count]);
                }
            }
        }
    }

    fn line(&self, tile: usize, line: usize) -> &[u8] {
        let at = WIDTH * (12 * (tile / 48) + line) + 6 * (tile % 48);
        &self.pixels[at..at + 6]
    }

    fn tile(&self, tile: usize) -> Tile {
        let mut pixels = [0; PIXELS];
        for (j, line) in pixels.chunks_mut(6).enumerate() {
            line.copy_from_slice(self.line(tile, j));
        }
        pixels
    }

    /// The tiles that differ from those of another canvas.
    fn changed(&self, other: &Canvas) -> Vec<usize> {
        let band = 12 * WIDTH;
        (0..16)
            .filter(|row| self.pixels[band * row..band * (row + 1)] != other.pixels[band * row..band * (row + 1)])
            .flat_map(|row| 48 * row..48 * row + 48)
            .filter(|&tile| (0..12).any(|j| self.line(tile, j) != other.line(tile, j)))
            .collect()
    }
}

/// Independent differences from the first pixel, and for each difference the independent ones whose sum it is.
struct Basis {
    members: [u8; 4],
    count: usize,
    sums: [u8; 16],
}

impl Basis {
    fn of(pixels: &Tile) -> Basis {
        let mut basis = Basis { members: [0; 4], count: 0, sums: [255; 16] };
        basis.sums[0] = 0;
        let mut last = pixels[0];
        for &pixel in pixels {
            let number = pixel ^ pixels[0];
            if pixel == last || basis.sums[number as usize] != 255 {
                continue;
            }
            last = pixel;
            let before = basis.sums;
            for other in 0..16 {
                if before[other] != 255 {
                    basis.sums[other ^ number as usize] = before[other] | 1 << basis.count;
                }
            }
            basis.members[basis.count] = number;
            basis.count += 1;
            if basis.count == 4 {
                break;
            }
        }
        basis
    }

    fn weight(&self) -> usize {
        self.count.max(1)
    }

    /// The instructions that draw the pixels, or combine them with the old ones.
    fn packs(&self, pixels: &Tile, draws: bool, tile: usize, packs: &mut Vec<Word>) {
        for j in 0..self.weight() {
            let ground = if j == 0 { pixels[0] } else { 0 };
            let mut word = [0; WORD];
            word[0] = 9;
            word[1] = if draws && j == 0 { 6 } else { 38 };
            word[4] = ground;
            word[5] = ground ^ self.members[j];
            word[6] = (tile / 48 + 1) as u8;
            word[7] = (tile % 48 + 1) as u8;
            for (bits, line) in word[8..20].iter_mut().zip(pixels.chunks(6)) {
                *bits = line.iter().fold(0, |bits, &it| bits << 1 | self.sums[(it ^ pixels[0]) as usize] >> j & 1);
            }
            packs.push(word);
        }
    }
}

/// The shortest way to turn a tile into another one: the basis, its pixels, and whether they are drawn or combined.
fn shortest(old: &Tile, new: &Tile) -> (Basis, Tile, bool) {
    let drawn = Basis::of(new);
    if drawn.weight() > 1 {
        let changes = std::array::from_fn(|i| old[i] ^ new[i]);
        let combined = Basis::of(&changes);
        if combined.weight() < drawn.weight() {
            return (combined, changes, false);
        }
    }
    (drawn, *new, true)
}

fn instruction(number: u8, content: &[u8]) -> Word {
    let mut word = [0; WORD];
    word[0] = 9;
    word[1] = number;
    word[4..4 + content.len()].copy_from_slice(content);
    word
}

/// The cost of the tiles of a picture from one colour: their weight, unless they have this colour.
struct Weights(Vec<(u32, Option<u8>)>);

impl Weights {
    fn new() -> Weights {
        Weights(vec![(1, Some(0)); 768])
    }

    fn weigh(&mut self, tile: usize, pixels: &Tile) {
        let single = pixels.iter().all(|&pixel| pixel == pixels[0]).then_some(pixels[0]);
        self.0[tile] = (Basis::of(pixels).weight() as u32, single);
    }

    /// The first colour that needs the fewest instructions, and their number.
    fn best(&self) -> (u8, u32) {
        let (mut total, mut single) = (0, [0; 16]);
        for &(weight, colour) in &self.0 {
            total += weight;
            if let Some(colour) = colour {
                single[colour as usize] += weight;
            }
        }
        (0..16).map(|colour| (colour, total - single[colour as usize])).min_by_key(|it| it.1).unwrap()
    }
}

/// The packs that change a picture into the next one.
fn change(first: bool, before: &Canvas, now: &Canvas, weights: &mut Weights, parity: &Parity) -> Vec<Word> {
    let mut packs = Vec::new();
    let changed = now.changed(before);
    for &tile in &changed {
        weights.weigh(tile, &now.tile(tile));
    }
    for &tile in &changed {
        let (basis, pixels, draws) = shortest(&before.tile(tile), &now.tile(tile));
        basis.packs(&pixels, draws, tile, &mut packs);
    }
    let (colour, need) = weights.best();
    let preset = (first || (!changed.is_empty() && need + 1 < packs.len() as u32)).then_some(colour);
    if let Some(colour) = preset {
        packs.clear();
        for tile in 0..768 {
            let (old, new) = ([colour; PIXELS], now.tile(tile));
            if old != new {
                let (basis, pixels, draws) = shortest(&old, &new);
                basis.packs(&pixels, draws, tile, &mut packs);
            }
        }
    }
    let mut settings = Vec::new();
    if let Some(colour) = preset {
        settings.push(instruction(1, &[colour]));
    }
    if first || before.border != now.border {
        settings.push(instruction(2, &[now.border]));
    }
    for (number, from) in [(30, 0), (31, 8)] {
        let colours = &now.colours[from..from + 8];
        if first || before.colours[from..from + 8] != *colours {
            let content: Vec<u8> = colours.iter().flat_map(|it| [(it >> 6) as u8, (it & 63) as u8]).collect();
            settings.push(instruction(number, &content));
        }
    }
    settings.append(&mut packs);
    for word in &mut settings {
        parity.seal(word);
    }
    settings
}

/// The changes of a script, each with the pack at which it begins, or the first late picture.
fn changes_of(script: &Script) -> Result<Vec<(u32, Vec<Word>)>, usize> {
    let (mut before, mut now) = (Canvas::new(), Canvas::new());
    let (mut weights, parity, mut start, mut changes) = (Weights::new(), Parity::new(), 0, Vec::new());
    for (k, shown) in script.shown.iter().enumerate() {
        now.draw(script, shown.place);
        let packs = if k > 0 && now.drawn == before.drawn {
            Vec::new()
        } else {
            change(k == 0, &before, &now, &mut weights, &parity)
        };
        if start + packs.len() as u32 + 7 > 4 * shown.ready {
            return Err(k);
        }
        changes.push((start, packs));
        before.draw(script, shown.place);
        start = (4 * shown.hold).saturating_sub(7);
    }
    Ok(changes)
}

/// Writes the stream of changes.
fn write_changes(layout: &Layout, changes: &[(u32, Vec<Word>)], out: &mut impl Write) -> io::Result<()> {
    let mut left = changes;
    let pack = |n: u32| {
        while let [(start, packs), rest @ ..] = left {
            if n < start + packs.len() as u32 {
                return packs.get(n.checked_sub(*start)? as usize).copied();
            }
            left = rest;
        }
        None
    };
    write_stream(layout, pack, out)
}

fn refused(why: &str) -> ! {
    eprintln!("refused {why}");
    std::process::exit(3)
}

fn author(length: u32, sheet: &[u8], script: &[u8], out: &mut Output) -> io::Result<()> {
    let Some(layout) = Layout::of(sheet, length) else { refused("cue") };
    let script = Script::parse(script).unwrap_or_else(|line| refused(&format!("script {line}")));
    if script.shown.last().is_some_and(|last| last.hold > layout.blocks) {
        refused("past-end");
    }
    let changes = changes_of(&script).unwrap_or_else(|picture| refused(&format!("late {picture}")));
    write_changes(&layout, &changes, out)
}

fn press(length: u32, sheet: &[u8], file: &[u8], out: &mut Output) -> io::Result<()> {
    const PAUSE_PACKS: u32 = 593;
    let Some(layout) = Layout::of(sheet, length) else { refused("cue") };
    let parity = Parity::new();
    if file.len() % WORD != 0 || file.len() / WORD > 4 * length as usize {
        refused("cdg");
    }
    let pack = |n: u32| {
        let at = WORD * n.checked_sub(PAUSE_PACKS)? as usize;
        let mut word: Word = file.get(at..at + WORD)?.try_into().unwrap();
        for symbol in &mut word {
            *symbol &= 63;
        }
        (word[..2] != [0; 2] || word[4..20] != [0; 16]).then(|| {
            parity.seal(&mut word);
            word
        })
    };
    write_stream(&layout, pack, out)
}

/// The script of a seed.
fn generated(seed: u64, pictures: u32) -> Vec<u8> {
    let (mut random, mut text) = (Random::new(seed), Vec::new());
    for k in 0..16 {
        writeln!(text, "colour {k} 0{k:x}{k:x}{k:x}").unwrap();
    }
    let time = |block: u32| format!("{:02}:{:02}:{:02}", block / 4500, block / 75 % 60, block % 75);
    for k in 0..pictures {
        for _ in 0..3 {
            let (a, b) = (random.next(), random.next());
            let (x, y) = ((a & 0xFFFF) % 288, (a >> 16) % 192);
            let (width, height) = (1 + (b & 0xFFFF) % (288 - x), 1 + (b >> 16) % (192 - y));
            writeln!(text, "rect {x} {y} {width} {height} {}", b / 256 % 16).unwrap();
        }
        let ready = 800 * (k + 1);
        writeln!(text, "show {} {}", time(ready), time(ready + 20)).unwrap();
    }
    text
}

/// Whether a screen shows a picture.
fn agrees(screen: &Screen, canvas: &Canvas) -> bool {
    let row = |y: usize| {
        (0..300).all(|x| {
            let inside = (6..=293).contains(&x) && (12..=203).contains(&y);
            screen.shown(x, y) == if inside { canvas.pixels[WIDTH * (y - 12) + x - 6] } else { canvas.border }
        })
    };
    screen.border == canvas.border && screen.colours == canvas.colours && (0..216).all(row)
}

fn trial(seed: u64, pictures: u32, out: &mut Output) -> io::Result<()> {
    let script = Script::parse(&generated(seed, pictures)).unwrap();
    let layout = Layout::of(b"TRACK 01 AUDIO\nINDEX 01 00:00:00", 800 * pictures + 20).unwrap();
    let changes = changes_of(&script).unwrap();
    let mut stream = Vec::with_capacity(BLOCK * layout.blocks as usize);
    write_changes(&layout, &changes, &mut stream)?;
    Needle::new(seed).scratch(&mut stream);
    let (mut screen, mut canvas, mut shown) = (Screen::new(), Canvas::new(), script.shown.iter().peekable());
    let (mut wrong, mut equal, mut slots) = ([0; 4], 0, 7);
    for_each_word(&mut stream.as_slice(), |word, corrected| {
        wrong[corrected.unwrap_or(3)] += 1;
        screen.execute(word);
        slots += 1;
        if let Some(next) = shown.next_if(|next| 4 * next.ready == slots) {
            canvas.draw(&script, next.place);
            equal += u32::from(agrees(&screen, &canvas));
        }
        Ok(())
    })?;
    let needed: usize = changes.iter().map(|change| change.1.len()).sum();
    let packs = 4 * layout.blocks - 7;
    writeln!(out, "seed {seed}\npictures {pictures}\nblocks {}\npacks {packs}", layout.blocks)?;
    writeln!(out, "changes {needed}\none {}\ntwo {}\nbad {}\nequal {equal}", wrong[1], wrong[2], wrong[3])
}

fn main() -> io::Result<()> {
    let words: Vec<String> = std::env::args().skip(1).collect();
    let input = &mut BufReader::with_capacity(65_536, io::stdin());
    let stdout = File::from(io::stdout().as_fd().try_clone_to_owned()?);
    let out = &mut BufWriter::with_capacity(65_536, stdout);
    let time = || blocks_of(words[1].as_bytes()).unwrap();
    match words[0].as_str() {
        "convert" => convert(input, out)?,
        "check" => check(input, out)?,
        "screen" => screen_at(input, time() as usize)?.write(out)?,
        "state" => state(&screen_at(input, time() as usize)?, out)?,
        "text" => text(input, out, words[1].parse().unwrap())?,
        "thin" => thin(input, out)?,
        "author" => author(time(), &fs::read(&words[3])?, &fs::read(&words[4])?, out)?,
        "press" => press(time(), &fs::read(&words[3])?, &fs::read(&words[4])?, out)?,
        "merge" => merge(&words[2], &words[3], out)?,
        "save" => save(input, out)?,
        "resume" => resume(time(), &fs::read(&words[3])?, &words[4], out)?,
        "trial" => trial(words[1].parse().unwrap(), words[2].parse().unwrap(), out)?,
        "q" => q(input, out)?,
        "planar" => planar(input, out)?,
        "raw" => raw(input, out)?,
        "scratch" => scratch(input, out, words[1].parse().unwrap())?,
        _ => std::process::exit(2),
    }
    out.flush()
}
