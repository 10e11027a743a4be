// What the library should answer, worked out independently: written from documents 01 and 02 alone, in plain Rust, with no code of the library. The test
// programs share it.

#[derive(Clone, Copy, PartialEq)]
pub struct Square {
    pub x: i64,
    pub y: i64,
}

#[derive(Clone, Copy, PartialEq)]
pub struct Direction {
    pub x: i64,
    pub y: i64,
}

impl Direction {
    fn against(self) -> Direction {
        Direction { x: -self.x, y: -self.y }
    }
}

fn moved(s: Square, d: Direction, n: i64) -> Square {
    Square { x: s.x + d.x * n, y: s.y + d.y * n }
}

#[derive(Clone, Copy, PartialEq)]
pub struct Block {
    pub start: Square,
    pub run: Direction,
    pub a: i64,
    pub side: Direction,
    pub b: i64,
}

pub fn whole(w: i64, h: i64) -> Block {
    Block { start: Square { x: 0, y: 0 }, run: Direction { x: 1, y: 0 }, a: w, side: Direction { x: 0, y: 1 }, b: h }
}

pub fn even_half(length: i64) -> i64 {
    let half = length / 2;
    if length > 2 && half % 2 == 1 { half + 1 } else { half }
}

// The parts of a block in order: none where it is straight.
pub fn parts(k: Block) -> Vec<Block> {
    if k.b == 1 || k.a == 1 {
        return vec![];
    }
    if 2 * k.a > 3 * k.b {
        let e = even_half(k.a);
        return vec![Block { a: e, ..k }, Block { start: moved(k.start, k.run, e), a: k.a - e, ..k }];
    }
    let e = even_half(k.b);
    let m = k.a / 2;
    let corner = moved(moved(k.start, k.run, k.a - 1), k.side, e - 1);
    vec![
        Block { start: k.start, run: k.side, a: e, side: k.run, b: m },
        Block { start: moved(k.start, k.side, e), b: k.b - e, ..k },
        Block { start: corner, run: k.side.against(), a: e, side: k.run.against(), b: k.a - m },
    ]
}

// The n-th square of a straight block.
pub fn straight(k: Block, n: i64) -> Square {
    if k.b == 1 { moved(k.start, k.run, n) } else { moved(k.start, k.side, n) }
}

// Visits the squares of a block in the order of their numbers.
fn along(k: Block, visit: &mut impl FnMut(Square)) {
    let inner = parts(k);
    if inner.is_empty() {
        (0..k.a * k.b).for_each(|n| visit(straight(k, n)));
    }
    for part in inner {
        along(part, visit);
    }
}

fn curve(k: Block) -> Vec<Square> {
    let mut squares = vec![];
    along(k, &mut |s| squares.push(s));
    squares
}

fn blocks(k: Block) -> Vec<Block> {
    let mut all = vec![k];
    all.extend(parts(k).into_iter().flat_map(blocks));
    all
}

// How many blocks the division has.
fn block_count(k: Block) -> i64 {
    1 + parts(k).into_iter().map(block_count).sum::<i64>()
}

// The most blocks that hold one and the same square.
fn deepest(k: Block) -> i64 {
    1 + parts(k).into_iter().map(deepest).max().unwrap_or(0)
}

fn holds(k: Block, s: Square) -> bool {
    let far = moved(moved(k.start, k.run, k.a - 1), k.side, k.b - 1);
    let within = |c: i64, one: i64, other: i64| one.min(other) <= c && c <= one.max(other);
    within(s.x, k.start.x, far.x) && within(s.y, k.start.y, far.y)
}

// The square of a number, the number of a square, and how many blocks hold them, by going down into one part: for areas too large to list.
fn square_of(k: Block, n: i64) -> (Square, i64) {
    let inner = parts(k);
    if inner.is_empty() {
        return (straight(k, n), 1);
    }
    let mut rest = n;
    for part in inner {
        if rest < part.a * part.b {
            let (s, count) = square_of(part, rest);
            return (s, count + 1);
        }
        rest -= part.a * part.b;
    }
    panic!("no part has the number {n}")
}

fn number_of(k: Block, s: Square) -> (i64, i64) {
    let inner = parts(k);
    if inner.is_empty() {
        return ((s.x - k.start.x).abs() + (s.y - k.start.y).abs(), 1);
    }
    let mut before = 0;
    for part in inner {
        if holds(part, s) {
            let (n, count) = number_of(part, s);
            return (before + n, count + 1);
        }
        before += part.a * part.b;
    }
    panic!("no part holds the square")
}

// A block on the way down to a number: its start, its first number and how many squares it has; and whether it is the last part of the block before it
// and as long each way as the first part, which begins where that block does.
pub struct Step {
    pub start: Square,
    pub first: i64,
    pub squares: i64,
    pub again: bool,
}

// The blocks that hold a number's square, from the whole area down.
pub fn way_down(w: i64, h: i64, number: i64) -> Vec<Step> {
    let mut steps = vec![];
    let (mut k, mut first, mut again) = (whole(w, h), 0, false);
    loop {
        steps.push(Step { start: k.start, first, squares: k.a * k.b, again });
        let inner = parts(k);
        let mut left = inner.as_slice();
        while left.len() > 1 && number >= first + left[0].a * left[0].b {
            first += left[0].a * left[0].b;
            left = &left[1..];
        }
        let Some(part) = left.first() else { return steps };
        again = left.len() == 1 && (part.a, part.b) == (inner[0].a, inner[0].b);
        k = *part;
    }
}

// The squares of an area in the order of their numbers, each with how many of all blocks hold it.
pub fn traversal(w: i64, h: i64) -> Vec<(Square, i64)> {
    let all = blocks(whole(w, h));
    let count = |s: Square| all.iter().filter(|k| holds(**k, s)).count() as i64;
    curve(whole(w, h)).into_iter().map(|s| (s, count(s))).collect()
}

// An area with its origin on the site's grid: document 02, order 6.
#[derive(Clone, Copy, Debug, PartialEq)]
pub struct Area {
    pub w: i64,
    pub h: i64,
    pub ox: i64,
    pub oy: i64,
}

impl Area {
    // An area whose squares count from (0, 0).
    pub fn new(w: i64, h: i64) -> Area {
        Area { w, h, ox: 0, oy: 0 }
    }

    // The square of the site for one that counts from (0, 0), origin plus the old square; and back.
    fn on_site(self, s: Square) -> Square {
        Square { x: self.ox + s.x, y: self.oy + s.y }
    }

    fn from_site(self, s: Square) -> Square {
        Square { x: s.x - self.ox, y: s.y - self.oy }
    }

    // Whether a square of the site is one of the area.
    fn has(self, s: Square) -> bool {
        let old = self.from_site(s);
        (0..self.w).contains(&old.x) && (0..self.h).contains(&old.y)
    }

    // The area as a block; blocks count from (0, 0) whatever the origin is.
    fn whole(self) -> Block {
        whole(self.w, self.h)
    }
}

// An answer: the refusal's number, or the values.
pub type Answer = Result<Vec<i64>, i64>;

// Why every call refuses an area, if it does: 1, and directly after it 13 for more than 16,777,216 squares, document 02, order 7.
pub fn accepted(w: i64, h: i64) -> Result<(), i64> {
    let in_range = |side: i64| (1..=65535).contains(&side);
    match () {
        _ if !in_range(w) || !in_range(h) => Err(1),
        _ if w * h > 16_777_216 => Err(13),
        _ => Ok(()),
    }
}

// Why a call that asks or answers squares is refused for its area, if it is: as every call, then 12.
pub fn granted(area: Area) -> Result<(), i64> {
    let in_range = |c: i64| (-1_000_000..=1_000_000).contains(&c);
    accepted(area.w, area.h)?;
    if in_range(area.ox) && in_range(area.oy) { Ok(()) } else { Err(12) }
}

pub fn number_to_square(area: Area, number: i64) -> Answer {
    granted(area)?;
    if number >= area.w * area.h {
        return Err(3);
    }
    let (s, count) = square_of(area.whole(), number);
    let s = area.on_site(s);
    if count > 64 { Err(9) } else { Ok(vec![s.x, s.y, count]) }
}

pub fn square_to_number(area: Area, x: i64, y: i64) -> Answer {
    granted(area)?;
    let s = Square { x, y };
    if !area.has(s) {
        return Err(2);
    }
    let (n, count) = number_of(area.whole(), area.from_site(s));
    if count > 64 { Err(9) } else { Ok(vec![n, count]) }
}

// The square of number w·h - 1.
pub fn finish_square(area: Area) -> Answer {
    granted(area)?;
    let (s, _) = square_of(area.whole(), area.w * area.h - 1);
    let s = area.on_site(s);
    Ok(vec![s.x, s.y])
}

// A window by its corners, which are squares of the site.
#[derive(Clone, Copy, Debug)]
pub struct Window {
    pub x0: i64,
    pub y0: i64,
    pub x1: i64,
    pub y1: i64,
}

impl Window {
    fn has(self, s: Square) -> bool {
        self.x0 <= s.x && s.x <= self.x1 && self.y0 <= s.y && s.y <= self.y1
    }

    // The window as an area's blocks have it, whose squares count from (0, 0).
    fn within(self, area: Area) -> Window {
        let from = area.from_site(Square { x: self.x0, y: self.y0 });
        let to = area.from_site(Square { x: self.x1, y: self.y1 });
        Window { x0: from.x, y0: from.y, x1: to.x, y1: to.y }
    }

    // Whether a square of the block lies in the window.
    fn meets(self, k: Block) -> bool {
        let far = moved(moved(k.start, k.run, k.a - 1), k.side, k.b - 1);
        let overlap = |from: i64, to: i64, one: i64, other: i64| from <= one.max(other) && one.min(other) <= to;
        overlap(self.x0, self.x1, k.start.x, far.x) && overlap(self.y0, self.y1, k.start.y, far.y)
    }
}

// The most blocks that hold one and the same square of a window.
fn deepest_in(k: Block, window: Window) -> i64 {
    if window.meets(k) { 1 + parts(k).into_iter().map(|part| deepest_in(part, window)).max().unwrap_or(0) } else { 0 }
}

// Document 02, order 2. The runs of ascending numbers: a number that follows the one before it is of the same run.
fn runs_of(numbers: impl Iterator<Item = i64>) -> Vec<(i64, i64)> {
    let mut runs: Vec<(i64, i64)> = vec![];
    for n in numbers {
        match runs.last_mut() {
            Some(run) if run.1 + 1 == n => run.1 = n,
            _ => runs.push((n, n)),
        }
    }
    runs
}

// The runs of a window by brute force, over all squares of a small area in the order of their numbers.
pub fn runs_by_squares(area: Area, window: Window) -> Vec<(i64, i64)> {
    runs_of(curve(area.whole()).into_iter().enumerate().filter(|(_, s)| window.has(area.on_site(*s))).map(|(n, _)| n as i64))
}

// The same where the area is too large to list: the numbers of the window's squares, sorted.
pub fn runs_by_numbers(area: Area, window: Window) -> Vec<(i64, i64)> {
    let mut numbers: Vec<i64> = vec![];
    for y in window.y0..=window.y1 {
        numbers.extend((window.x0..=window.x1).map(|x| number_of(area.whole(), area.from_site(Square { x, y })).0));
    }
    numbers.sort_unstable();
    runs_of(numbers.into_iter())
}

// What the call for a window answers, given its runs: the refusal's number, and how many runs it tells of; and the runs that are written.
pub fn window_answer(area: Area, window: Window, places: usize, runs: impl Fn() -> Vec<(i64, i64)>) -> (i64, i64, Vec<(i64, i64)>) {
    if let Err(refusal) = granted(area) {
        return (refusal, 0, vec![]);
    }
    if window.x0 > window.x1 || window.y0 > window.y1 {
        return (10, 0, vec![]);
    }
    if !area.has(Square { x: window.x0, y: window.y0 }) || !area.has(Square { x: window.x1, y: window.y1 }) {
        return (2, 0, vec![]);
    }
    let runs = runs();
    if runs.len() > places / 2 {
        return (11, runs.len() as i64, vec![]);
    }
    if deepest_in(area.whole(), window.within(area)) > 64 {
        return (9, 0, vec![]);
    }
    (0, runs.len() as i64, runs)
}

// Document 02, order 5: how many steps of an area go to a square that touches only at a corner. All others share a side.
pub fn corner_steps(w: i64, h: i64) -> i64 {
    let excepted = w % 2 == 1 && w >= 3 && h % 2 == 0 && h >= 4;
    excepted as i64
}

// A table of either kind as it is due.
pub fn table_due(w: i64, h: i64, by_square: bool) -> Vec<u32> {
    let mut table = vec![0; (w * h) as usize];
    let mut number = 0;
    along(whole(w, h), &mut |s| {
        let place = (s.y * w + s.x) as usize;
        if by_square { table[place] = number as u32 } else { table[number] = place as u32 }
        number += 1;
    });
    table
}

// Why a call on a table of this length is refused, if it is.
fn table_granted(w: i64, h: i64, length: usize) -> Result<(), i64> {
    accepted(w, h)?;
    match () {
        _ if length as i64 != w * h => Err(4),
        _ if deepest(whole(w, h)) > 64 => Err(9),
        _ => Ok(()),
    }
}

// A fill's answer: how many blocks the division has.
pub fn fill(w: i64, h: i64, length: usize) -> Answer {
    table_granted(w, h, length)?;
    Ok(vec![block_count(whole(w, h))])
}

// A check's answer: 0, or 1 with the first wrong place and the value due there.
pub fn check(w: i64, h: i64, by_square: bool, table: &[u32]) -> Answer {
    table_granted(w, h, table.len())?;
    let due = table_due(w, h, by_square);
    match (0..due.len()).find(|&i| table[i] != due[i]) {
        None => Ok(vec![0, 0, 0]),
        Some(i) => Ok(vec![1, i as i64, due[i] as i64]),
    }
}

// Document 02, order 8: a card is a file of blocks. A block is 128 words: 126 of content, the count of those in use, and the check.
const CONTENT: usize = 126;
pub const BLOCK_WORDS: usize = 128;
pub const BLOCK_BYTES: usize = 4 * BLOCK_WORDS;

// "1 plus the sum of the other 127 words, modulo 2 to the 32nd".
pub fn check_of(others: &[u32]) -> u32 {
    let sum: u64 = others.iter().map(|&word| word as u64).sum();
    ((1 + sum) % (1 << 32)) as u32
}

// A block that uses these words.
fn sealed(content: &[u32]) -> Vec<u32> {
    assert!(content.len() <= CONTENT, "a block has room for {CONTENT} words");
    let mut words = content.to_vec();
    words.resize(CONTENT, 0);
    words.push(content.len() as u32);
    words.push(check_of(&words));
    words
}

// The words of a card whose block 0 uses these, and whose table is this: each block full but perhaps the last, none empty.
pub fn card_words(head: &[u32], table: &[u32]) -> Vec<u32> {
    [head].into_iter().chain(table.chunks(CONTENT)).flat_map(sealed).collect()
}

pub fn little_endian(words: &[u32]) -> Vec<u8> {
    words.iter().flat_map(|word| word.to_le_bytes()).collect()
}

// The card of an area and a kind, 1 by number or 2 by square.
pub fn card(w: i64, h: i64, kind: i64) -> Vec<u8> {
    little_endian(&card_words(&[1, w as u32, h as u32, kind as u32], &table_due(w, h, kind == 2)))
}

// How many bytes the layout has: block 0, and as many blocks as hold a word for each square.
pub fn card_length(w: i64, h: i64) -> Answer {
    accepted(w, h)?;
    let full = w * h / CONTENT as i64;
    let begun = (w * h % CONTENT as i64 != 0) as i64;
    Ok(vec![(1 + full + begun) * BLOCK_BYTES as i64])
}

// The words that a block has in use, or none where it departs from the layout: a count beyond its content, or an unused word that is not zero.
fn words_in_use(block: &[u32]) -> Option<&[u32]> {
    let (used, unused) = block[..CONTENT].split_at_checked(block[CONTENT] as usize)?;
    unused.iter().all(|&word| word == 0).then_some(used)
}

// The table that a file holds if it keeps to the layout and is of this area and kind.
fn table_held(w: i64, h: i64, kind: i64, whole: &[Vec<u32>], rest: usize) -> Option<Vec<u32>> {
    let blocks: Vec<&[u32]> = whole.iter().map(|block| words_in_use(block)).collect::<Option<_>>()?;
    let (head, tables) = blocks.split_first()?;
    let told = [1, w, h, kind].map(|word| word as u32);
    let (last, before) = tables.split_last()?;
    let packed = before.iter().all(|used| used.len() == CONTENT) && !last.is_empty();
    (rest == 0 && **head == told && packed).then(|| tables.concat())
}

// Whether a kind is one of the two, and the table is right for it.
fn right_table(w: i64, h: i64, kind: i64, table: &[u32]) -> bool {
    matches!(kind, 1 | 2) && table == table_due(w, h, kind == 2)
}

// Why the writer is refused, if it is; else it writes the card.
pub fn write_card(w: i64, h: i64, kind: i64, table: &[u32], file_length: usize) -> Result<(), i64> {
    accepted(w, h)?;
    if table.len() as i64 != w * h || card_length(w, h) != Ok(vec![file_length as i64]) {
        return Err(4);
    }
    table_granted(w, h, table.len())?;
    if right_table(w, h, kind, table) { Ok(()) } else { Err(15) }
}

// Why the reader is refused, if it is, with the index of the first whole block whose check is bad, or 0; else it gives the table of this area and kind.
pub fn read_card(w: i64, h: i64, kind: i64, file: &[u8], places: usize) -> Result<(), (i64, i64)> {
    table_granted(w, h, places).map_err(|refusal| (refusal, 0))?;
    let word = |bytes: &[u8]| u32::from_le_bytes(bytes.try_into().expect("four bytes"));
    let whole: Vec<Vec<u32>> = file.chunks_exact(BLOCK_BYTES).map(|block| block.chunks(4).map(word).collect()).collect();
    if let Some(bad) = whole.iter().position(|block| block[BLOCK_WORDS - 1] != check_of(&block[..BLOCK_WORDS - 1])) {
        return Err((14, bad as i64));
    }
    match table_held(w, h, kind, &whole, file.len() % BLOCK_BYTES) {
        Some(table) if right_table(w, h, kind, &table) => Ok(()),
        _ => Err((15, 0)),
    }
}

// A field as a number: 1 to 10 digits, no 0 before others unless the field has exactly ten digits, at most 4,294,967,295.
fn number(field: &[u8]) -> Option<i64> {
    let text = std::str::from_utf8(field).ok()?;
    let digits = (1..=10).contains(&text.len()) && text.chars().all(|c| c.is_ascii_digit());
    let zeros_allowed = text.len() == 1 || text.len() == 10;
    let value: i64 = if digits && (zeros_allowed || !text.starts_with('0')) { text.parse().ok()? } else { return None };
    (value <= 4294967295).then_some(value)
}

// A field of an ORIGIN or an S line: a minus may stand before the digits. There -0, padded or not, and a magnitude over 2,147,483,647 are no numbers.
fn signed(field: &[u8]) -> Option<i64> {
    let magnitude = number(field.strip_prefix(b"-").unwrap_or(field)).filter(|&m| m <= 2147483647)?;
    match (field[0], magnitude) {
        (b'-', 0) => None,
        (b'-', _) => Some(-magnitude),
        _ => Some(magnitude),
    }
}

// What a line is answered.
pub enum Reply {
    Area { w: i64, h: i64, squares: i64, x: i64, y: i64 },
    Origin { ox: i64, oy: i64 },
    Cell { x: i64, y: i64, blocks: i64 },
    Number { number: i64, blocks: i64 },
    Refused(i64),
}

// What a line asks: its word, and the numbers of its fields.
fn read(line: &[u8]) -> Result<(&[u8], Vec<i64>), i64> {
    let fields: Vec<&[u8]> = line.split(|&b| b == b' ').collect();
    let shaped = matches!((fields[0], fields.len()), (b"AREA" | b"ORIGIN" | b"S", 3) | (b"N", 2)) && fields.iter().all(|f| !f.is_empty());
    let minus_allowed = matches!(fields[0], b"ORIGIN" | b"S");
    let numbers: Option<Vec<i64>> = fields[1..].iter().map(|f| if minus_allowed { signed(f) } else { number(f) }).collect();
    match (line.len() > 64, shaped, numbers) {
        (true, ..) => Err(8),
        (_, false, _) => Err(6),
        (_, _, None) => Err(5),
        (_, _, Some(n)) => Ok((fields[0], n)),
    }
}

// The reply to a line under an area and the area in force after it, or the refusal's number.
fn accepted_line(line: &[u8], area: Option<Area>) -> Result<(Reply, Option<Area>), i64> {
    let (word, n) = read(line)?;
    if word == b"AREA" {
        let set = Area::new(n[0], n[1]);
        let s = finish_square(set)?;
        return Ok((Reply::Area { w: set.w, h: set.h, squares: set.w * set.h, x: s[0], y: s[1] }, Some(set)));
    }
    let area = area.ok_or(7)?;
    match word {
        b"N" => number_to_square(area, n[0]).map(|v| (Reply::Cell { x: v[0], y: v[1], blocks: v[2] }, Some(area))),
        b"S" => square_to_number(area, n[0], n[1]).map(|v| (Reply::Number { number: v[0], blocks: v[1] }, Some(area))),
        _ => {
            let set = Area { ox: n[0], oy: n[1], ..area };
            granted(set).map(|()| (Reply::Origin { ox: set.ox, oy: set.oy }, Some(set)))
        }
    }
}

// The reply to a line under an area, and the area in force after it.
pub fn answered(line: &[u8], area: Option<Area>) -> (Reply, Option<Area>) {
    let clears = line.starts_with(b"AREA") || line.starts_with(b"ORIGIN");
    accepted_line(line, area).unwrap_or_else(|refusal| (Reply::Refused(refusal), if clears { None } else { area }))
}
