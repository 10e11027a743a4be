// Area files through the C boundary, as the test programs lend and compare them: each call is held to the independent program, and to what it may write. A
// refusal writes nothing, the writer never its table, the reader never its file, and neither anything around them.
use crate::expected::UNTOUCHED;
use crate::independent::{self, card_words, little_endian, table_due};
use crate::random::{near, sides, sides_at_limit, Random};
use crate::raw;
use std::sync::atomic::{AtomicUsize, Ordering::Relaxed};

pub const BY_NUMBER: u32 = 1;
pub const BY_SQUARE: u32 = 2;
pub const KINDS: [u32; 2] = [BY_NUMBER, BY_SQUARE];

// What a byte of a file holds before the writer.
pub const OLD: u8 = 0xA7;

// An area and a kind, as a writer or a reader is told them, or as a card has them.
#[derive(Clone, Copy, Debug)]
pub struct Card {
    pub w: u32,
    pub h: u32,
    pub kind: u32,
}

impl Card {
    pub fn table(self) -> Vec<u32> {
        table_due(self.w.into(), self.h.into(), self.kind == BY_SQUARE)
    }

    pub fn head(self) -> [u32; 4] {
        [1, self.w, self.h, self.kind]
    }

    // The words and the bytes of the card; of a kind that there is not, with the table by number.
    pub fn words(self) -> Vec<u32> {
        card_words(&self.head(), &self.table())
    }

    pub fn file(self) -> Vec<u8> {
        little_endian(&self.words())
    }

    pub fn squares(self) -> usize {
        self.w as usize * self.h as usize
    }

    pub fn other_kind(self) -> Card {
        Card { kind: 3 - self.kind, ..self }
    }

    pub fn turned(self) -> Card {
        Card { w: self.h, h: self.w, ..self }
    }
}

// Both kinds of an area's card.
pub fn of_area(w: u32, h: u32) -> [Card; 2] {
    KINDS.map(|kind| Card { w, h, kind })
}

// What is lent, with some more around it that no call may touch. Where it begins goes round, so that a file begins at an address of every remainder.
struct Lent<T> {
    room: Vec<T>,
    start: usize,
    around: T,
}

const AROUND: usize = 16;

impl<T: Copy + PartialEq> Lent<T> {
    fn of(values: &[T], around: T) -> Lent<T> {
        static TURN: AtomicUsize = AtomicUsize::new(0);
        let start = AROUND - TURN.fetch_add(1, Relaxed) % 8;
        let mut room = vec![around; start];
        room.extend_from_slice(values);
        room.extend([around; AROUND]);
        Lent { room, start, around }
    }

    fn pointer(&mut self) -> *mut T {
        self.room[self.start..].as_mut_ptr()
    }

    fn length(&self) -> usize {
        self.room.len() - self.start - AROUND
    }

    // What was lent as it is now.
    #[track_caller]
    fn left(&self, asked: &str) -> &[T] {
        let (before, rest) = self.room.split_at(self.start);
        let (lent, behind) = rest.split_at(self.length());
        assert!(before.iter().chain(behind).all(|value| *value == self.around), "what lies around was touched: {asked}");
        lent
    }
}

// What the writer returned; the file is as it left it. The table is lent as one that could be altered, and may not be.
// SAFETY, here and below: each slice is passed with its own length, and no two of them overlap.
#[track_caller]
pub fn write(told: Card, table: &[u32], file: &mut Vec<u8>) -> u32 {
    let asked = format!("a writer told {told:?}, {} places, a file of {} bytes", table.len(), file.len());
    let (mut lent, mut target) = (Lent::of(table, UNTOUCHED), Lent::of(file, OLD));
    let (places, bytes) = (lent.length(), target.length());
    let returned = unsafe { raw::uvalinda_write_card(told.w, told.h, told.kind, lent.pointer(), places, target.pointer(), bytes) };
    assert!(lent.left(&asked) == table, "the table was altered: {asked}");
    *file = target.left(&asked).to_vec();
    returned
}

// What the reader returned and told; the table is as it left it. The file is lent as one that could be altered, and may not be.
#[track_caller]
pub fn read(told: Card, file: &[u8], table: &mut Vec<u32>) -> (u32, u64) {
    let asked = format!("a reader told {told:?}, a file of {} bytes, {} places", file.len(), table.len());
    let (mut lent, mut target, mut block) = (Lent::of(file, OLD), Lent::of(table, UNTOUCHED), Lent::of(&[7], 7));
    let (bytes, places) = (lent.length(), target.length());
    let returned =
        unsafe { raw::uvalinda_read_card(told.w, told.h, told.kind, lent.pointer(), bytes, target.pointer(), places, block.pointer(), 1) };
    assert!(lent.left(&asked) == file, "the file was altered: {asked}");
    *table = target.left(&asked).to_vec();
    (returned, block.left(&asked)[0])
}

// A writer told this, with a table and a file of so many bytes, does what is due. Returns the refusal, 0 where it wrote.
#[track_caller]
pub fn writes(told: Card, table: &[u32], bytes: usize) -> u32 {
    let due = independent::write_card(told.w.into(), told.h.into(), told.kind.into(), table, bytes);
    let mut file = vec![OLD; bytes];
    let after = if due.is_ok() { told.file() } else { file.clone() };
    let returned = write(told, table, &mut file);
    assert_eq!(returned, due.err().unwrap_or(0) as u32, "a writer told {told:?}, {bytes} bytes, the table {table:?}");
    assert!(file == after, "the file after a writer told {told:?}, {bytes} bytes, which returned {returned}");
    returned
}

// A reader told this, with a file and a table of so many places, does what is due. Returns the refusal and the index of the block.
#[track_caller]
pub fn reads(told: Card, file: &[u8], places: usize) -> (u32, u64) {
    let due = independent::read_card(told.w.into(), told.h.into(), told.kind.into(), file, places);
    let mut table = vec![UNTOUCHED; places];
    let after = if due.is_ok() { told.table() } else { table.clone() };
    let found = read(told, file, &mut table);
    let due = due.err().map_or((0, 0), |(refusal, block)| (refusal as u32, block as u64));
    assert_eq!(found, due, "a reader told {told:?}, {places} places, a file of {} bytes that begins {:?}", file.len(), &file[..file.len().min(80)]);
    assert!(table == after, "the table after a reader told {told:?}, which told {found:?}");
    found
}

// The sides of an accepted area, of one at the limit of squares, or any numbers.
pub fn random_area(random: &mut Random) -> (u32, u32) {
    match random.below(3) {
        0 => sides_at_limit(random),
        1 => sides(random, 65_535),
        _ => (near(random, 65_536), near(random, 65_536)),
    }
}
