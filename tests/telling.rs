// telling: every case of the division's three tables, the worked cases, the telling ones and the single cuts, is as the independent program has it, and so is
// every worked card. They are read as text, and what is not understood there is an error.
#[allow(dead_code)] // lookups, checks and order lines are not needed here
mod independent;

use independent::{Block, Direction, Square};
use std::fs;

// The words of some lines, without comments, and each bracket a word of its own.
fn words<'a>(lines: impl Iterator<Item = &'a str>) -> Vec<String> {
    let cases: Vec<&str> = lines.filter(|line| !line.trim_start().starts_with("--")).collect();
    cases.join(" ").replace('(', " ( ").replace(')', " ) ").split_whitespace().map(String::from).collect()
}

// The words of a table: what follows `NAME =` down to an empty line.
fn words_of_table(path: &str, name: &str) -> Vec<String> {
    let text = fs::read_to_string(path).expect("the table can be read");
    let head = format!("{name} =");
    words(text.lines().skip_while(|line| *line != head).skip(1).take_while(|line| !line.is_empty()))
}

// What is still to be read of a table.
struct Reader<'a> {
    path: &'a str,
    left: &'a [String],
}

impl<'a> Reader<'a> {
    fn at(&self, word: &str) -> bool {
        self.left.first().is_some_and(|next| next == word)
    }

    fn word(&mut self) -> &'a str {
        let (first, rest) = self.left.split_first().unwrap_or_else(|| panic!("{}: the table breaks off", self.path));
        self.left = rest;
        first
    }

    fn expect(&mut self, due: &str) {
        let found = self.word();
        assert!(found == due, "{}: '{found}' and not '{due}'", self.path);
    }

    fn number(&mut self) -> i64 {
        let found = self.word();
        found.parse().unwrap_or_else(|_| panic!("{}: '{found}' is no number", self.path))
    }

    fn pair(&mut self) -> (i64, i64) {
        (self.number(), self.number())
    }

    // A list, member by member.
    fn list<T>(&mut self, read: impl Fn(&mut Self) -> T) -> Vec<T> {
        let mut all = vec![];
        while !self.at("[]") {
            all.push(read(self));
            self.expect("∷");
        }
        self.expect("[]");
        all
    }

    fn square(&mut self) -> (i64, i64) {
        self.expect("square");
        self.pair()
    }

    fn direction(&mut self) -> Direction {
        match self.word() {
            "+x" => Direction { x: 1, y: 0 },
            "+y" => Direction { x: 0, y: 1 },
            "-x" => Direction { x: -1, y: 0 },
            "-y" => Direction { x: 0, y: -1 },
            found => panic!("{}: '{found}' is no direction", self.path),
        }
    }

    // A block by its start, its run and its side, or the whole of an area.
    fn block(&mut self) -> Block {
        match self.word() {
            "block" => {
                let (x, y) = self.pair();
                Block { start: Square { x, y }, run: self.direction(), a: self.number(), side: self.direction(), b: self.number() }
            }
            "whole" => independent::whole(self.number(), self.number()),
            found => panic!("{}: '{found}' is no block", self.path),
        }
    }

    fn bracketed<T>(&mut self, read: impl Fn(&mut Self) -> T) -> T {
        self.expect("(");
        let value = read(self);
        self.expect(")");
        value
    }

    // Reads a case, and says whether the independent program has it so.
    fn case(&mut self) -> bool {
        match self.word() {
            "half" => independent::even_half(self.number()) == self.number(),
            "straight" => {
                let (k, way) = (self.bracketed(Self::block), self.direction());
                let second = independent::straight(k, 1);
                independent::parts(k).is_empty() && (second.x - k.start.x, second.y - k.start.y) == (way.x, way.y)
            }
            "cut" => {
                let (k, due) = (self.bracketed(Self::block), self.bracketed(|r| r.list(Self::block)));
                independent::parts(k) == due
            }
            kind => self.case_of_a_curve(kind),
        }
    }

    fn case_of_a_curve(&mut self, kind: &str) -> bool {
        let (w, h) = self.pair();
        assert!(independent::accepted(w, h).is_ok(), "{}: {w} by {h} is no area", self.path);
        let (curve, counts): (Vec<(i64, i64)>, Vec<i64>) = independent::traversal(w, h).into_iter().map(|(s, count)| ((s.x, s.y), count)).unzip();
        match kind {
            "number_is" => {
                let (number, square) = (self.number(), self.pair());
                curve.iter().position(|s| *s == square) == Some(number as usize)
            }
            "number_in" => {
                let (number, square, count) = (self.number(), self.pair(), self.number());
                curve.iter().position(|s| *s == square) == Some(number as usize) && counts[number as usize] == count
            }
            "traversal" => {
                let squares = self.bracketed(|r| r.list(Self::square));
                curve == squares
            }
            "divided" => independent::fill(w, h, curve.len()) == Ok(vec![self.number()]),
            _ => panic!("{}: '{kind}' is no case", self.path),
        }
    }
}

// Compares each case of a table, and says how many there are.
fn compared(path: &str, name: &str) -> usize {
    let all = words_of_table(path, name);
    let mut reader = Reader { path, left: &all };
    let mut count = 0;
    while !reader.at("[]") {
        let before = reader.left;
        let right = reader.case();
        assert!(right, "{path}: otherwise by the independent program: {}", before[..before.len() - reader.left.len()].join(" "));
        reader.expect("∷");
        count += 1;
    }
    assert!(reader.left.len() == 1, "{path}: the table ends before its last line");
    assert!(count > 0, "{path}: the table is empty");
    count
}

// A card as the worked ones have it: of each block the content in use, the count and the check.
fn card_in_short(w: i64, h: i64, kind: i64) -> Vec<i64> {
    let words = independent::card_words(&[1, w, h, kind].map(|word| word as u32), &independent::table_due(w, h, kind == 2));
    let short = |block: &[u32]| [&block[..block[126] as usize], &block[126..]].concat();
    words.chunks(independent::BLOCK_WORDS).flat_map(short).map(i64::from).collect()
}

// How many worked cards there are: both kinds of four areas. One more or fewer has to be put here, so that none is passed over.
const WORKED_CARDS: usize = 8;

// Compares every worked card, `cards W H KIND (words)`, wherever it stands in the file, and says how many there are.
fn compared_cards(path: &str) -> usize {
    let text = fs::read_to_string(path).expect("the worked cards can be read");
    let all = words(text.lines());
    let is_number = |word: &String| word.parse::<i64>().is_ok();
    let starts = (0..all.len()).filter(|&i| all[i] == "cards" && all[i + 1..].first().is_some_and(is_number));
    let mut count = 0;
    for start in starts {
        let mut reader = Reader { path, left: &all[start + 1..] };
        let ((w, h), kind) = (reader.pair(), reader.number());
        assert!(independent::accepted(w, h).is_ok() && (1..=2).contains(&kind), "{path}: there is no card of {w} by {h}, kind {kind}");
        let worked = reader.bracketed(|r| r.list(Reader::number));
        assert!(worked == card_in_short(w, h, kind), "{path}: otherwise by the independent program: the card of {w} by {h}, kind {kind}");
        count += 1;
    }
    assert!(count == WORKED_CARDS, "{path}: {count} worked cards were found, and not {WORKED_CARDS}");
    count
}

fn main() {
    let tables = [("Worked", "worked"), ("Telling", "telling"), ("SingleCuts", "single_cuts")];
    let count: usize = tables.iter().map(|(file, name)| compared(&format!("crates/division/specs/Division/{file}.antt"), name)).sum();
    let cards = compared_cards("crates/cards/specs/Worked.antt");
    println!("telling: {count} cases of the three tables, and {cards} worked cards, as the independent program has them");
}
