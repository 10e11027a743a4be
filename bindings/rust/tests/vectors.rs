//! The test vectors that C, Rust, Python and SQL are all held to: tests/vectors.txt, whose first lines say how a vector is read. Those that begin with `wide`
//! cannot be asked in Rust and are left out, and so are those of cards whose kind is told as neither 1 nor 2, since a [`Kind`] is one of the two.
use std::fmt::Display;
use uvalinda::{Area, Cell, Check, Clerk, Kind, Number, Refusal, Reply, Square, Window};

const VECTORS: &str = include_str!("../../../tests/vectors.txt");

// A word as the bytes that it stands for.
fn bytes(word: &str) -> Vec<u8> {
    if word == "\\e" {
        return vec![];
    }
    let mut pieces = word.split('\\');
    let mut all = pieces.next().unwrap().as_bytes().to_vec();
    for piece in pieces {
        let (byte, rest) = match piece.strip_prefix('_') {
            Some(rest) => (b' ', rest),
            None => (u8::from_str_radix(&piece[1..3], 16).unwrap(), &piece[3..]),
        };
        all.push(byte);
        all.extend(rest.as_bytes());
    }
    all
}

fn joined(values: impl IntoIterator<Item = impl Display>) -> String {
    values.into_iter().map(|value| value.to_string()).collect::<Vec<_>>().join(" ")
}

fn told<T>(answer: Result<T, Refusal>, words: impl Fn(T) -> String) -> String {
    answer.map_or_else(refused, words)
}

fn refused(refusal: Refusal) -> String {
    let number = u32::from(refusal);
    match refusal {
        Refusal::NoRoom { count: told } | Refusal::BadCheck { block: told } => format!("refused {number} {told}"),
        _ => format!("refused {number}"),
    }
}

// The numbers of a call's arguments; each fits in 32 bits of its kind.
struct Arguments(Vec<i64>);

impl Arguments {
    fn area(&self) -> Area {
        self.area_without_origin().at(self.0[2] as i32, self.0[3] as i32)
    }

    fn area_without_origin(&self) -> Area {
        Area::new(self.0[0] as u32, self.0[1] as u32)
    }

    fn square(&self, at: usize) -> Square {
        Square { x: self.0[at] as i32, y: self.0[at + 1] as i32 }
    }

    fn window(&self) -> Window {
        let (from, to) = (self.square(4), self.square(6));
        Window { x0: from.x, y0: from.y, x1: to.x, y1: to.y }
    }

    fn table(&self, at: usize) -> Vec<u32> {
        self.0[at..].iter().map(|n| *n as u32).collect()
    }
}

fn numbers(words: &[&str]) -> Arguments {
    Arguments(words.iter().map(|word| word.parse().unwrap()).collect())
}

fn called(call: &str, n: &Arguments) -> String {
    let area = n.area();
    match call {
        "number_to_square" => told(area.number_to_square(n.0[4] as u32), cell),
        "square_to_number" => told(area.square_to_number(n.square(4).x, n.square(4).y), number),
        "finish_square" => told(area.finish_square(), |s| format!("{} {}", s.x, s.y)),
        "runs_for_window" => told(area.count_runs(n.window()), |count| runs(n, &mut vec![[0; 2]; count as usize])),
        _ => panic!("no call {call}"),
    }
}

fn cell(cell: Cell) -> String {
    format!("{} {} {}", cell.x, cell.y, cell.blocks)
}

fn number(number: Number) -> String {
    format!("{} {}", number.number, number.blocks)
}

fn runs(n: &Arguments, room: &mut [[u32; 2]]) -> String {
    told(n.area().runs_for_window(n.window(), room), |runs| joined(runs.as_flattened()))
}

// Whether a word is a number as a field of a line. With no area in force a line of numbers is refused for that, and any other sooner.
fn is_number(word: &str, minus: bool) -> bool {
    let line = if minus { [b"S ", &bytes(word)[..], b" 0"].concat() } else { [b"N ", &bytes(word)[..]].concat() };
    Clerk::new().handle(&line) == Err(Refusal::NoArea)
}

fn called_in_text(call: &str, words: &[&str]) -> String {
    let minus = |i: usize| i >= 2 && (call, i) != ("number_to_square", 4);
    match words.iter().enumerate().all(|(i, word)| is_number(word, minus(i))) {
        true => called(call, &numbers(words)),
        false => refused(Refusal::NotANumber),
    }
}

fn filled(n: &Arguments, by_square: bool) -> String {
    let (area, mut table) = (n.area_without_origin(), vec![0; n.0[2] as usize]);
    let answer = if by_square { area.fill_by_square(&mut table) } else { area.fill_by_number(&mut table) };
    told(answer, |blocks| format!("{blocks} {}", joined(&table)))
}

fn checked(n: &Arguments, by_square: bool) -> String {
    let (area, table) = (n.area_without_origin(), n.table(2));
    let answer = if by_square { area.check_by_square(&table) } else { area.check_by_number(&table) };
    told(answer, |check| match check {
        Check::Right => "right".to_string(),
        Check::Wrong { place, due } => format!("wrong {place} {due}"),
    })
}

fn kind(word: &str) -> Option<Kind> {
    match word {
        "1" => Some(Kind::ByNumber),
        "2" => Some(Kind::BySquare),
        _ => None,
    }
}

fn is_of_another_kind(words: &[&str]) -> bool {
    matches!(words[0], "write_card" | "read_card") && kind(words[3]).is_none()
}

// The bytes of a file by its words.
fn file(words: &[&str]) -> Vec<u8> {
    let bytes = |word: &&str| match (word.strip_prefix("0*"), word.strip_prefix('x')) {
        (Some(count), _) => vec![0; 4 * count.parse::<usize>().unwrap()],
        (_, Some(digits)) => (0..digits.len()).step_by(2).map(|at| u8::from_str_radix(&digits[at..at + 2], 16).unwrap()).collect(),
        _ => word.parse::<u32>().unwrap().to_le_bytes().to_vec(),
    };
    words.iter().flat_map(bytes).collect()
}

// A file of whole words as the vectors have it.
fn file_words(file: &[u8]) -> String {
    let words: Vec<u32> = file.chunks(4).map(|bytes| u32::from_le_bytes(bytes.try_into().unwrap())).collect();
    joined(words.chunk_by(|one, next| (*one, *next) == (0, 0)).map(|row| match row {
        [0, 0, ..] => format!("0*{}", row.len()),
        _ => row[0].to_string(),
    }))
}

// What is lent to be written, here and below, holds no word that is due, so that each has to be written.
fn written(words: &[&str]) -> String {
    let n = numbers(words);
    let mut file = vec![7; n.0[3] as usize];
    told(n.area_without_origin().write_card(kind(words[2]).unwrap(), &n.table(4), &mut file), |()| file_words(&file))
}

fn read(words: &[&str]) -> String {
    let n = numbers(&words[..4]);
    let mut table = vec![u32::MAX; n.0[3] as usize];
    told(n.area_without_origin().read_card(kind(words[2]).unwrap(), &file(&words[4..]), &mut table), |()| joined(&table))
}

fn handled(words: &[&str]) -> String {
    let mut clerk = Clerk::under(numbers(&words[..4]).area());
    let reply = clerk.handle(&bytes(words[4]));
    let Area { w, h, ox, oy } = clerk.area().unwrap_or(Area::new(0, 0));
    let reply = told(reply, |reply| match reply {
        Reply::Area { squares, finish, .. } => format!("area {squares} {} {}", finish.x, finish.y),
        Reply::Origin { ox, oy } => format!("origin {ox} {oy}"),
        Reply::Cell(found) => format!("cell {}", cell(found)),
        Reply::Number(found) => format!("number {}", number(found)),
    });
    format!("{w} {h} {ox} {oy} {reply}")
}

fn answered(words: &[&str]) -> String {
    match words[0] {
        "text" => called_in_text(words[1], &words[2..]),
        "room" => runs(&numbers(&words[2..]), &mut vec![[0; 2]; words[1].parse::<usize>().unwrap() / 2]),
        "fill_by_number" => filled(&numbers(&words[1..]), false),
        "fill_by_square" => filled(&numbers(&words[1..]), true),
        "check_by_number" => checked(&numbers(&words[1..]), false),
        "check_by_square" => checked(&numbers(&words[1..]), true),
        "card_length" => told(numbers(&words[1..]).area_without_origin().card_length(), |bytes| bytes.to_string()),
        "write_card" => written(&words[1..]),
        "read_card" => read(&words[1..]),
        "handle_line" => handled(&words[1..]),
        call => called(call, &numbers(&words[1..])),
    }
}

#[test]
fn vectors_are_answered_as_is_due() {
    let vectors: Vec<&str> = VECTORS.lines().filter(|line| !line.starts_with('#') && !line.starts_with("wide ")).collect();
    assert!(vectors.len() > 1000);
    let mut of_other_kinds = 0;
    for vector in vectors {
        let (asked, due) = vector.split_once(" = ").unwrap();
        let words: Vec<&str> = asked.split(' ').collect();
        if is_of_another_kind(&words) {
            of_other_kinds += 1;
        } else {
            assert_eq!(answered(&words), due, "{asked}");
        }
    }
    // Counted, so that no other vector is left out with them.
    assert_eq!(of_other_kinds, 27);
}
