// vectors: the test vectors that C, Rust, Python and SQL are all held to, by the independent program. tests/vectors.txt is what this prints; its first lines
// say how a vector is read.
#[allow(dead_code)] // the way down to a number and steps are not needed here
mod independent;

use independent::{Answer, Area, Reply, Window};

const READ_SO: &str = "\
# Test vectors: what is asked, and behind the = what is due. Made by tests/vectors.rs from the independent program, and not to be altered by hand.
# A vector is words with a space between. In a word \\_ is a space, \\xHH the byte HH in hexadecimal, and \\e alone a word of no bytes.
#   number_to_square w h ox oy number = x y blocks
#   square_to_number w h ox oy x y = number blocks
#   finish_square w h ox oy = x y
#   runs_for_window w h ox oy x0 y0 x1 y1 = first last first last ..
#   room places w h ox oy x0 y0 x1 y1 = the same with a slice of so many places; at refusal 11 also how many runs there are
#   fill_by_number w h places = blocks and the table; fill_by_square likewise
#   check_by_number w h table = right, or wrong and the place and the value due; check_by_square likewise
#   card_length w h = bytes
#   write_card w h kind bytes table = the file; the one that is lent has so many bytes
#   read_card w h kind places file = the table; the one that is lent has so many places; at refusal 14 also the index of the block
#   handle_line w h ox oy line = w h ox oy of the area in force after the line, and the reply; 0 0 0 0 is none
# Where it is refused, the word refused and the number are due. `text` before a call: its arguments are given as text, and each is read as a field of a line;
# one that is not a number is refused with 5 before anything else. `wide` before a call: an argument is an integer that a C call cannot be given, and is
# refused as one that is too far off. No vector has refusal 9: it is proved that it never comes.
# A file is words of 32 bits, each with its least byte first; 0*k is k words of 0, k over 1, and x with digits behind it bytes in hexadecimal.";

const SMALL: [(i64, i64); 12] = [(1, 1), (1, 5), (5, 1), (2, 2), (3, 2), (4, 2), (3, 3), (4, 3), (5, 2), (3, 4), (7, 4), (40, 33)];
const LARGE: [(i64, i64); 5] = [(4096, 4096), (8192, 2048), (65535, 256), (65535, 1), (1, 65535)];
const REFUSED: [(i64, i64); 9] =
    [(0, 0), (0, 5), (5, 0), (65536, 1), (1, 4294967295), (4096, 4097), (4097, 4096), (65535, 257), (65535, 65535)];
const ORIGINS: [(i64, i64); 3] = [(-5, 7), (1_000_000, -1_000_000), (-1_000_000, 1_000_000)];
const BEYOND: [(i64, i64); 6] = [(1_000_001, 0), (0, -1_000_001), (-1_000_001, 1_000_001), (i32::MIN as i64, 0), (0, i32::MAX as i64), (65536, 1 << 30)];

// Fields that are numbers nowhere, and those whose answer goes by where they stand.
const HOSTILE: [&[u8]; 36] = [
    b"", b" ", b"3E4", b"3e0", b"1E1", b"+7", b"07", b"00", b"7.0", b"7.", b".7", b"0x7", b"7 ", b" 7", b"7\t", b"7\r", b"7\n", b"7\0", b"\0", b"\x007",
    b"1\x002", b"1 2", b"1,000", b"1_000", b"NaN", b"Inf", b"TRUE", b"'7'", b"\"7\"", b"\\", b"\xff", b"\xef\xbc\x97", b"\xe2\x88\x927", b"--7", b"- 7",
    b"1111111111111111111111111111111111111111111111111111111111111111111111",
];
const BY_PLACE: [&[u8]; 24] = [
    b"0", b"1", b"2", b"7", b"30", b"0000000001", b"0000000030", b"000000001", b"00000000001", b"0000000000", b"2147483647", b"2147483648", b"4294967295",
    b"4294967296", b"9999999999", b"99999999999", b"-1", b"-7", b"-0", b"-0000000001", b"-000000001", b"-0000000000", b"-2147483647", b"-2147483648",
];

// Bytes as one word.
fn word(bytes: &[u8]) -> String {
    let escaped = |b: &u8| match b {
        b' ' => "\\_".to_string(),
        b'\\' | 0..=32 | 127..=255 => format!("\\x{b:02x}"),
        _ => char::from(*b).to_string(),
    };
    if bytes.is_empty() { "\\e".to_string() } else { bytes.iter().map(escaped).collect() }
}

fn words(numbers: impl IntoIterator<Item = i64>) -> String {
    numbers.into_iter().map(|n| n.to_string()).collect::<Vec<_>>().join(" ")
}

fn due(answer: Answer) -> String {
    answer.map_or_else(|refusal| format!("refused {refusal}"), words)
}

// What is due of a call by its name, with these arguments.
fn called(call: &str, n: &[i64]) -> Answer {
    let area = Area { w: n[0], h: n[1], ox: n[2], oy: n[3] };
    match call {
        // A negative number is no more a number of the area than one beyond its last.
        "number_to_square" => independent::number_to_square(area, if n[4] < 0 { i64::MAX } else { n[4] }),
        "square_to_number" => independent::square_to_number(area, n[4], n[5]),
        "finish_square" => independent::finish_square(area),
        _ => {
            let (refusal, _, runs) = window(area, &n[4..], usize::MAX);
            if refusal == 0 { Ok(runs) } else { Err(refusal) }
        }
    }
}

// What is due of a window: the refusal's number, how many runs are told of, and the runs one behind the other.
fn window(area: Area, corners: &[i64], places: usize) -> (i64, i64, Vec<i64>) {
    let window = Window { x0: corners[0], y0: corners[1], x1: corners[2], y1: corners[3] };
    let (refusal, count, runs) = independent::window_answer(area, window, places, || independent::runs_by_numbers(area, window));
    (refusal, count, runs.into_iter().flat_map(|(first, last)| [first, last]).collect())
}

fn print_call(call: &str, n: &[i64]) {
    println!("{call} {} = {}", words(n.iter().copied()), due(called(call, n)));
}

// A call with an integer that a C call cannot be given.
fn print_wide(call: &str, n: &[i64]) {
    print!("wide ");
    print_call(call, n);
}

// The value of a field: with no area in force a line of numbers is refused with 7, and every other with something else.
fn field(text: &[u8], minus: bool) -> Option<i64> {
    let line = if minus { [b"S ", text, b" 0"].concat() } else { [b"N ", text].concat() };
    let number = matches!(independent::answered(&line, None).0, Reply::Refused(7));
    number.then(|| std::str::from_utf8(text).expect("digits").parse().expect("a number"))
}

// Which arguments of a call may carry a minus.
fn signs(call: &str) -> Vec<bool> {
    let behind: &[bool] = match call {
        "number_to_square" => &[false],
        "square_to_number" => &[true; 2],
        _ => &[true; 4],
    };
    [&[false, false, true, true], behind].concat()
}

fn print_text(call: &str, fields: &[Vec<u8>]) {
    let read: Option<Vec<i64>> = fields.iter().zip(signs(call)).map(|(text, minus)| field(text, minus)).collect();
    let shown: Vec<String> = fields.iter().map(|text| word(text)).collect();
    println!("text {call} {} = {}", shown.join(" "), due(read.ok_or(5).and_then(|n| called(call, &n))));
}

// A call in text, with each of some fields in one place.
fn print_texts(call: &str, n: &[i64], place: usize, fields: &[&[u8]]) {
    for text in fields {
        let mut with: Vec<Vec<u8>> = n.iter().map(|n| n.to_string().into_bytes()).collect();
        with[place] = text.to_vec();
        print_text(call, &with);
    }
}

// A number padded to ten digits, as a label has it.
fn padded(n: &i64) -> Vec<u8> {
    format!("{}{:010}", if *n < 0 { "-" } else { "" }, n.abs()).into_bytes()
}

// Numbers and squares about the ends of an area, within and without.
fn lookups((w, h): (i64, i64), (ox, oy): (i64, i64)) {
    let area = |rest: &[i64]| [&[w, h, ox, oy], rest].concat();
    let last = (w * h - 1).clamp(0, u32::MAX as i64 - 1);
    let mut numbers = vec![0, 1, last / 3, last / 2, last - 1, last, last + 1, u32::MAX as i64];
    numbers.retain(|n| *n >= 0);
    numbers.dedup();
    for number in numbers {
        print_call("number_to_square", &area(&[number]));
    }
    let far = i32::MAX as i64;
    for (x, y) in [(0, 0), (w - 1, 0), (0, h - 1), (w / 2, h / 3), (w - 1, h - 1), (-1, 0), (0, -1), (w, 0), (0, h), (far, far), (-far - 1, 0)] {
        let onto = |c: i64, o: i64| (c + o).clamp(-far - 1, far);
        print_call("square_to_number", &area(&[onto(x, ox), onto(y, oy)]));
    }
    print_call("finish_square", &area(&[]));
}

// Windows within an area, of one square, across its edge, and crossed.
fn windows((w, h): (i64, i64), (ox, oy): (i64, i64)) {
    let (right, top) = (w - 1, h - 1);
    for [x0, y0, x1, y1] in [
        [0, 0, right.min(30), top.min(20)],
        [w / 3, h / 4, w / 3 + (w / 3).min(17), h / 4 + (h / 3).min(9)],
        [right, top, right, top],
        [w / 2, 0, w / 2, top.min(50)],
        [-1, 0, 0, 0],
        [0, 0, 0, h],
        [1, 0, 0, 0],
        [0, h, 0, 0],
        [w + 1, 0, w, 0],
    ] {
        let corners = [x0 + ox, y0 + oy, x1 + ox, y1 + oy];
        if corners.iter().all(|c| i32::try_from(*c).is_ok()) {
            print_call("runs_for_window", &[&[w, h, ox, oy], &corners[..]].concat());
        }
    }
}

// A window of three runs, with a slice of every length up to some places more than they take.
fn rooms() {
    let (area, corners) = (Area { w: 7, h: 4, ox: -5, oy: 7 }, [-4, 7, -1, 9]);
    for places in 0..=9 {
        let (refusal, count, runs) = window(area, &corners, places);
        let due = if refusal == 0 { words(runs) } else { format!("refused {refusal} {count}") };
        println!("room {places} {} {} = {due}", words([area.w, area.h, area.ox, area.oy]), words(corners));
    }
}

fn tables() {
    for (kind, by_square) in [("number", false), ("square", true)] {
        for (w, h) in SMALL.into_iter().filter(|(w, h)| w * h < 100) {
            let right = independent::table_due(w, h, by_square);
            for places in [right.len(), right.len() - 1, right.len() + 1] {
                let filled = independent::fill(w, h, places).map(|blocks| [blocks, right.iter().map(|n| *n as i64).collect()].concat());
                println!("fill_by_{kind} {w} {h} {places} = {}", due(filled));
            }
            let wrong = |at: usize, value: u32| right.iter().enumerate().map(|(i, n)| if i == at { value } else { *n }).collect();
            let last = right.len() - 1;
            let tables: [Vec<u32>; 5] = [right.clone(), wrong(0, 1), wrong(last, u32::MAX), wrong(last / 2, right.len() as u32), right[1..].to_vec()];
            for table in tables {
                print_check(kind, w, h, by_square, &table);
            }
        }
        for (w, h) in REFUSED {
            println!("fill_by_{kind} {w} {h} 3 = {}", due(independent::fill(w, h, 3)));
            print_check(kind, w, h, by_square, &[0, 1, 2]);
        }
    }
}

fn print_check(kind: &str, w: i64, h: i64, by_square: bool, table: &[u32]) {
    let due = match independent::check(w, h, by_square, table) {
        Ok(v) if v[0] == 0 => "right".to_string(),
        Ok(v) => format!("wrong {} {}", v[1], v[2]),
        Err(refusal) => format!("refused {refusal}"),
    };
    println!("check_by_{kind} {w} {h}{} = {due}", table.iter().map(|n| format!(" {n}")).collect::<String>());
}

// A file as words, with those of 0 in a row as one, and the bytes that make no word.
fn file_words(file: &[u8]) -> String {
    let (whole, rest) = file.split_at(file.len() - file.len() % 4);
    let numbers: Vec<u32> = whole.chunks(4).map(|bytes| u32::from_le_bytes(bytes.try_into().expect("four bytes"))).collect();
    let row = |row: &[u32]| match row {
        [0, 0, ..] => format!("0*{}", row.len()),
        _ => words(row.iter().map(|n| *n as i64)),
    };
    let mut all: Vec<String> = numbers.chunk_by(|one, next| one == next && *one == 0).map(row).collect();
    if !rest.is_empty() {
        all.push(rest.iter().fold("x".to_string(), |hex, byte| format!("{hex}{byte:02x}")));
    }
    all.join(" ")
}

// What a card's call is told: w, h and the kind.
type Told = [i64; 3];

fn print_write(told: Told, bytes: usize, table: &[u32]) {
    let [w, h, kind] = told;
    let due = match independent::write_card(w, h, kind, table, bytes) {
        Ok(()) => file_words(&independent::card(w, h, kind)),
        Err(refusal) => format!("refused {refusal}"),
    };
    println!("write_card {} {bytes}{} = {due}", words(told), table.iter().map(|n| format!(" {n}")).collect::<String>());
}

fn print_read(told: Told, places: usize, file: &[u8]) {
    let [w, h, kind] = told;
    let due = match independent::read_card(w, h, kind, file, places) {
        Ok(()) => words(independent::table_due(w, h, kind == 2).into_iter().map(i64::from)),
        Err((14, block)) => format!("refused 14 {block}"),
        Err((refusal, _)) => format!("refused {refusal}"),
    };
    let shown = if file.is_empty() { String::new() } else { format!(" {}", file_words(file)) };
    println!("read_card {} {places}{shown} = {due}", words(told));
}

// A file of blocks, each by the words that it has in use.
fn blocks(of: &[&[u32]]) -> Vec<u8> {
    of.iter().flat_map(|used| independent::little_endian(&independent::card_words(used, &[]))).collect()
}

// The card of 3 by 4 by number with one word made another, its check put right or not.
fn changed(at: usize, value: u32, mended: bool) -> Vec<u8> {
    let mut words = independent::card_words(&[1, 3, 4, 1], &independent::table_due(3, 4, false));
    words[at] = value;
    let block = &mut words[at / 128 * 128..][..128];
    if mended {
        block[127] = independent::check_of(&block[..127]);
    }
    independent::little_endian(&words)
}

// Cards of every kind of length, written and read; then the card of 3 by 4 by number, with everything that it can be refused for.
fn cards() {
    let lengths = [(1, 1), (3, 4), (125, 1), (126, 1), (127, 1), (252, 1), (253, 1), (40, 33)];
    for (w, h) in lengths.into_iter().chain(LARGE).chain(REFUSED) {
        println!("card_length {w} {h} = {}", due(independent::card_length(w, h)));
    }
    for told in [(1, 1), (1, 5), (5, 2), (3, 4), (14, 9), (127, 1)].into_iter().flat_map(|(w, h)| [[w, h, 1], [w, h, 2]]) {
        let (table, file) = (independent::table_due(told[0], told[1], told[2] == 2), independent::card(told[0], told[1], told[2]));
        print_write(told, file.len(), &table);
        print_read(told, table.len(), &file);
    }
    let (told, table, file) = ([3, 4, 1], independent::table_due(3, 4, false), independent::card(3, 4, 1));
    for bytes in [0, 512, 1023, 1025, 1536] {
        print_write(told, bytes, &table);
    }
    print_write([3, 4, 3], 1023, &table);
    print_write(told, 1024, &table[1..]);
    print_write(told, 1024, &[&table[..], &[0]].concat());
    for (place, value) in [(0, 1), (5, 8), (11, u32::MAX)] {
        print_write(told, 1024, &[&table[..place], &[value], &table[place + 1..]].concat());
    }
    for kind in [2, 0, 3, 257, u32::MAX] {
        let told = [3, 4, kind.into()];
        print_write(told, 1024, &table);
        print_read(told, 12, &file);
        print_read(told, 12, &changed(3, kind, true));
        print_read(told, 12, &changed(3, kind, false));
    }
    for ((w, h), kind) in REFUSED.into_iter().zip([3, 1].into_iter().cycle()) {
        print_write([w, h, kind], 0, &[0, 1, 2]);
        print_read([w, h, kind], 3, &file[..516]);
    }
    for places in [0, 11, 13] {
        print_read(told, places, &changed(0, 2, false));
    }
    departing(told, &table, &file);
    longer();
}

// What a reader of that card is lent: other words, with the check put right or not, other lengths, and other blocks.
fn departing(told: Told, table: &[u32], file: &[u8]) {
    let of_head = [(0, 0), (0, 2), (1, 4), (2, 3), (3, 2), (4, 1), (125, 1), (126, 3), (126, 5)];
    let of_table = [(128, 1), (133, 8), (139, u32::MAX), (139, 1 << 31), (140, 1), (253, 1), (254, 11), (254, 13), (254, 48), (254, u32::MAX)];
    for (at, value) in of_head.into_iter().chain(of_table) {
        print_read(told, 12, &changed(at, value, true));
    }
    for (at, value) in [(0, 2), (125, 1), (126, 5), (127, 13), (127, 0), (128, 1), (253, 1), (254, 11), (255, 78), (255, u32::MAX)] {
        print_read(told, 12, &changed(at, value, false));
    }
    for bytes in [0, 1, 511, 512, 1020, 1023] {
        print_read(told, 12, &file[..bytes]);
    }
    let (head, sealed) = file.split_at(512);
    let (bad, empty) = ([0; 512], blocks(&[&[]]));
    for behind in [&bad[..1], &bad[..511], &bad, &empty, sealed, &[&empty[..], &bad].concat()] {
        print_read(told, 12, &[file, behind].concat());
    }
    let back = |words: &[u8]| words.chunks(4).flat_map(|word| word.iter().rev().copied()).collect::<Vec<u8>>();
    let first: &[u32] = &[1, 3, 4, 1];
    for other in [
        [sealed, head].concat(),
        [head, &empty, sealed].concat(),
        [&empty[..], file].concat(),
        [head, head, sealed].concat(),
        [&changed(1, 4, true)[..512], &changed(128, 1, false)[512..]].concat(),
        blocks(&[first, &table[..6], &table[6..]]),
        blocks(&[first, &table[..11]]),
        blocks(&[&[1, 3, 4], table]),
        blocks(&[&[first, table].concat()]),
        back(file),
        independent::card(4, 3, 1),
        independent::card(12, 1, 1),
    ] {
        print_read(told, 12, &other);
    }
}

// What a reader of a card with two blocks of table is lent: a wrong place and a bad check in either, the blocks exchanged, and the table packed otherwise.
fn longer() {
    let (told, table, file) = ([127, 1, 1], independent::table_due(127, 1, false), independent::card(127, 1, 1));
    let head: &[u32] = &[1, 127, 1, 1];
    let with = |place: usize| [&table[..place], &[7], &table[place + 1..]].concat();
    let bad = |byte: usize| [&file[..byte], &[file[byte] ^ 1], &file[byte + 1..]].concat();
    for other in [
        independent::little_endian(&independent::card_words(head, &with(125))),
        independent::little_endian(&independent::card_words(head, &with(126))),
        bad(1023),
        bad(1024),
        [&file[..512], &file[1024..], &file[512..1024]].concat(),
        [&file[..1024], &blocks(&[&[]]), &file[1024..]].concat(),
        blocks(&[head, &table[..1], &table[1..]]),
        file[..1024].to_vec(),
    ] {
        print_read(told, 127, &other);
    }
}

fn print_line(area: Option<Area>, line: &[u8]) {
    let four = |area: Option<Area>| area.map_or([0; 4], |a| [a.w, a.h, a.ox, a.oy]);
    let (reply, after) = independent::answered(line, area);
    let told = match reply {
        Reply::Area { squares, x, y, .. } => format!("area {squares} {x} {y}"),
        Reply::Origin { ox, oy } => format!("origin {ox} {oy}"),
        Reply::Cell { x, y, blocks } => format!("cell {x} {y} {blocks}"),
        Reply::Number { number, blocks } => format!("number {number} {blocks}"),
        Reply::Refused(refusal) => format!("refused {refusal}"),
    };
    println!("handle_line {} {} = {} {told}", words(four(area)), word(line), words(four(after)));
}

// Lines of every shape and nearly right ones, under no area, an area, and one with an origin; and each field in each shape.
fn lines() {
    let whole: [&[u8]; 33] = [
        b"", b" ", b"N", b"N ", b"N 8", b" N 8", b"N  8", b"N 8 ", b"N 8 8", b"N\t8", b"n 8", b"S 2 1", b"S 2", b"S 2 1 0", b"S -3 8",
        b"S -0000000003 0000000008", b"AREA 3 4", b"AREA 3", b"AREA 3 4 5", b"AREA 0 4", b"AREA 4096 4097", b"AREA 65536 1", b"AREAX 3 4", b"AREA", b"area 3 4",
        b"ARE", b"ORIGIN -5 7", b"ORIGIN 0", b"ORIGINX", b"ORIGIN 1000000 -1000000", b"ORIGIN 1000001 0", b"ORIGIN 0 -1000001", b"\xef\xbb\xbfAREA 3 4",
    ];
    let moved = Some(Area { w: 3, h: 4, ox: -5, oy: 7 });
    for area in [None, Some(Area::new(3, 4)), moved] {
        let long = [b'1'; 59];
        let lengths = [[b"AREA ", &long[..]].concat(), [b"AREA 1", &long[..]].concat(), [b"N 1", &long[..]].concat(), [b"ORIGIN", &long[..]].concat()];
        for line in whole.iter().map(|line| line.to_vec()).chain(lengths) {
            print_line(area, &line);
        }
    }
    for text in HOSTILE.iter().chain(&BY_PLACE) {
        for line in [[b"N ", *text].concat(), [b"S -4 ", *text].concat(), [b"AREA ", *text, b" 4"].concat(), [b"ORIGIN 0 ", *text].concat()] {
            print_line(moved, &line);
        }
    }
}

fn texts() {
    let every = [&HOSTILE[..], &BY_PLACE[..]].concat();
    print_texts("number_to_square", &[3, 4, -5, 7, 8], 4, &every);
    print_texts("square_to_number", &[9, 4, -7, 7, -3, 8], 4, &every);
    let few: [&[u8]; 13] = [
        b"0", b"7", b"0000000001", b"000000001", b"2147483648", b"4294967295", b"4294967296", b"-1", b"-0", b"-0000000001", b"3E4", b"1 2", b"3\0",
    ];
    for (call, n) in [
        ("number_to_square", &[3, 4, -5, 7, 8][..]),
        ("square_to_number", &[9, 4, -7, 7, -3, 8]),
        ("runs_for_window", &[9, 4, -7, 0, -3, 1, -1, 2]),
    ] {
        print_text(call, &n.iter().map(padded).collect::<Vec<_>>());
        for place in 0..n.len() {
            print_texts(call, n, place, &few);
        }
    }
    // What is not a number comes before what is refused of the rest.
    for fields in [[&b"0"[..], b"4", b"0", b"0", b"3E4"], [b"3", b"4", b"1000001", b"0", b"3E4"], [b"0", b"x", b"0", b"0", b"1"]] {
        print_text("number_to_square", &fields.map(|text| text.to_vec()));
    }
}

// Each of these would be an answer if it were cut to 32 bits.
fn wides() {
    let over = 1i64 << 32;
    for number in [over, over + 8, -1, -over, i64::MAX, i64::MIN] {
        print_wide("number_to_square", &[3, 4, 0, 0, number]);
    }
    for wide in [over, -over] {
        for (call, n) in [
            ("number_to_square", &[3, 4, 0, 0, 8][..]),
            ("square_to_number", &[3, 4, -5, 7, -3, 8]),
            ("finish_square", &[3, 4, -5, 7]),
            ("runs_for_window", &[3, 4, -5, 7, -5, 7, -4, 8]),
        ] {
            for place in 0..n.len() {
                let mut with = n.to_vec();
                with[place] += wide;
                print_wide(call, &with);
            }
        }
    }
    for least in [i32::MAX as i64 + 1, i32::MIN as i64 - 1] {
        print_wide("square_to_number", &[3, 4, 0, 0, least, 1]);
        print_wide("square_to_number", &[3, 4, 0, least, 2, 1]);
    }
    for (from, to) in [(2 * over, over), (over, 2 * over), (-over, -2 * over), (-2 * over, -over), (over, over)] {
        print_wide("runs_for_window", &[3, 4, 0, 0, from, 0, to, 1]);
        print_wide("runs_for_window", &[3, 4, 0, 0, 0, from, 1, to]);
        print_wide("runs_for_window", &[0, 4, 0, 0, 0, from, 1, to]);
        print_wide("runs_for_window", &[3, 4, 0, 1_000_001, 0, from, 1, to]);
    }
}

fn main() {
    println!("{READ_SO}");
    let granted = SMALL.into_iter().chain(LARGE).zip((0..3).cycle()).flat_map(|(area, i)| [(area, (0, 0)), (area, ORIGINS[i])]);
    let refused = REFUSED.into_iter().zip([ORIGINS[0], BEYOND[0]].into_iter().cycle());
    let beyond = BEYOND.into_iter().map(|origin| ((3, 4), origin));
    for (area, origin) in granted.chain(refused).chain(beyond) {
        lookups(area, origin);
        windows(area, origin);
    }
    rooms();
    tables();
    cards();
    lines();
    texts();
    wides();
}
