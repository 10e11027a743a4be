//! The bindings as a caller uses them: what a lookup says, what a table holds and what the iterator yields agree.
use uvalinda::{Area, Check, Clerk, Kind, Refusal, Reply, Square, Window};

// Areas that begin at (0, 0), ones that lie on both sides of the post, and ones far off.
fn areas() -> impl Iterator<Item = Area> {
    let small = (1..=12).flat_map(|w| (1..=12).map(move |h| Area::new(w, h)));
    let about = small.clone().map(|area| area.at(-(area.w as i32) / 2, 3 - area.h as i32));
    let far = [Area::new(65535, 3).at(1_000_000, -1_000_000), Area::new(2, 65535), Area::new(300, 217).at(-1_000_000, -100)];
    small.chain(about).chain(far)
}

#[test]
fn lookups_undo_each_other() {
    for area in areas() {
        for number in (0..area.w * area.h).step_by(7) {
            let cell = area.number_to_square(number).unwrap();
            let back = area.square_to_number(cell.x, cell.y).unwrap();
            assert_eq!((back.number, back.blocks), (number, cell.blocks), "number {number} of {area:?}");
        }
    }
}

#[test]
fn tables_hold_what_the_iterator_yields() {
    for area in areas() {
        let mut by_number = vec![0; (area.w * area.h) as usize];
        let mut by_square = by_number.clone();
        assert_eq!(area.fill_by_number(&mut by_number), area.fill_by_square(&mut by_square));
        let squares = area.squares().unwrap();
        assert_eq!(squares.len(), by_number.len());
        for (number, Square { x, y }) in squares.enumerate() {
            let place = (y - area.oy) as u32 * area.w + (x - area.ox) as u32;
            assert_eq!(by_number[number], place, "place {number} of {area:?}");
            assert_eq!(by_square[place as usize], number as u32, "place {place} of {area:?}");
        }
        assert_eq!(area.check_by_number(&by_number), Ok(Check::Right));
        assert_eq!(area.check_by_square(&by_square), Ok(Check::Right));
    }
}

#[test]
fn the_iterator_goes_both_ways() {
    let area = Area::new(5, 4);
    let onward: Vec<Square> = area.squares().unwrap().collect();
    let mut backward: Vec<Square> = area.squares().unwrap().rev().collect();
    backward.reverse();
    assert_eq!(onward, backward);
    let mut both = area.squares().unwrap();
    assert_eq!(both.nth(3), Some(onward[3]));
    assert_eq!(both.nth_back(2), Some(onward[17]));
    assert_eq!(both.len(), 13);
    assert_eq!(both.nth(13), None);
    assert_eq!(both.next(), None);
    assert_eq!(area.squares().unwrap().last(), onward.last().copied());
    assert_eq!(area.squares().unwrap().count(), 20);
}

#[test]
fn the_finish_square_is_the_last() {
    let large = [Area::new(65535, 2), Area::new(65534, 2), Area::new(1, 65535), Area::new(65535, 256), Area::new(256, 65535), Area::new(4096, 4096)];
    for area in areas().chain(large) {
        let last = area.squares().unwrap().last().unwrap();
        assert_eq!(area.finish_square(), Ok(last), "{area:?}");
        let corner = Square { x: area.ox + area.w as i32 - 1, y: area.oy };
        let elsewhere = area.w == 1 && area.h > 1 || area.h == 2 && area.w % 2 == 1 && area.w >= 3;
        assert_eq!(last == corner, !elsewhere, "{area:?}");
    }
}

// The window from a third of each side to two thirds, by the iterator: its numbers one by one are what the runs have, and no two runs touch.
#[test]
fn runs_are_the_windows_numbers() {
    for area in areas() {
        let (x, y) = (|x: u32| area.ox + x.min(area.w - 1) as i32, |y: u32| area.oy + y.min(area.h - 1) as i32);
        let window = Window { x0: x(area.w / 3), y0: y(area.h / 3), x1: x(area.w * 2 / 3), y1: y(area.h * 2 / 3) };
        let count = area.count_runs(window).unwrap();
        let mut room = vec![[u32::MAX; 2]; count as usize + 1];
        assert_eq!(area.runs_for_window(window, &mut room[..count as usize - 1]), Err(Refusal::NoRoom { count: count.into() }), "{area:?}");
        assert!(room.iter().all(|pair| *pair == [u32::MAX; 2]), "written where it is refused: {area:?}");
        let runs = area.runs_for_window(window, &mut room).unwrap().to_vec();
        assert_eq!((runs.len(), room[count as usize]), (count as usize, [u32::MAX; 2]), "{area:?}");
        let lies = |s: &Square| (window.x0..=window.x1).contains(&s.x) && (window.y0..=window.y1).contains(&s.y);
        let numbers = area.squares().unwrap().zip(0..).filter(|(s, _)| lies(s)).map(|(_, number)| number);
        assert!(numbers.eq(runs.iter().flat_map(|[first, last]| *first..=*last)), "{area:?}");
        assert!(runs.windows(2).all(|two| two[0][1] + 1 < two[1][0]), "{area:?}");
    }
}

#[test]
fn a_refused_window_leaves_the_room() {
    let area = Area::new(3, 4);
    let mut room = [[7; 2]; 4];
    for (window, refusal) in [
        (Window { x0: 1, y0: 0, x1: 0, y1: 9 }, Refusal::CornersCrossed),
        (Window { x0: 0, y0: 2, x1: 9, y1: 1 }, Refusal::CornersCrossed),
        (Window { x0: 0, y0: 0, x1: 3, y1: 0 }, Refusal::SquareOutside),
        (Window { x0: 0, y0: 4, x1: 0, y1: 4 }, Refusal::SquareOutside),
        (Window { x0: -1, y0: 0, x1: 0, y1: 0 }, Refusal::SquareOutside),
        (Window { x0: i32::MIN, y0: i32::MIN, x1: i32::MAX, y1: i32::MAX }, Refusal::SquareOutside),
    ] {
        assert_eq!(area.runs_for_window(window, &mut room), Err(refusal), "{window:?}");
        assert_eq!(area.count_runs(window), Err(refusal), "{window:?}");
        assert_eq!(area.at(0, -1_000_001).runs_for_window(window, &mut room), Err(Refusal::OriginLimit), "{window:?}");
        assert_eq!(Area::new(4096, 4097).at(0, -1_000_001).runs_for_window(window, &mut room), Err(Refusal::TooManySquares), "{window:?}");
        assert_eq!(Area::new(0, 4).at(0, -1_000_001).runs_for_window(window, &mut room), Err(Refusal::AreaLimit), "{window:?}");
        assert_eq!(room, [[7; 2]; 4], "{window:?}");
    }
}

#[test]
fn refusals_have_their_numbers() {
    let area = Area::new(3, 4);
    let mut clerk = Clerk::new();
    let refusals = [
        Area::new(65536, 1).squares().map(|_| ()).unwrap_err(),
        area.square_to_number(3, 0).unwrap_err(),
        area.number_to_square(12).unwrap_err(),
        area.fill_by_square(&mut [0; 11]).unwrap_err(),
        clerk.handle(b"N 07").unwrap_err(),
        clerk.handle(b"N").unwrap_err(),
        clerk.handle(b"N 7").unwrap_err(),
        clerk.handle(&[b'N'; 65]).unwrap_err(),
        area.count_runs(Window { x0: 1, y0: 0, x1: 0, y1: 9 }).unwrap_err(),
        area.runs_for_window(Window { x0: 0, y0: 0, x1: 1, y1: 1 }, &mut [[7; 2]]).unwrap_err(),
        area.at(1_000_001, 0).squares().map(|_| ()).unwrap_err(),
        Area::new(4096, 4097).squares().map(|_| ()).unwrap_err(),
        area.read_card(Kind::ByNumber, &[0; 512], &mut [7; 12]).unwrap_err(),
        area.read_card(Kind::ByNumber, &[0; 511], &mut [7; 12]).unwrap_err(),
    ];
    assert_eq!(refusals.map(u32::from), [1, 2, 3, 4, 5, 6, 7, 8, 10, 11, 12, 13, 14, 15]);
    assert_eq!(u32::from(Refusal::TooDeep), 9);
}

// What every call says of an area that it refuses; the table, the room and the file stay as they were.
fn refused_by_all(area: Area, refusal: Refusal) {
    let (mut table, mut room, mut file) = ([7; 3], [[7; 2]], [7; 600]);
    let window = Window { x0: area.ox, y0: area.oy, x1: area.ox, y1: area.oy };
    assert_eq!(area.number_to_square(u32::MAX), Err(refusal), "{area:?}");
    assert_eq!(area.square_to_number(i32::MIN, 0), Err(refusal), "{area:?}");
    assert_eq!(area.finish_square(), Err(refusal), "{area:?}");
    assert_eq!(area.squares().map(|_| ()), Err(refusal), "{area:?}");
    assert_eq!((area.fill_by_number(&mut table), area.fill_by_square(&mut table)), (Err(refusal), Err(refusal)), "{area:?}");
    assert_eq!((area.check_by_number(&table), area.check_by_square(&table)), (Err(refusal), Err(refusal)), "{area:?}");
    assert_eq!(area.count_runs(window), Err(refusal), "{area:?}");
    assert_eq!(area.runs_for_window(window, &mut room), Err(refusal), "{area:?}");
    assert_eq!(area.card_length(), Err(refusal), "{area:?}");
    assert_eq!(area.write_card(Kind::ByNumber, &table, &mut file), Err(refusal), "{area:?}");
    assert_eq!(area.read_card(Kind::BySquare, &file, &mut table), Err(refusal), "{area:?}");
    assert_eq!((table, room, file), ([7; 3], [[7; 2]], [7; 600]), "{area:?}");
    assert_eq!(Clerk::under(area), Clerk::new(), "{area:?}");
    let mut clerk = Clerk::under(Area::new(3, 4));
    assert_eq!(clerk.handle(format!("AREA {} {}", area.w, area.h).as_bytes()), Err(refusal), "{area:?}");
    assert_eq!(clerk.area(), None, "{area:?}");
}

#[test]
fn an_area_has_at_most_so_many_squares() {
    for (w, h) in [(4096, 4097), (4097, 4096), (65535, 257), (24929, 673), (65535, 65535)] {
        refused_by_all(Area::new(w, h), Refusal::TooManySquares);
        refused_by_all(Area::new(w, h).at(1_000_001, 0), Refusal::TooManySquares);
    }
    for (w, h) in [(65536, 257), (65536, 256), (0, 65536), (65536, 65536)] {
        refused_by_all(Area::new(w, h), Refusal::AreaLimit);
    }
    for (w, h) in [(4096, 4096), (8192, 2048), (65535, 256), (256, 65535), (24929, 672), (65535, 1), (1, 65535)] {
        let area = Area::new(w, h).at(-9, 1_000_000);
        assert_eq!(area.squares().unwrap().len(), w as usize * h as usize, "{area:?}");
        assert_eq!(area.count_runs(Window { x0: -9, y0: 1_000_000, x1: w as i32 - 10, y1: h as i32 + 999_999 }), Ok(1), "{area:?}");
        assert_eq!(area.number_to_square(w * h), Err(Refusal::NumberOutside), "{area:?}");
        assert_eq!(area.fill_by_number(&mut [7; 3]), Err(Refusal::TableLength), "{area:?}");
        assert_eq!(Clerk::under(area).area(), Some(area));
    }
}

#[test]
fn an_area_line_is_told_whole() {
    let mut clerk = Clerk::new();
    let reply = clerk.handle(b"AREA 65535 256");
    let area = Area::new(65535, 256);
    assert_eq!(reply, Ok(Reply::Area { area, squares: 16776960, finish: Square { x: 65534, y: 0 } }));
    assert_eq!(clerk.area(), Some(area));
    assert_eq!(clerk.handle(b"S 65534 0"), area.square_to_number(65534, 0).map(Reply::Number));
    let area = Area::new(5, 2);
    assert_eq!(clerk.handle(b"AREA 5 2"), Ok(Reply::Area { area, squares: 10, finish: Square { x: 3, y: 0 } }));
}

#[test]
fn an_origin_line_moves_the_area_in_force() {
    let mut clerk = Clerk::new();
    assert_eq!(clerk.handle(b"ORIGIN 1 2"), Err(Refusal::NoArea));
    assert!(clerk.handle(b"AREA 3 4").is_ok());
    let area = Area::new(3, 4).at(-1_000_000, 1_000_000);
    assert_eq!(clerk.handle(b"ORIGIN -1000000 0001000000"), Ok(Reply::Origin { ox: -1_000_000, oy: 1_000_000 }));
    assert_eq!(clerk.area(), Some(area));
    assert_eq!(clerk, Clerk::under(area));
    assert_eq!(clerk.handle(b"N 8"), area.number_to_square(8).map(Reply::Cell));
    assert_eq!(clerk.handle(b"S -999998 1000001"), area.square_to_number(-999_998, 1_000_001).map(Reply::Number));
    assert_eq!(clerk.handle(b"S -0 1000001"), Err(Refusal::NotANumber));
    assert_eq!(clerk.area(), Some(area));
    assert!(clerk.handle(b"AREA 3 4").is_ok());
    assert_eq!(clerk.area(), Some(Area::new(3, 4)));
    for refused in [&b"ORIGIN 0 1000001"[..], b"ORIGIN -0 0", b"ORIGINX", &[&b"ORIGIN 1 2"[..], &[b' '; 70]].concat()] {
        clerk = Clerk::under(area);
        assert!(clerk.handle(refused).is_err());
        assert_eq!(clerk.area(), None);
    }
}

#[test]
fn tables_do_not_depend_on_the_origin() {
    let (area, moved) = (Area::new(5, 4), Area::new(5, 4).at(i32::MIN, i32::MAX));
    let (mut table, mut other) = ([0; 20], [0; 20]);
    assert_eq!(area.fill_by_number(&mut table), moved.fill_by_number(&mut other));
    assert_eq!(table, other);
    assert_eq!(moved.check_by_number(&table), Ok(Check::Right));
    assert_eq!(area.fill_by_square(&mut table), moved.fill_by_square(&mut other));
    assert_eq!(table, other);
    assert_eq!(moved.check_by_square(&table), Ok(Check::Right));
}
