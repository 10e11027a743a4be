//! Cards as a caller uses them: what is written is laid out as document 02 has it, is read back, and nothing else is.
use uvalinda::{Area, Kind, Refusal};

const KINDS: [Kind; 2] = [Kind::ByNumber, Kind::BySquare];

// A block by the words in use.
fn block(content: &[u32]) -> Vec<u8> {
    let mut words = content.to_vec();
    words.resize(126, 0);
    words.push(content.len() as u32);
    words.push(words.iter().fold(1, |sum: u32, word| sum.wrapping_add(*word)));
    words.into_iter().flat_map(u32::to_le_bytes).collect()
}

fn card(area: Area, kind: Kind, table: &[u32]) -> Vec<u8> {
    let head = [1, area.w, area.h, kind as u32];
    [&head[..]].into_iter().chain(table.chunks(126)).flat_map(block).collect()
}

fn filled(area: Area, kind: Kind) -> Vec<u32> {
    let mut table = vec![0; (area.w * area.h) as usize];
    match kind {
        Kind::ByNumber => area.fill_by_number(&mut table),
        Kind::BySquare => area.fill_by_square(&mut table),
    }
    .unwrap();
    table
}

// What a refused reading says. It leaves the table as it was.
fn refused(area: Area, kind: Kind, file: &[u8]) -> Refusal {
    let mut table = vec![7; (area.w * area.h) as usize];
    let refusal = area.read_card(kind, file, &mut table).unwrap_err();
    assert!(table.iter().all(|place| *place == 7), "written where it is refused: {area:?}");
    refusal
}

// What a refused writing says. It leaves the file as it was.
fn unwritten(area: Area, kind: Kind, table: &[u32], bytes: usize) -> Refusal {
    let mut file = vec![7; bytes];
    let refusal = area.write_card(kind, table, &mut file).unwrap_err();
    assert!(file.iter().all(|byte| *byte == 7), "written where it is refused: {area:?}");
    refusal
}

// Areas with a full last block, with one place over and under it, and with one block for the table.
#[test]
fn a_card_is_laid_out_as_told_and_read_back() {
    for (w, h) in [(1, 1), (3, 4), (125, 1), (9, 14), (1, 127), (12, 21), (23, 11), (251, 1), (300, 217), (65535, 3)] {
        let area = Area::new(w, h);
        for kind in KINDS {
            let (table, bytes) = (filled(area, kind), area.card_length().unwrap() as usize);
            let (mut file, mut read) = (vec![7; bytes], vec![7; table.len()]);
            assert_eq!(area.write_card(kind, &table, &mut file), Ok(()), "{area:?} {kind:?}");
            assert!(file == card(area, kind, &table), "{area:?} {kind:?}");
            assert_eq!(area.at(i32::MIN, i32::MAX).read_card(kind, &file, &mut read), Ok(()), "{area:?} {kind:?}");
            assert!(read == table, "{area:?} {kind:?}");
        }
    }
}

#[test]
fn a_changed_byte_is_told_by_its_block() {
    let area = Area::new(13, 20);
    for kind in KINDS {
        let mut file = card(area, kind, &filled(area, kind));
        for at in 0..file.len() {
            for change in [1, 128, 255] {
                file[at] ^= change;
                assert_eq!(refused(area, kind, &file), Refusal::BadCheck { block: at as u64 / 512 }, "byte {at}");
                file[at] ^= change;
            }
        }
        file[512] ^= 1;
        file[1600] ^= 1;
        assert_eq!(refused(area, kind, &file), Refusal::BadCheck { block: 1 });
    }
}

#[test]
fn a_file_of_another_length_is_no_card() {
    let area = Area::new(3, 4);
    let file = card(area, Kind::ByNumber, &filled(area, Kind::ByNumber));
    for bytes in [0, 1, 511, 512, 513, 1023] {
        assert_eq!(refused(area, Kind::ByNumber, &file[..bytes]), Refusal::Departure, "{bytes} bytes");
    }
    let longer = |behind: &[u8]| refused(area, Kind::ByNumber, &[&file, behind].concat());
    assert_eq!(longer(&[0]), Refusal::Departure);
    assert_eq!(longer(&[0; 511]), Refusal::Departure);
    assert_eq!(longer(&block(&[])), Refusal::Departure);
    assert_eq!(longer(&[0; 512]), Refusal::BadCheck { block: 2 });
    assert_eq!(longer(&[block(&[]), vec![0; 600]].concat()), Refusal::BadCheck { block: 3 });
}

// Every word but the checks, one more than it should be, in a block whose check is good again.
#[test]
fn a_wrong_word_under_a_good_check_is_a_departure() {
    let area = Area::new(13, 20);
    for kind in KINDS {
        let file = card(area, kind, &filled(area, kind));
        for at in (0..file.len()).step_by(4).filter(|at| at % 512 < 508) {
            let (mut changed, check) = (file.clone(), at / 512 * 512 + 508);
            for place in [at, check] {
                let word = u32::from_le_bytes(file[place..place + 4].try_into().unwrap()).wrapping_add(1);
                changed[place..place + 4].copy_from_slice(&word.to_le_bytes());
            }
            assert_eq!(refused(area, kind, &changed), Refusal::Departure, "byte {at}");
        }
    }
}

#[test]
fn a_card_of_another_area_or_kind_is_refused() {
    let area = Area::new(4, 6);
    let file = card(area, Kind::ByNumber, &filled(area, Kind::ByNumber));
    assert_eq!(refused(area, Kind::BySquare, &file), Refusal::Departure);
    for (w, h) in [(6, 4), (3, 8), (24, 1), (4, 5)] {
        assert_eq!(refused(Area::new(w, h), Kind::ByNumber, &file), Refusal::Departure, "{w} by {h}");
    }
    // Of a single square both tables are one, and both cards hold it.
    let square = Area::new(1, 1);
    assert_eq!(refused(square, Kind::BySquare, &card(square, Kind::ByNumber, &[0])), Refusal::Departure);
}

#[test]
fn only_a_right_table_is_written() {
    let area = Area::new(13, 10);
    for kind in KINDS {
        let mut table = filled(area, kind);
        for place in 0..table.len() {
            for change in [1, 1 << 31] {
                table[place] ^= change;
                assert_eq!(unwritten(area, kind, &table, 1536), Refusal::Departure, "place {place}");
                table[place] ^= change;
            }
        }
    }
    assert_eq!(unwritten(area, Kind::BySquare, &filled(area, Kind::ByNumber), 1536), Refusal::Departure);
}

// A wrong length comes before a wrong table, a bad check and a departure.
#[test]
fn lengths_come_first() {
    let (area, wrong) = (Area::new(3, 4), [9; 13]);
    let table = filled(area, Kind::ByNumber);
    for bytes in [0, 512, 1023, 1025, 1536] {
        assert_eq!(unwritten(area, Kind::ByNumber, &table, bytes), Refusal::TableLength, "{bytes} bytes");
        assert_eq!(unwritten(area, Kind::ByNumber, &wrong[1..], bytes), Refusal::TableLength, "{bytes} bytes");
    }
    for places in [0, 11, 13] {
        assert_eq!(unwritten(area, Kind::ByNumber, &wrong[..places], 1024), Refusal::TableLength, "{places} places");
        for file in [&card(area, Kind::ByNumber, &table)[..], &[0; 512], &[0; 3]] {
            let mut lent = vec![7; places];
            assert_eq!(area.read_card(Kind::ByNumber, file, &mut lent), Err(Refusal::TableLength), "{places} places");
            assert_eq!(lent, vec![7; places]);
        }
    }
}
