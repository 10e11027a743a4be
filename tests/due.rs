// What the program `orders` should print for its standard input, by the independent reading of documents 01 and 02.
#[allow(dead_code)] // tables are not needed here
mod independent;

use independent::Reply;
use std::io::Read;

fn text(reply: Reply) -> String {
    match reply {
        Reply::Area { w, h, squares, x, y } => format!("AREA {w} {h} {squares} {x} {y}"),
        Reply::Origin { ox, oy } => format!("ORIGIN {ox} {oy}"),
        Reply::Cell { x, y, blocks } => format!("CELL {x} {y} {blocks}"),
        Reply::Number { number, blocks } => format!("NUMBER {number} {blocks}"),
        Reply::Refused(refusal) => format!("REFUSED {refusal}"),
    }
}

fn main() {
    let mut input = Vec::new();
    std::io::stdin().read_to_end(&mut input).expect("standard input can be read");
    let mut lines: Vec<&[u8]> = input.split(|&b| b == b'\n').collect();
    if lines.last().is_some_and(|last| last.is_empty()) {
        lines.pop();
    }
    let mut area = None;
    for (i, line) in lines.into_iter().enumerate() {
        if i + 1 == 65536 {
            println!("65536 STOP");
            return;
        }
        let reply;
        (reply, area) = independent::answered(line, area);
        println!("{} {}", i + 1, text(reply));
    }
}
