//! Texts with a fault: refused by 6 exactly where the strict reader finds no list, and otherwise run as what they became.
use crate::alike::Runs;
use crate::draws::Draws;
use vowherunga::reference::draw::Rng;
use vowherunga::reference::steps::{List, Shape};

/// Bytes that a list is made of, and some that look much alike.
const BYTES: &[u8] = b"0123456789=xzusfXZUSF -+_abcdeilnoprtwqknhmg\n\r\t\0\x80\xff";

/// One byte replaced, left out, put in, or moved by one; or all from some byte on left out.
fn damage_byte(rng: &mut Rng, text: &mut Vec<u8>) {
    let i = rng.below(text.len() as u64) as usize;
    match rng.below(8) {
        0..=3 => text[i] = rng.choose(BYTES),
        4 => drop(text.remove(i)),
        5 => text.insert(i, rng.choose(BYTES)),
        6 if i > 0 => text.swap(i - 1, i),
        6 => text.push(rng.choose(BYTES)),
        _ => text.truncate(i),
    }
}

/// One line left out, doubled, or changed for the next or for a drawn one.
fn damage_line(rng: &mut Rng, text: &mut Vec<u8>) {
    let mut lines: Vec<Vec<u8>> = text.split_inclusive(|byte| *byte == b'\n').map(<[u8]>::to_vec).collect();
    let i = rng.below(lines.len() as u64) as usize;
    let numbers = [
        "0",
        "00",
        "01",
        "1",
        "2",
        "64",
        "65",
        "256",
        "257",
        "4096",
        "4097",
        "4294967295",
        "4294967296",
        "99999999999999999999",
        "",
    ];
    match rng.below(4) {
        0 => drop(lines.remove(i)),
        1 => lines.insert(i, lines[i].clone()),
        2 if i > 0 => lines.swap(i - 1, i),
        _ => {
            let key = lines[i].iter().position(|byte| *byte == b'=').unwrap();
            lines[i].truncate(key + 1);
            lines[i].extend_from_slice(rng.choose(&numbers).as_bytes());
            lines[i].push(b'\n');
        }
    }
    *text = lines.concat();
}

#[test]
fn damaged_texts() {
    let mut draws = Draws::new(40_000, 52);
    let mut runs = Runs::new();
    let mut accepted = 0;
    for k in 0..draws.count {
        let rng = &mut draws.rng;
        let shape = Shape::short(rng);
        let drawn = rng.list(&shape);
        let mut text = drawn.list.text().into_bytes();
        match k % 4 {
            0 => damage_line(rng, &mut text),
            _ => damage_byte(rng, &mut text),
        }
        let memory = rng.memory([drawn.words + 8; 2], [drawn.largest + 1; 2]);
        let left = runs.compare(&text, &memory);
        let is_list = List::read(&text).is_some();
        assert_eq!(left.output == "refused=6\nstep=0\n", !is_list);
        accepted += usize::from(is_list);
    }
    assert!(accepted > draws.share(1_000), "{accepted} damaged texts are still lists");
    runs.expect(&draws.endings([("refused=6", 20_000)]));
}

/// Every byte of a list replaced by every other byte.
#[test]
fn each_byte_by_each_other() {
    let text = b"inputs=2\nsteps=2\nwidth=2\nkind=s\nbits=1x\nwidth=1\nkind=f\nbits=z\nop=ins\na=0\nb=1\nc=10\nop=rxor\na=2\nb=0\nc=0\n";
    let mut rng = Rng::new(53);
    let mut runs = Runs::new();
    let memory = rng.memory([4; 2], [1; 2]);
    for i in 0..text.len() {
        for byte in 0..=u8::MAX {
            let mut damaged = text.to_vec();
            damaged[i] = byte;
            runs.compare(&damaged, &memory);
        }
    }
    runs.expect(&[("refused=6", 20_000), ("done", 100)]);
}
