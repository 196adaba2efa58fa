//! The tables of answers that crates/worked_cases replays without Rust; their lines are told in crates/replay/src/lib.rt. The answers are the
//! reference's but for lines that end in one more field, the word `standard`: there document 02, point 2 touches the operands, and the answer is
//! worked out in [`standard`](super::standard).
mod bits;
mod operators;
mod text;

use super::draw::Rng;
use super::Vector;

/// The widths of an entry's lines: few bits and about a word, each once; some about two words and three; then few bits again.
fn widths(rng: &mut Rng) -> Vec<u32> {
    let mut all: Vec<u32> = (0..=5).chain(31..=33).chain(63..=66).collect();
    all.extend((0..3).map(|_| rng.choose(&[127, 128, 129, 130, 192])));
    all.extend((0..24).map(|_| 1 + rng.below(5) as u32));
    all
}

/// What stands in the planes lent for a result: other bits than its own, up to a little above its width or to the planes' end.
fn stood(rng: &mut Rng, result: &Vector) -> Vector {
    let Vector { header, value, unknown } = result;
    let end = value.len() as u32 * 64;
    let reach = rng.choose(&[3, 3, 3, 3, 3, 3, 3, 64]).min(end - header.width) + header.width;
    loop {
        let mut v = rng.vector(reach);
        v.header.width = header.width;
        if v.value != *value || v.unknown != *unknown {
            return v;
        }
    }
}

/// The tables by their names in crates/worked_cases/data/answers.
pub const TABLES: [&str; 4] = ["bits", "constructors", "vectors", "answer_bits"];

/// Each table: fewer than 65,536 bytes, which is what the program reads.
pub fn tables() -> [String; 4] {
    let mut rng = Rng::new(0x616e_7377_6572);
    let [mut bits, mut made, mut vectors, mut answers] = [const { Vec::new() }; 4];
    bits::lines(&mut rng, &mut bits, &mut made);
    operators::vector_lines(&mut rng, &mut vectors);
    operators::bit_lines(&mut rng, &mut answers);
    operators::signed_lines(&mut rng, &mut vectors);
    [bits, made, vectors, answers].map(|lines| lines.iter().map(|line| format!("{line}\n")).collect())
}
