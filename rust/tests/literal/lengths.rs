//! Planes of another length than the size asks for: 5, after 15, and no plane changes.
use crate::draw::{Draw, BASES, EDGES};
use crate::evaluator;
use crate::read::reads;
use vowherunga::Refusal;

/// Lengths of two planes, one of which at least is not so many words.
fn wrong_lengths(words: usize) -> [[usize; 2]; 8] {
    [
        [words - 1, words],
        [words, words - 1],
        [words + 1, words],
        [words, words + 1],
        [words - 1, words + 1],
        [0, 0],
        [words + 1, words + 1],
        [words, 2 * words + 1],
    ]
}

#[test]
fn planes_of_other_lengths() {
    let mut draw = Draw::new(21);
    for size in EDGES {
        for base in BASES {
            let text = draw.literal(size, base);
            let want = evaluator::literal(&text).unwrap();
            reads(&text, [want.words(); 2], Ok(&want));
            for lengths in wrong_lengths(want.words()) {
                reads(&text, lengths, Err(Refusal::OutputLength));
                // 15 comes first
                for bad in [[b"0", &text[..]], [&text, b" "]] {
                    reads(&bad.concat(), lengths, Err(Refusal::BadLiteral));
                }
            }
        }
    }
}
