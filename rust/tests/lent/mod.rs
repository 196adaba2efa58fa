//! A plane that is lent between guard words, so that a write beside it shows.

const BEFORE: u64 = 0x5a5a_5a5a_5a5a_5a5a;
const BEHIND: u64 = 0xa5a5_a5a5_a5a5_a5a5;

pub struct Lent {
    words: Vec<u64>,
}

impl Lent {
    pub fn new(plane: &[u64]) -> Lent {
        Lent {
            words: [&[BEFORE], plane, &[BEHIND]].concat(),
        }
    }

    pub fn plane(&mut self) -> &mut [u64] {
        let end = self.words.len() - 1;
        &mut self.words[1..end]
    }

    /// The plane as the call left it, once the guard words are seen to stand.
    pub fn left(self) -> Vec<u64> {
        let end = self.words.len() - 1;
        assert_eq!(
            (self.words[0], self.words[end]),
            (BEFORE, BEHIND),
            "a word beside the lent plane was written"
        );
        self.words[1..end].to_vec()
    }
}
