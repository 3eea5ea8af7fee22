//! The marks of the pieces that would fall, as the writers tell them.

/// How many words are lent for the marks.
pub const WORDS: usize = 16;

/// One bit for each piece, sixty-four to a word, the lowest piece in the lowest bit; and how many are set.
#[derive(Clone, Debug, Default, PartialEq)]
pub struct Fallen {
    pub words: [u64; WORDS],
    pub count: u16,
}

impl Fallen {
    pub fn of(pieces: &[u16]) -> Fallen {
        let mut words = [0; WORDS];
        for &piece in pieces {
            words[piece as usize / 64] |= 1 << (piece % 64);
        }
        let count = pieces.len() as u16;
        Fallen { words, count }
    }

    pub fn has(&self, piece: u16) -> bool {
        self.words[piece as usize / 64] >> (piece % 64) & 1 == 1
    }
}
