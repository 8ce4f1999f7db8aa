//! Buffers lent to a call: rubbish before it, so that a word left alone, a word zeroed and a word written can be told apart.

/// Words past a lent buffer's end that no call may touch.
const MARGIN: usize = 8;

/// A kind of word that a buffer may hold.
pub trait Word: Copy + PartialEq {
    fn narrow(word: u64) -> Self;
    fn wide(self) -> u64;
}

impl Word for u32 {
    fn narrow(word: u64) -> u32 {
        word as u32
    }
    fn wide(self) -> u64 {
        u64::from(self)
    }
}

impl Word for u64 {
    fn narrow(word: u64) -> u64 {
        word
    }
    fn wide(self) -> u64 {
        self
    }
}

/// A buffer of `len` words, then the margin. The rubbish follows from the salt, so no copy of it is kept.
#[derive(Clone, Debug)]
pub struct Lent<T> {
    salt: u64,
    len: usize,
    words: Vec<T>,
}

impl<T: Word> Lent<T> {
    pub fn new(len: usize, salt: u64) -> Lent<T> {
        Lent { salt, len, words: (0..len + MARGIN).map(|i| rubbish(salt, i)).collect() }
    }

    pub fn len(&self) -> usize {
        self.len
    }

    pub fn is_empty(&self) -> bool {
        self.len == 0
    }

    /// The words lent, without the margin.
    pub fn words(&self) -> &[T] {
        &self.words[..self.len]
    }

    /// What a call gets: the start of the words. It may write `len` of them.
    pub fn start(&mut self) -> *mut T {
        self.words.as_mut_ptr()
    }

    /// Writes one word, as a call would.
    pub fn set(&mut self, index: usize, word: T) {
        self.words[index] = word;
    }

    /// Changes one word, of the buffer or of the margin: what a wrong call would do.
    pub fn disturb(&mut self, index: usize) {
        self.words[index] = T::narrow(self.words[index].wide() ^ 1);
    }

    /// Every word, the margin's too, is the rubbish it was.
    pub fn untouched(&self) -> Result<(), String> {
        self.rubbish_from(0)
    }

    /// The buffer starts with these words, holds zeros to its end, and the margin is untouched.
    pub fn holds(&self, begin: &[u64]) -> Result<(), String> {
        if begin.len() > self.len {
            return Err(format!("{} words are wanted in a buffer of {}", begin.len(), self.len));
        }
        let wanted = begin.iter().copied().chain(std::iter::repeat(0));
        match self.words().iter().zip(wanted).position(|(word, want)| word.wide() != want) {
            Some(i) => Err(format!("word {i} is {}, not {}", self.words[i].wide(), begin.get(i).unwrap_or(&0))),
            None => self.rubbish_from(self.len),
        }
    }

    fn rubbish_from(&self, first: usize) -> Result<(), String> {
        match (first..self.words.len()).find(|&i| self.words[i] != rubbish(self.salt, i)) {
            Some(i) => Err(format!("word {i} of {} was touched: {}", self.len, self.words[i].wide())),
            None => Ok(()),
        }
    }
}

/// A word that is never zero, different for each salt and index.
fn rubbish<T: Word>(salt: u64, index: usize) -> T {
    let mixed = (salt ^ index as u64).wrapping_mul(0x9e37_79b9_7f4a_7c15);
    T::narrow((mixed ^ mixed >> 32) | 1)
}

/// A lent buffer of either kind.
#[derive(Clone, Debug)]
pub enum Buffer {
    Narrow(Lent<u32>),
    Wide(Lent<u64>),
}

impl Buffer {
    /// What a call gets of a buffer of u32 words: where it starts, and how many it has.
    pub fn narrow(&mut self) -> (*mut u32, usize) {
        match self {
            Buffer::Narrow(lent) => (lent.start(), lent.len()),
            Buffer::Wide(_) => panic!("a buffer of u64 words"),
        }
    }

    /// What a call gets of a buffer of u64 words.
    pub fn wide(&mut self) -> (*mut u64, usize) {
        match self {
            Buffer::Wide(lent) => (lent.start(), lent.len()),
            Buffer::Narrow(_) => panic!("a buffer of u32 words"),
        }
    }

    pub fn len(&self) -> usize {
        match self {
            Buffer::Narrow(lent) => lent.len(),
            Buffer::Wide(lent) => lent.len(),
        }
    }

    pub fn is_empty(&self) -> bool {
        self.len() == 0
    }

    pub fn untouched(&self) -> Result<(), String> {
        match self {
            Buffer::Narrow(lent) => lent.untouched(),
            Buffer::Wide(lent) => lent.untouched(),
        }
    }

    pub fn holds(&self, begin: &[u64]) -> Result<(), String> {
        match self {
            Buffer::Narrow(lent) => lent.holds(begin),
            Buffer::Wide(lent) => lent.holds(begin),
        }
    }

    pub fn disturb(&mut self, index: usize) {
        match self {
            Buffer::Narrow(lent) => lent.disturb(index),
            Buffer::Wide(lent) => lent.disturb(index),
        }
    }
}
