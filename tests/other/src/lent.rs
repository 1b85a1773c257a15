//! Lent runs of bytes or words, watched for writing where nobody may write.

/// A lent run with a margin on either side that nobody may touch.
pub struct Lent<T> {
    all: Vec<T>,
    before: Vec<T>,
}

const MARGIN: usize = 8;

impl<T: Copy + PartialEq> Lent<T> {
    pub fn new(content: &[T], mark: T) -> Lent<T> {
        let mut all = vec![mark; MARGIN];
        all.extend(content);
        all.extend([mark; MARGIN]);
        Lent {
            before: all.clone(),
            all,
        }
    }

    pub fn content(&mut self) -> &mut [T] {
        let end = self.all.len() - MARGIN;
        &mut self.all[MARGIN..end]
    }

    pub fn is_unchanged(&self) -> bool {
        self.all == self.before
    }

    pub fn margins_kept(&self) -> bool {
        let end = self.all.len() - MARGIN;
        self.all[..MARGIN] == self.before[..MARGIN] && self.all[end..] == self.before[end..]
    }
}
