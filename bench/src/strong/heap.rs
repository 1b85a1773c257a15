//! A heap of numbers, the least first, in which each has four below it. The four stand side by
//! side, mostly in one cache line, and the heap is half as deep as a binary one.

const BELOW: usize = 4;

#[derive(Default)]
pub struct Heap {
    keys: Vec<u128>,
}

impl Heap {
    pub fn clear(&mut self) {
        self.keys.clear();
    }

    pub fn push(&mut self, key: u128) {
        let end = self.keys.len();
        self.keys.push(key);
        self.raise(end, key);
    }

    pub fn pop(&mut self) -> Option<u128> {
        let last = self.keys.pop()?;
        let Some(&least) = self.keys.first() else {
            return Some(last);
        };
        let hole = self.sink_hole();
        self.raise(hole, last);
        Some(least)
    }

    /// Moves the hole at the top to the bottom, along the least keys. The key that will fill it
    /// comes from the bottom and seldom rises far again.
    fn sink_hole(&mut self) -> usize {
        let keys = &mut self.keys[..];
        let mut hole = 0;
        loop {
            let first = BELOW * hole + 1;
            if first >= keys.len() {
                return hole;
            }
            let least = match keys.get(first..first + BELOW) {
                Some(group) => first + least_of_four(group),
                None => first + least_of(&keys[first..]),
            };
            keys[hole] = keys[least];
            hole = least;
        }
    }

    /// Puts a key into a hole, or above it.
    fn raise(&mut self, mut hole: usize, key: u128) {
        let keys = &mut self.keys[..];
        while hole > 0 {
            let above = (hole - 1) / BELOW;
            if keys[above] <= key {
                break;
            }
            keys[hole] = keys[above];
            hole = above;
        }
        keys[hole] = key;
    }
}

/// The index of the least, by two comparisons side by side and a third.
fn least_of_four(group: &[u128]) -> usize {
    let low = usize::from(group[1] < group[0]);
    let high = 2 + usize::from(group[3] < group[2]);
    if group[high] < group[low] {
        high
    } else {
        low
    }
}

fn least_of(group: &[u128]) -> usize {
    let mut least = 0;
    for index in 1..group.len() {
        if group[index] < group[least] {
            least = index;
        }
    }
    least
}
