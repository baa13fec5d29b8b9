//! The queue of pending events: a binary heap of tips with the place of each and its key, as in the proved crate `heap`.

/// When an event leaves: at num / den; among those of one time by `late`, then by the tip's id.
#[derive(Clone, Copy)]
pub struct Key {
    pub num: i64,
    pub den: i64,
    pub late: u8,
    pub id: u16,
}

impl Key {
    pub fn leaves_before(&self, other: &Key) -> bool {
        let (a, b) = (self.num * other.den, other.num * self.den);
        a < b || a == b && (self.late, self.id) < (other.late, other.id)
    }
}

pub const NO_KEY: Key = Key { num: 0, den: 1, late: 0, id: 0 };

pub struct Queue<'a> {
    heap: &'a mut [usize; 256],
    place: &'a mut [usize; 256],
    keys: &'a mut [Key; 256],
    length: usize,
}

impl<'a> Queue<'a> {
    /// With no event pending.
    pub fn new(heap: &'a mut [usize; 256], place: &'a mut [usize; 256], keys: &'a mut [Key; 256]) -> Queue<'a> {
        Queue { heap, place, keys, length: 0 }
    }

    pub fn key(&self, tip: usize) -> Key {
        self.keys[tip]
    }

    fn earlier(&self, a: usize, b: usize) -> bool {
        self.keys[a].leaves_before(&self.keys[b])
    }

    fn exchange(&mut self, i: usize, k: usize) {
        self.heap.swap(i, k);
        self.place[self.heap[i]] = i;
        self.place[self.heap[k]] = k;
    }

    fn sift_up(&mut self, at: usize) {
        let mut i = at;
        while 0 < i {
            let parent = (i - 1) / 2;
            if !self.earlier(self.heap[i], self.heap[parent]) {
                return;
            }
            self.exchange(i, parent);
            i = parent;
        }
    }

    fn sift_down(&mut self, at: usize) {
        let mut i = at;
        while i < self.length / 2 {
            let (left, right) = (2 * i + 1, 2 * i + 2);
            let right_first = right < self.length && self.earlier(self.heap[right], self.heap[left]);
            let child = if right_first { right } else { left };
            if !self.earlier(self.heap[child], self.heap[i]) {
                return;
            }
            self.exchange(i, child);
            i = child;
        }
    }

    /// Tip, which has no pending event, gets one.
    pub fn push(&mut self, tip: usize, key: Key) {
        self.keys[tip] = key;
        self.heap[self.length] = tip;
        self.place[tip] = self.length;
        self.length += 1;
        self.sift_up(self.length - 1);
    }

    /// The tip whose event leaves first.
    pub fn pop(&mut self) -> Option<usize> {
        if self.length == 0 {
            return None;
        }
        let tip = self.heap[0];
        self.length -= 1;
        self.exchange(0, self.length);
        self.place[tip] = 256;
        self.sift_down(0);
        Some(tip)
    }

    /// Tip's pending event is replaced by one that does not leave after it.
    pub fn lower(&mut self, tip: usize, key: Key) {
        self.keys[tip] = key;
        self.sift_up(self.place[tip]);
    }
}
