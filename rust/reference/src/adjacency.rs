//! Lists of numbers, one list for each of a row of numbers, in one piece.

pub struct Adjacency {
    /// List i is `items[starts[i]..starts[i + 1]]`.
    starts: Vec<u32>,
    items: Vec<u32>,
}

impl Adjacency {
    /// `count` lists from pairs (list, item); a list keeps the pairs' sequence.
    pub fn new(count: usize, pairs: impl Iterator<Item = (usize, usize)> + Clone) -> Self {
        let mut starts = vec![0; count + 2];
        for (list, _) in pairs.clone() {
            starts[list + 2] += 1;
        }
        for list in 2..starts.len() {
            starts[list] += starts[list - 1];
        }
        // starts[list + 1] is where list's next item goes; at the end, where it ends.
        let mut items = vec![0; starts[count + 1] as usize];
        for (list, item) in pairs {
            items[starts[list + 1] as usize] = item as u32;
            starts[list + 1] += 1;
        }
        Adjacency { starts, items }
    }

    pub fn of(&self, list: usize) -> &[u32] {
        &self.items[self.starts[list] as usize..self.starts[list + 1] as usize]
    }
}
