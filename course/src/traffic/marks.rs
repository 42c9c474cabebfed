//! Indices met at an instant, each once.

pub struct Marks {
    list: Vec<usize>,
    marked: Vec<bool>,
}

impl Marks {
    pub fn new(count: usize) -> Marks {
        Marks {
            list: Vec::new(),
            marked: vec![false; count],
        }
    }

    pub fn add(&mut self, index: usize) {
        if !self.marked[index] {
            self.marked[index] = true;
            self.list.push(index);
        }
    }

    pub fn take(&mut self) -> Vec<usize> {
        for &index in &self.list {
            self.marked[index] = false;
        }
        std::mem::take(&mut self.list)
    }
}
