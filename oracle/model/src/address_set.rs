//! Document 01, "Scopes": "An address set ignores a repeated insert; a removed and reinserted address goes to the end."

/// Each address that is there has the number of its insert, and the order is that of the numbers.
#[derive(Clone, Default)]
pub struct AddressSet {
    /// by address; 0 where it isn't there
    numbers: Vec<usize>,
    inserts: usize,
}

impl AddressSet {
    pub fn contains(&self, address: usize) -> bool {
        self.numbers.get(address).is_some_and(|n| *n > 0)
    }

    pub fn insert(&mut self, address: usize) {
        self.inserts += 1;
        self.insert_numbered(address, self.inserts);
    }

    /// At a place of its own, which only a planted fault asks for.
    pub fn insert_sorted(&mut self, address: usize) {
        self.insert_numbered(address, address + 1);
    }

    fn insert_numbered(&mut self, address: usize, number: usize) {
        if self.numbers.len() <= address {
            self.numbers.resize(address + 1, 0);
        }
        if self.numbers[address] == 0 {
            self.numbers[address] = number;
        }
    }

    /// Was it there?
    pub fn remove(&mut self, address: usize) -> bool {
        let there = self.contains(address);
        if there {
            self.numbers[address] = 0;
        }
        there
    }

    pub fn in_order(self) -> Vec<usize> {
        let addresses = 0..self.numbers.len();
        let mut there: Vec<usize> = addresses.filter(|a| self.numbers[*a] > 0).collect();
        there.sort_unstable_by_key(|a| self.numbers[*a]);
        there
    }
}
