//! Numbers that look random and follow from a seed (splitmix64).

pub struct Random(u64);

impl Random {
    pub fn new(seed: u64) -> Random {
        Random(seed)
    }

    fn next(&mut self) -> u64 {
        self.0 = self.0.wrapping_add(0x9E37_79B9_7F4A_7C15);
        let mut bits = self.0;
        bits = (bits ^ (bits >> 30)).wrapping_mul(0xBF58_476D_1CE4_E5B9);
        bits = (bits ^ (bits >> 27)).wrapping_mul(0x94D0_49BB_1331_11EB);
        bits ^ (bits >> 31)
    }

    /// Both ends may come.
    pub fn between(&mut self, least: i128, most: i128) -> i128 {
        least + i128::from(self.next()) % (most - least + 1)
    }

    /// Every magnitude is about as likely as any other.
    pub fn scaled(&mut self, least: i128, most: i128) -> i128 {
        let bits = i128::BITS - (most - least).leading_zeros();
        let reach = 1i128 << self.between(0, i128::from(bits));
        least + self.between(0, reach.min(most - least))
    }

    /// A place in something of this length, which is not 0.
    pub fn place(&mut self, length: usize) -> usize {
        self.between(0, length as i128 - 1) as usize
    }

    pub fn one_in(&mut self, chances: i128) -> bool {
        self.between(1, chances) == 1
    }

    pub fn pick<T: Copy>(&mut self, from: &[T]) -> T {
        from[self.place(from.len())]
    }

    pub fn byte(&mut self) -> u8 {
        self.next() as u8
    }

    pub fn shuffle<T>(&mut self, list: &mut [T]) {
        for end in (1..list.len()).rev() {
            list.swap(end, self.place(end + 1));
        }
    }

    /// Parts, none below 0, that add up to the total.
    pub fn parted(&mut self, total: i128, parts: usize) -> Vec<i128> {
        let mut cuts: Vec<i128> = (1..parts).map(|_| self.between(0, total)).collect();
        cuts.sort();
        cuts.push(total);
        let mut before = 0;
        cuts.into_iter().map(|cut| cut - std::mem::replace(&mut before, cut)).collect()
    }
}
