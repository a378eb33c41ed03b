//! Level tables and the reported level.

const MOST_LEVELS: usize = 16;

/// A valid level table.
pub struct LevelTable<'a> {
    count: usize,
    joins: &'a [u8],
    bottom: u8,
}

impl<'a> LevelTable<'a> {
    /// `None` when the table is not valid.
    pub fn read(bytes: &'a [u8]) -> Option<LevelTable<'a>> {
        let (&count, joins) = bytes.split_first()?;
        let count = usize::from(count);
        if count == 0 || count > MOST_LEVELS || joins.len() != count * count {
            return None;
        }
        if joins.iter().any(|&entry| usize::from(entry) >= count) {
            return None;
        }
        let mut table = LevelTable { count, joins, bottom: 0 };
        if !(table.is_idempotent() && table.is_commutative() && table.is_associative()) {
            return None;
        }
        table.bottom = table.find_bottom()?;
        Some(table)
    }

    /// Whether there is such a level.
    pub fn holds(&self, level: u8) -> bool {
        usize::from(level) < self.count
    }

    pub fn join(&self, a: u8, b: u8) -> u8 {
        self.joins[usize::from(a) * self.count + usize::from(b)]
    }

    /// Bottom joined with the levels of the parameters in the result set.
    pub fn reported(&self, result: u8, levels: &[u8]) -> u8 {
        levels
            .iter()
            .enumerate()
            .filter(|(parameter, _)| result & (1 << parameter) != 0)
            .fold(self.bottom, |joined, (_, &level)| self.join(joined, level))
    }

    fn levels(&self) -> std::ops::Range<u8> {
        0..self.count as u8
    }

    fn is_idempotent(&self) -> bool {
        self.levels().all(|a| self.join(a, a) == a)
    }

    fn is_commutative(&self) -> bool {
        self.levels().all(|a| (0..a).all(|b| self.join(a, b) == self.join(b, a)))
    }

    fn is_associative(&self) -> bool {
        self.levels().all(|a| {
            self.levels().all(|b| {
                let ab = self.join(a, b);
                self.levels().all(|c| self.join(ab, c) == self.join(a, self.join(b, c)))
            })
        })
    }

    fn find_bottom(&self) -> Option<u8> {
        self.levels().find(|&a| self.levels().all(|b| self.join(a, b) == b))
    }
}
