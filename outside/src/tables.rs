//! Tables of ratings by length: the built-in one, and those of buyers.

use crate::arithmetic::{joints, product, ratings, Side, S, SIDES};
use crate::calls::number;
use crate::plans::Link;
use crate::random::Random;
use std::sync::{Arc, LazyLock};

/// How many values a table has.
pub const COUNT: usize = 512;

static RATINGS: LazyLock<Vec<u32>> = LazyLock::new(ratings);

/// What the lengths of a plan are rated by.
#[derive(Clone, Debug, PartialEq, Eq)]
pub enum Table {
    BuiltIn,
    Buyers(Arc<[u32]>),
}

impl Table {
    /// A buyer's table of these values.
    pub fn of(values: &[u32]) -> Table {
        Table::Buyers(values.into())
    }

    /// The table that the bytes mean, or rows 12 and 13.
    pub fn read(bytes: &[u8]) -> Result<Table, u64> {
        if bytes.is_empty() {
            return Ok(Table::BuiltIn);
        }
        if bytes.len() != 4 * COUNT {
            return Err(12);
        }
        let values: Vec<u32> = bytes.chunks(4).map(number).collect();
        let rises = values.windows(2).any(|pair| pair[0] < pair[1]);
        if values[0] != S || rises {
            return Err(13);
        }
        Ok(Table::of(&values))
    }

    /// A buyer's table that is accepted: straight down to 0, falling fast, by a few units or in steps, near the built-in one, or S up to
    /// some place.
    pub fn random(random: &mut Random) -> Table {
        let kind = random.below(6);
        let place = random.below(COUNT);
        let left = random.up_to(S.into()) as u32;
        let mut values = vec![S];
        for k in 1..COUNT {
            let before = values[k - 1];
            values.push(match kind {
                0 => S - (u64::from(S) * k as u64 / 511) as u32,
                1 => product(Side::Low, before, S - left / 10),
                2 => before - random.below(3) as u32,
                3 if random.below(20) > 0 => before,
                3 => random.up_to(before.into()) as u32,
                4 => product(Side::Low, before, S - left / 2_000),
                _ if k < place => S,
                _ => left,
            });
        }
        Table::of(&values)
    }

    /// A buyer's table of which each value tells its place: none is another's, nor the built-in one but for the first.
    pub fn telling() -> Table {
        let values: Vec<u32> = (0..COUNT as u32).map(|k| S - 1_234_567 * k).collect();
        Table::of(&values)
    }

    /// None of the built-in one.
    pub fn bytes(&self) -> Vec<u8> {
        match self {
            Table::BuiltIn => Vec::new(),
            Table::Buyers(values) => bytes(values),
        }
    }

    /// The ratings of all lengths.
    pub fn ratings(&self) -> &[u32] {
        match self {
            Table::BuiltIn => &RATINGS,
            Table::Buyers(values) => values,
        }
    }

    /// The rating of a length; none of a value in units.
    pub fn rating(&self, link: &Link) -> Option<u32> {
        let length = link.length()?;
        Some(self.ratings()[length as usize])
    }

    /// The low and the high value in units: of a length with its two joints, of a value in units that value.
    pub fn values(&self, link: &Link) -> [u32; 2] {
        match self.rating(link) {
            Some(rating) => SIDES.map(|side| joints(side, rating)),
            None => [link.value; 2],
        }
    }
}

/// The bytes of a table of these values, right or wrong.
pub fn bytes(values: &[u32]) -> Vec<u8> {
    values
        .iter()
        .flat_map(|value| value.to_le_bytes())
        .collect()
}

/// What is asked, and the table that it is asked under: no bytes for the built-in one.
#[derive(Clone, Copy, Debug)]
pub struct Under<'a, Asked> {
    pub asked: Asked,
    pub table: &'a [u8],
}
