//! The answer of an exported function, and what it says. The engine is proved to answer as is asserted here.

use crate::refusal::Refusal;

/// The answer of every exported function, as the archive returns it.
#[repr(C)]
#[derive(Clone, Copy, Debug, PartialEq, Eq)]
pub struct Answer {
    pub number: u32,
    pub place: u64,
    pub first: u64,
    pub second: u64,
    pub third: u64,
}

impl Answer {
    /// The three values where the work is done. A refusal has none, and work that is done has no place.
    pub fn three_values(self) -> Result<(u64, u64, u64), Refusal> {
        let values = (self.first, self.second, self.third);
        if self.number == 0 {
            assert_eq!(self.place, 0, "work that is done has no place: {self:?}");
            return Ok(values);
        }
        assert_eq!(values, (0, 0, 0), "a refusal has no values: {self:?}");
        Err(Refusal { number: self.number, place: self.place })
    }

    /// The two values.
    pub fn values(self) -> Result<(u64, u64), Refusal> {
        let (first, second, third) = self.three_values()?;
        assert_eq!(third, 0, "two values: {self:?}");
        Ok((first, second))
    }

    /// The one value.
    pub fn value(self) -> Result<u64, Refusal> {
        let (first, second) = self.values()?;
        assert_eq!(second, 0, "one value: {self:?}");
        Ok(first)
    }

    /// No value.
    pub fn nothing(self) -> Result<(), Refusal> {
        assert_eq!(self.value()?, 0, "no value: {self:?}");
        Ok(())
    }

    /// Yes or no.
    pub fn truth(self) -> Result<bool, Refusal> {
        let first = self.value()?;
        assert!(first < 2, "0 or 1: {self:?}");
        Ok(first == 1)
    }
}
