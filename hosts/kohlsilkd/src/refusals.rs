//! How often the engine has refused a call, by number.
use kohlsilk::Refusal;
use std::collections::BTreeMap;

#[derive(Default)]
pub struct Refusals(BTreeMap<u32, (Refusal, u64)>);

impl Refusals {
    pub fn count(&mut self, refusal: Refusal) {
        self.0.entry(refusal.number()).or_insert((refusal, 0)).1 += 1;
    }

    /// Each refusal that there was, by its number, and how often.
    pub fn all(&self) -> Vec<(Refusal, u64)> {
        self.0.values().copied().collect()
    }
}

#[cfg(test)]
mod tests {
    use super::*;

    #[test]
    fn by_number() {
        let mut refusals = Refusals::default();
        for refusal in [Refusal::WAIT_ZERO, Refusal::TABLE_FULL, Refusal::WAIT_ZERO] {
            refusals.count(refusal);
        }
        assert_eq!(refusals.all(), [(Refusal::TABLE_FULL, 1), (Refusal::WAIT_ZERO, 2)]);
    }
}
