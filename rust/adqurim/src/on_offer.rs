//! Which values could stand where an order or a plan has a wrong one.

use crate::refusal::{Refusal, Rule};
use crate::words::BYTES_OF_TASK;
use crate::Ending;
use std::ops::RangeInclusive;

/// What runs an order or a plan of a file.
type Entry = fn(&[u8], &[u8]) -> Result<Ending, Refusal>;

impl Refusal {
    /// The values on offer where an order has a wrong one (34) or a plan (41), given that order or
    /// plan: from a Pick's lowest to its highest, 0 alone where there is no Pick. None of any other
    /// refusal, and none if this file and these bytes are not refused so.
    ///
    /// The proved entries say it: each value is tried in place of the wrong one.
    ///
    /// ```
    /// let text = b"window 1\nstart 0 0 0 0 0 0 0 0\ntask 1 1 0\npick 0 6 3\nend\n";
    /// let file = adqurim::text_to_file(text).unwrap();
    /// let refusal = adqurim::replay(&file, &[2, 0]).unwrap_err();
    /// let says = refusal.in_order(&[2, 0]).to_string();
    /// assert_eq!(says, "step 0: value 2 is not on offer (34 OFFER)");
    /// assert_eq!(refusal.on_offer(&file, &[2, 0]), Some(3..=6));
    /// ```
    pub fn on_offer(self, file: &[u8], bytes: &[u8]) -> Option<RangeInclusive<u8>> {
        let place = usize::try_from(self.place).ok()?;
        let (before, wrong) = (bytes.get(..place)?, *bytes.get(place)?);
        // A step's byte has its task beside the value.
        let (entry, task): (Entry, u8) = match self.rule()? {
            Rule::Offer => (crate::replay, wrong / BYTES_OF_TASK),
            Rule::Value => (crate::check_plan, 0),
            _ => return None,
        };
        // What comes after the place has no part in a refusal there.
        let refused = |byte: u8| entry(file, &[before, &[byte]].concat()) == Err(self);
        let on_offer = |value: &u8| !refused(BYTES_OF_TASK * task + value);
        let mut values = (0..BYTES_OF_TASK).filter(on_offer);
        let lowest = values.next().filter(|_| refused(wrong))?;
        Some(lowest..=values.next_back().unwrap_or(lowest))
    }
}
