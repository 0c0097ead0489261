//! Faults in tables: each one is small, and two of them try the order of refusals.

mod records;
mod rules;

use usm::Tables;

use crate::random::Random;

/// Makes one fault. Some choices leave a small sheet as it is, and some changes are
/// harmless: the model knows.
pub fn one(random: &mut Random, tables: &mut Tables) {
    match random.below(14) {
        0 => records::wrong_size(random, tables),
        1 | 2 => records::out_of_range(random, tables),
        3 => rules::numbering(random, tables),
        4..=6 => rules::other_terms(random, tables),
        7 => rules::other_group(random, tables),
        8 => rules::doubled_series(random, tables),
        9 => records::whole_record(random, tables),
        10 => rules::unplace(random, tables),
        11 => rules::other_claim(random, tables),
        12 => rules::other_mark(random, tables),
        _ => records::at_the_limit(random, tables),
    }
}
