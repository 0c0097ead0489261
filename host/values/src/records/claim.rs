//! Claims.

use super::{u16_at, GREATEST_AMOUNT, MOST_CLAIMS, RECORD_BYTES};

/// One record of claims: a group and the margin the member claims for it.
#[derive(Clone, Copy, Debug, PartialEq, Eq, Hash)]
pub struct Claim {
    /// 1 to 32.
    pub group: u16,
    /// In mills.
    pub margin: i64,
}

impl Claim {
    /// The 32 bytes of the record. A negative margin makes bytes that are refused (4).
    pub fn to_bytes(&self) -> [u8; RECORD_BYTES] {
        let mut record = [0; RECORD_BYTES];
        record[0..2].copy_from_slice(&self.group.to_le_bytes());
        record[8..16].copy_from_slice(&self.margin.to_le_bytes());
        record
    }

    /// The claim in these 32 bytes, or none if a field is out of range.
    pub fn from_bytes(record: &[u8; RECORD_BYTES]) -> Option<Claim> {
        let margin: [u8; 8] = record[8..16].try_into().expect("eight bytes");
        let claim = Claim {
            group: u16_at(record, 0),
            // Above the signed range the number reads as negative, and is out of range too.
            margin: i64::from_le_bytes(margin),
        };
        let in_range = (1..=MOST_CLAIMS).contains(&usize::from(claim.group))
            && (0..=GREATEST_AMOUNT).contains(&claim.margin)
            && record[2..8].iter().chain(&record[16..]).all(|&byte| byte == 0);
        in_range.then_some(claim)
    }
}

#[cfg(test)]
mod tests {
    use super::*;

    #[test]
    fn a_claim_survives_its_bytes() {
        let claim = Claim { group: 1, margin: GREATEST_AMOUNT };
        assert_eq!(Claim::from_bytes(&claim.to_bytes()), Some(claim));
        assert_eq!(Claim::from_bytes(&Claim { margin: -1, ..claim }.to_bytes()), None);
        assert_eq!(Claim::from_bytes(&Claim { margin: GREATEST_AMOUNT + 1, ..claim }.to_bytes()), None);
    }
}
