//! Where on the page a refusal stands.

use usm::{sentences, Form, Reason, Refusal, Sheet, Table, BLOCK_BYTES};

use super::table::Mark;

const HERE: Mark = Mark { class: "marked", says: "The refusal points here.", id: None };
const OF_GROUP: Mark = Mark { says: "The refusal is about this group.", ..HERE };
const EARLIER: Mark =
    Mark { class: "earlier", says: "This is the earlier leg that it does not go with.", id: None };

pub struct Marks {
    /// What the refusal leads to by a link, once.
    id: String,
    /// The record of a table that it points at.
    record: Option<(u64, usize)>,
    /// The record of the placement before it that it does not go with.
    earlier: Option<usize>,
    pub group: Option<u64>,
    pub block: Option<usize>,
}

impl Marks {
    /// The places of a refusal of a file, with the sheet in it where it can be read.
    pub fn of(name: &str, file: &[u8], refusal: &Refusal, sheet: Option<&Sheet>) -> Marks {
        let place = usize::try_from(refusal.place).ok();
        let mut marks =
            Marks { id: format!("{name}-here"), record: None, earlier: None, group: None, block: None };
        match refusal.reason() {
            // What has no block with a mark, a text say, is not shown as blocks.
            Some(Reason::ChecksDiffer | Reason::BlockOutOfForm | Reason::WrongAccount) => {
                let marked = file.chunks_exact(BLOCK_BYTES).any(|block| Form::of_block(block).is_some());
                marks.block = place.filter(|_| marked);
            }
            Some(Reason::NoLeg | Reason::CallUnitsUnequal | Reason::PutUnitsUnequal) => {
                marks.group = Some(refusal.place);
            }
            Some(Reason::ClaimNotMargin) => {
                marks.group = Some(refusal.place);
                let of_group = |sheet: &Sheet| {
                    sheet.claims.iter().position(|claim| u64::from(claim.group) == refusal.place)
                };
                marks.record = sheet.and_then(of_group).map(|claim| (refusal.table, claim));
            }
            _ => {
                marks.record = place.filter(|_| refusal.table > 0).map(|place| (refusal.table, place));
                marks.earlier = sheet.and_then(|sheet| sentences::earlier_leg(sheet, refusal));
            }
        }
        marks
    }

    /// The name of the place that a link leads to, if there is one.
    pub fn link(&self) -> Option<String> {
        let stands = self.record.is_some() || self.group.is_some() || self.block.is_some();
        stands.then(|| format!("#{}", self.id))
    }

    pub fn at_block(&self, block: usize) -> Option<Mark> {
        (self.block == Some(block)).then(|| Mark { id: Some(self.id.clone()), ..HERE })
    }

    pub fn at_record(&self, table: Table, place: usize) -> Option<Mark> {
        if self.record == Some((table.number(), place)) {
            // A group that is marked, too, has the link.
            let id = self.group.is_none().then(|| self.id.clone());
            return Some(Mark { id, ..HERE });
        }
        let earlier = table == Table::Placement && self.earlier == Some(place);
        earlier.then_some(EARLIER)
    }

    /// The name of a group's place: the link leads there where the refusal is about the group.
    pub fn at_group(&self, g: u64) -> Option<Mark> {
        (self.group == Some(g)).then(|| Mark { id: Some(self.id.clone()), ..OF_GROUP })
    }
}
