//! Every operation as one value, so that any implementation can stand beside this one. A
//! library's C functions need only thin functions over slices and one `Operations` of them.

use crate::moves::Document;
use crate::planning::plan;
use crate::replay::replay;
use crate::reply::Reply;
use crate::{chains, mapcheck, names, order, retiming, striking};

/// The reply, and the name's offset in the map and its length; both 0 beside a refusal.
pub type NameAnswer = (Reply, usize, usize);

/// Takes map, order, ban list, label words and sheet.
pub type PlanFunction = fn(&[u8], &[u8], &[u32], &mut [u32], &mut [u8]) -> Reply;

/// Takes map, order, ban list, road, label words and sheet. The map is only read; whoever writes it all the same shall be seen.
pub type PreviewFunction = fn(&mut [u8], &[u8], &[u32], u32, &mut [u32], &mut [u8]) -> Reply;

/// Takes map, order, ban list, sheet and the other sheet.
pub type RetimeFunction = fn(&[u8], &[u8], &[u32], &[u8], &mut [u8]) -> Reply;

/// Takes map, order, ban list and sheet.
pub type AuditFunction = fn(&[u8], &[u8], &[u32], &[u8]) -> Reply;

/// Takes order, ban list, J and R.
pub type CheckOrderFunction = fn(&[u8], &[u32], u32, u32) -> Reply;

/// Words 6 to 13 of an order.
pub type LentRules = [u32; 8];

/// Words 4, 5 and 14 of an order, and the mark: 1 with it, 0 without.
pub type LentFigures = [u32; 4];

/// Takes trace, rules and figures.
pub type ReplayFunction = fn(&[u8], LentRules, &mut LentFigures) -> Reply;

#[derive(Clone, Copy)]
pub struct Operations {
    pub check_map: fn(map: &[u8]) -> Reply,
    pub check_order: CheckOrderFunction,
    pub plan: PlanFunction,
    pub retime: RetimeFunction,
    pub audit: AuditFunction,
    pub name: fn(map: &[u8], junction: u32) -> NameAnswer,
    pub make_chains: fn(map: &mut [u8]) -> Reply,
    pub replay: ReplayFunction,
    pub strike: fn(map: &mut [u8], road: u32) -> Reply,
    pub preview: PreviewFunction,
}

/// The documents' operations, as written here.
pub const DOCUMENT: Operations = Operations {
    check_map: mapcheck::check_map,
    check_order: order::check_order,
    plan: plan::<Document>,
    retime: retiming::retime::<Document>,
    audit: retiming::audit::<Document>,
    name: names::name,
    make_chains: chains::make_chains,
    replay: replay::<Document>,
    strike: striking::strike,
    preview: |map, order, bans, road, labels, sheet| {
        striking::preview(map, order, bans, road, labels, sheet)
    },
};
