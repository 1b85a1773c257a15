//! Chain making.

use crate::mapcheck::map_without_chains;
use crate::reply::*;

pub fn make_chains(bytes: &mut [u8]) -> Reply {
    match map_without_chains(bytes) {
        Ok(mut map) => {
            map.link_chains();
            bytes.copy_from_slice(&map.bytes());
            Reply::success(0, 0)
        }
        Err(refused) => refused,
    }
}
