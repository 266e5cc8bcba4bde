//! Every kind of damage to an image, with what it must meet.

use super::broken::BROKEN;
use super::damage::{CODES, OnBytes, TO_BYTES, UNKNOWN};
use super::kept::KEPT;
use super::{Image, OnImage};
use crate::random::Random;

/// The codes and the bytes of an image, refused as they are read.
const IMAGE: u16 = 12;
/// The rules for states.
const NOT_WELL_FORMED: u16 = 10;

#[derive(Clone, Copy)]
enum Change {
    Apart(OnImage),
    Bytes(OnBytes),
}

/// A kind of damage.
#[derive(Clone, Copy)]
pub struct Kind {
    pub name: &'static str,
    /// The refusal that it must meet, none where it must be accepted; not known where only running shows it.
    pub known: Option<Option<u16>>,
    change: Change,
}

impl Kind {
    /// The image's bytes after this damage; none where it has nothing of the kind.
    pub fn damage(&self, image: &Image, random: &mut Random) -> Option<Vec<u8>> {
        match self.change {
            Change::Apart(change) => {
                let mut changed = image.clone();
                change(random, &mut changed)?;
                Some(changed.encode())
            }
            Change::Bytes(change) => {
                let bytes = image.encode();
                let mut changed = bytes.clone();
                change(random, &mut changed);
                (changed != bytes).then_some(changed)
            }
        }
    }
}

pub fn kinds() -> Vec<Kind> {
    let apart = |known: Option<u16>| {
        move |(name, change): &(&'static str, OnImage)| Kind { name, known: Some(known), change: Change::Apart(*change) }
    };
    let bytes = |known: Option<Option<u16>>| {
        move |(name, change): &(&'static str, OnBytes)| Kind { name, known, change: Change::Bytes(*change) }
    };
    let refused = CODES.iter().map(apart(Some(IMAGE))).chain(BROKEN.iter().map(apart(Some(NOT_WELL_FORMED))));
    let on_bytes = TO_BYTES.iter().map(bytes(Some(Some(IMAGE)))).chain(UNKNOWN.iter().map(bytes(None)));
    refused.chain(KEPT.iter().map(apart(None))).chain(on_bytes).collect()
}
