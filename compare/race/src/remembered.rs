//! The completed IDs that calls met: at which place a packet's ID was among them, how many there were, and what was wrong
//! with them. Places count from 1, the newest. Answers to the rules J4, J10, J16, R2, R4 and R5 (C-23).

use crate::case::{After, Case, Function};
use crate::ground::{collects, did, is_busy, is_no};
use crate::records::is_sound;
use reference::completed::COMPLETED_MOST;
use reference::image::{AT_COMPLETED, AT_COUNT, AT_ID, AT_TOTAL, IMAGE_SIZE};
use reference::packet::ID_MOST;

/// The completed IDs of an image, four where it tells of more; an image of another size has none.
pub fn known(image: &[u8]) -> &[u8] {
    if image.len() != IMAGE_SIZE {
        return &[];
    }
    &image[AT_COMPLETED..][..COMPLETED_MOST.min(image[AT_COUNT].into())]
}

/// Whether an ID is completed or being collected.
pub fn is_taken(image: &[u8], id: u8) -> bool {
    known(image).contains(&id) || (image[AT_TOTAL] != 0 && image[AT_ID] == id)
}

/// The ID of a packet.
pub fn id_of(case: &Case) -> Option<u8> {
    case.bytes.get(3).copied()
}

/// The place of this ID among the completed ones.
fn place_of(image: &[u8], id: u8) -> Option<usize> {
    known(image).iter().position(|&known| known == id).map(|place| place + 1)
}

/// Whether a packet was a Repeat because its ID is completed.
pub fn is_repeat(case: &Case, after: &After) -> bool {
    did(after, 3) && id_of(case).is_some_and(|id| known(&case.image).contains(&id))
}

/// The place among four completed IDs of the one that made a packet a Repeat.
fn repeat_place(case: &Case, after: &After) -> Option<u32> {
    let full = is_repeat(case, after) && known(&case.image).len() == COMPLETED_MOST;
    let id = id_of(case).filter(|_| full)?;
    place_of(&case.image, id).map(|place| place as u32)
}

pub fn repeat_place_ready(case: &Case, after: &After) -> Option<u32> {
    repeat_place(case, after).filter(|_| !is_busy(case) && !collects(case))
}

pub fn repeat_place_busy(case: &Case, after: &After) -> Option<u32> {
    repeat_place(case, after).filter(|_| is_busy(case))
}

pub fn repeat_place_collecting(case: &Case, after: &After) -> Option<u32> {
    repeat_place(case, after).filter(|_| collects(case))
}

/// How many IDs were completed before this packet released a program.
pub fn before_program(case: &Case, after: &After) -> Option<u32> {
    (did(after, 5) && after.word(1) == 0).then(|| known(&case.image).len() as u32)
}

/// How many IDs were completed before this packet released a body that is no program.
pub fn before_no_program(case: &Case, after: &After) -> Option<u32> {
    (did(after, 5) && after.word(1) != 0).then(|| known(&case.image).len() as u32)
}

/// How many completed IDs a sign had that replied.
pub fn replied_with(case: &Case, after: &After) -> Option<u32> {
    is_no(after, 0).then(|| known(&case.image).len() as u32)
}

/// The last completed ID of a reply.
pub fn replied(_: &Case, after: &After) -> Option<u32> {
    is_no(after, 0).then(|| after.out()[3].into())
}

/// Whether the packet's ID was new to a Ready sign, and was begun or completed.
pub fn begins(case: &Case, after: &After) -> bool {
    let fits = case.function == Function::Receive && (did(after, 4) || did(after, 5));
    fits && id_of(case).is_some_and(|id| !is_taken(&case.image, id))
}

/// The image with another byte at this place.
fn with(image: &[u8], at: usize, byte: u8) -> Vec<u8> {
    let mut image = image.to_vec();
    image[at] = byte;
    image
}

/// Whether the image is unsound and a byte at this place that is neither completed nor collected mends it.
fn is_mended_by_new_id(image: &[u8], place: usize) -> bool {
    let new = (0..=ID_MOST).find(|&id| !is_taken(image, id)).unwrap_or(0);
    !is_sound(image) && is_sound(&with(image, AT_COUNT + place, new))
}

/// The count of an image, if it is over 4 and all else is sound.
pub fn count_over(case: &Case, _: &After) -> Option<u32> {
    let count = case.image.get(AT_COUNT).filter(|&&count| usize::from(count) > COMPLETED_MOST)?;
    let mended = |count| is_sound(&with(&case.image, AT_COUNT, count as u8));
    (0..=COMPLETED_MOST).any(mended).then_some(u32::from(*count))
}

/// The place of a completed ID over 3Fh, if all else is sound.
pub fn over_place(case: &Case, _: &After) -> Option<u32> {
    let ids = known(&case.image);
    let place = ids.iter().position(|&id| id > ID_MOST)? + 1;
    is_mended_by_new_id(&case.image, place).then_some(place as u32)
}

/// The two places of a completed ID that is there twice, as 12 to 34, if all else is sound.
pub fn twice_places(case: &Case, _: &After) -> Option<u32> {
    let ids = known(&case.image);
    let place = (1..ids.len()).find(|&place| ids[..place].contains(&ids[place]))? + 1;
    let first = place_of(&case.image, ids[place - 1])?;
    is_mended_by_new_id(&case.image, place).then_some((10 * first + place) as u32)
}

/// The place of a stray byte after the completed IDs, after ten times their number, if all else is sound.
pub fn stray_place(case: &Case, _: &After) -> Option<u32> {
    let count = known(&case.image).len();
    let unused = case.image.get(AT_COMPLETED + count..AT_ID)?;
    let place = count + unused.iter().position(|&byte| byte != 0)? + 1;
    let mended = case.image.len() == IMAGE_SIZE && is_sound(&with(&case.image, AT_COUNT + place, 0));
    mended.then_some((10 * count + place) as u32)
}

/// The place of the collected ID among the completed ones, if all else is sound.
pub fn collected_place(case: &Case, _: &After) -> Option<u32> {
    if !collects(case) || is_busy(case) {
        return None;
    }
    let place = place_of(&case.image, case.image[AT_ID])?;
    is_mended_by_new_id(&case.image, place).then_some(place as u32)
}
