//! Flags and bytes written, through the wrapper.
use menakovitsy::{
    boolean_room, byte_room, size_of_booleans, size_of_bytes, write_booleans, write_bytes, Refusal,
};

use super::BEFORE;

/// How many bytes were written, or the refusal.
fn write(flags: bool, given: &[u8], out: &mut [u8]) -> Result<usize, menakovitsy::Refused> {
    match flags {
        true => write_booleans(given, out).map(|run| run.bytes.0),
        false => write_bytes(given, out).map(|written| written.0),
    }
}

/// Writes flags or bytes with the room that always is enough, and with a place too few: the runs, which stand
/// for the bytes and are as short as any; or what was wrong.
pub fn check(flags: bool, given: &[u8], bytes: &[u8]) -> Result<Vec<u8>, String> {
    let [room, size] = match flags {
        true => [boolean_room(given.len()), size_of_booleans(given)],
        false => [byte_room(given.len()), size_of_bytes(given)],
    };
    let least = model::least_size(bytes);
    if size != least || room < size {
        return Err(format!("a size of {size}, and room {room}"));
    }
    let mut out = vec![BEFORE; room];
    match write(flags, given, &mut out) {
        Ok(written) if written == size => {}
        answer => return Err(format!("{answer:?}")),
    }
    let kept = out.split_off(size).iter().all(|byte| *byte == BEFORE);
    if !kept || model::runs_stand_for(&out).as_deref() != Some(bytes) || out != model::chosen_byte_runs(bytes)
    {
        return Err(format!("wrote {out:02x?}, the places after it kept: {kept}"));
    }
    if let Some(few) = size.checked_sub(1) {
        let mut places = vec![BEFORE; few];
        let refused = write(flags, given, &mut places).err().map(|refused| (refused.refusal, refused.at));
        if refused != Some((Refusal::TooFewPlaces, None)) || places.iter().any(|byte| *byte != BEFORE) {
            return Err(format!("with {few} places: {refused:?}, {places:02x?}"));
        }
    }
    Ok(out)
}
