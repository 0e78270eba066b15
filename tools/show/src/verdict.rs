//! What the proved engine says of bytes as a bank of a form, by the call that takes banks of that form. The bytes stay as they are.

use crate::diagnosis;
use crate::engines::{archive, archive_adopt, archive_convert, unpacked};
use second::layout::{Form, EARLIER, NEWEST, OLDER, UNCLEANED};
use second::line::Line;

/// The bytes are no well-formed bank of the form. Any other code says that they are.
pub const MALFORMED: u8 = 1;

/// A bank of a form whose records name no board has some, and today's form can't say whom they would name.
pub const HAS_RECORDS: u8 = 11;

/// The engine's code.
pub fn code<const FORM: Form>(bytes: &mut [u8]) -> u8 {
    let answer = match FORM {
        OLDER => convert(bytes),
        EARLIER => archive_adopt(bytes),
        UNCLEANED => archive(&mut bytes.to_vec(), &Line::Clean),
        _ => refused_by_any_bank(bytes),
    };
    unpacked(answer).code
}

/// A conversion into a buffer of its own.
fn convert(bytes: &mut [u8]) -> u64 {
    let layout = diagnosis::layout::<NEWEST>(bytes);
    let mut converted = vec![0; layout.map_or(0, |layout| layout.length())];
    archive_convert(bytes, &mut converted)
}

/// No bank has such a board.
fn refused_by_any_bank(bytes: &mut [u8]) -> u64 {
    archive(bytes, &Line::Cut { board: u32::MAX })
}
