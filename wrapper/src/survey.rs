//! Survey files: a flag layer and a value layer, as bytes.

use crate::face;
use crate::{FlagLayer, Refusal, ValueLayer};

/// The bytes of a survey file with so many flag records and value records.
pub const fn survey_bytes(flags: usize, values: usize) -> usize {
    16usize
        .saturating_add(FlagLayer::bytes(flags))
        .saturating_add(ValueLayer::bytes(values))
}

/// Replaces both layers by those of a file, or neither. The flag records have to be strictly ascending by cell, and so
/// have the value records; one cell may have a record of each.
///
/// [`Refusal::BadFile`] with the byte place: that of the head's fault, or the length; else where the first record begins
/// that is not above the one before it, of flags before values. [`Refusal::NoRoom`] of a layer.
///
/// ```
/// use tishkolan::{load_survey, survey_bytes, write_survey, Cell, FlagLayer, Flags, Refusal, ValueLayer};
///
/// let (mut flag_table, mut value_table) = ([0; FlagLayer::bytes(4)], [0; ValueLayer::bytes(4)]);
/// let mut flags = FlagLayer::new(&mut flag_table);
/// let mut values = ValueLayer::new(&mut value_table);
/// flags.set(&Cell([1; 16]), Flags::BLOCKED)?;
/// values.set(&Cell([2; 16]), 9.75)?;
///
/// let mut out = [0; survey_bytes(4, 4)];
/// let file = write_survey(&flags, &values, &mut out)?;
/// assert_eq!(file.len(), survey_bytes(1, 1));
///
/// flags.clear();
/// load_survey(file, &mut flags, &mut values)?;
/// assert_eq!(flags.get(&Cell([1; 16]))?, Some(Flags::BLOCKED));
/// assert_eq!(load_survey(&file[..59], &mut flags, &mut values), Err(Refusal::BadFile { place: 59 }));
///
/// // The flag record once more: the second of the two begins at byte 36.
/// let mut twice = [&file[..36], &file[16..]].concat();
/// twice[3] = 2;
/// twice[15] = 16 + 2 * 20;
/// assert_eq!(load_survey(&twice, &mut flags, &mut values), Err(Refusal::BadFile { place: 36 }));
/// # Ok::<(), Refusal>(())
/// ```
pub fn load_survey(
    file: &[u8],
    flags: &mut FlagLayer<'_>,
    values: &mut ValueLayer<'_>,
) -> Result<(), Refusal> {
    let said = face::survey_load(file, flags.lent_mut(), values.lent_mut());
    flags.recount(said.flags);
    values.recount(said.values);
    said.answer()
}

/// Writes both layers as a file, ascending by cell, into a buffer, and hands back the part that is the file.
///
/// [`Refusal::NoRoom`] of the output.
pub fn write_survey<'o>(
    flags: &FlagLayer<'_>,
    values: &ValueLayer<'_>,
    out: &'o mut [u8],
) -> Result<&'o [u8], Refusal> {
    let said = face::survey_write(flags.lent(), values.lent(), out);
    said.refusal.answer(())?;
    Ok(&out[..said.length as usize])
}
