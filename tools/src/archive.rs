//! Sheets to archives and back. An archive holds a sheet in a form of one size.

use crate::record::{explained, sheet_in};
use firrozka::{write_archive, ARCHIVE_BYTES};

/// *Write archive*: the archive of this sheet.
pub fn archived(sheet: &[u8]) -> Result<Vec<u8>, String> {
    let archive = write_archive(sheet, &mut [0; ARCHIVE_BYTES]).map(<[u8]>::to_vec);
    archive.map_err(|refusal| explained(refusal, sheet))
}

/// *Read archive*: the sheet that this archive holds.
pub fn restored(archive: &[u8]) -> Result<Vec<u8>, String> {
    sheet_in(archive).map_err(|refusal| explained(refusal, archive))
}
