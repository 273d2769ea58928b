//! Adding and dropping a mapping of a PSF2 font at the front of a lent buffer. From
//! document 02, "Add or drop a mapping". The reading is taken, its one description changed,
//! and the whole table written anew.

use crate::convert::{deliver, source, table_bytes};
use crate::table::{noncharacter, singles, Coding, Description, Placed};
use crate::*;

/// Changes glyph g's description in the font that the first `len` bytes are, and gives the
/// new length. Refusals: ASK for `len`, 1 to 12, WRONG KIND, NO TABLE, ASK for the glyph and
/// the value (above 10FFFF, a surrogate, or none that `may_be` takes), those of the change,
/// SIZE, ROOM. A refused edit leaves the buffer untouched.
fn edit(
    buf: &mut [u8],
    len: usize,
    g: usize,
    v: u32,
    may_be: impl FnOnce(u32) -> bool,
    change: impl FnOnce(&mut Description) -> Result<(), Refusal>,
) -> Result<usize, Refusal> {
    if len > buf.len() {
        return refuse(ASK, 0);
    }
    let old = buf[..len].to_vec();
    let mut font = source(&old, Kind::Psf2)?;
    if !font.has_table {
        return refuse(NO_TABLE, 0);
    }
    // no char is above 10FFFF or a surrogate
    if g >= font.count || char::from_u32(v).is_none() || !may_be(v) {
        return refuse(ASK, 0);
    }
    change(&mut font.reading[g])?;
    let table = table_bytes(&font, Coding::Utf8);
    let head = &old[..font.table_at];
    let new = deliver(head.len() + table.len(), buf, || [head, &table].concat())?;
    // the bytes that are freed
    if new < len {
        buf[new..len].fill(0);
    }
    Ok(new)
}

/// Adds v to glyph g as its last single. ASK for a noncharacter too; HAVE if the glyph lists
/// it as a single already.
pub fn add_mapping(buf: &mut [u8], len: usize, g: usize, v: u32) -> Result<usize, Refusal> {
    edit(
        buf,
        len,
        g,
        v,
        |v| !noncharacter(v),
        |description| {
            let before = singles(description);
            if before.contains(&v) {
                return refuse(HAVE, 0);
            }
            // the singles are a description's first items; where they end the new one stands
            let at = description[before.len()].at;
            description.insert(before.len(), Placed { item: Item::Single(v), at });
            Ok(())
        },
    )
}

/// Drops the first listing of v as a single of glyph g. NOT THERE if there is none, so of a
/// noncharacter always.
pub fn drop_mapping(buf: &mut [u8], len: usize, g: usize, v: u32) -> Result<usize, Refusal> {
    edit(
        buf,
        len,
        g,
        v,
        |_| true,
        |description| match description.iter().position(|p| p.item == Item::Single(v)) {
            None => refuse(NOT_THERE, 0),
            Some(i) => {
                description.remove(i);
                Ok(())
            }
        },
    )
}
