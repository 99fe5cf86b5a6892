//! The writer of grammar files, 02 Note 4: "the lending file by 1 to 5, the tables and
//! start by 3 to 5, then the new one, then 6".

use super::{check, file, relation};

/// Writes the grammar file of tables and a start, with the keywords and rule names of a
/// lending file. The number of bytes written, or the number of the first check that
/// fails. A refused call leaves the slice as it was, and a success the bytes past the
/// file.
pub fn write(
    lending: &[u8],
    nodes: &[u16],
    rules: &[u16],
    node: u16,
    mode: u16,
    out: &mut [u8],
) -> Result<usize, u8> {
    let lent = file::parse(lending)?;

    // Checks 3 to 5 of the tables, then 5 of the start.
    check::table(nodes, rules)?;
    if usize::from(node) >= nodes.len() / 4 || mode >= relation::COUNT {
        return Err(5);
    }
    // Check 15: "rule count differs from the lending file's".
    if rules.len() != lent.rules.len() {
        return Err(15);
    }

    let names = lent.names.iter().map(|at| &lending[at.clone()]);
    let rules = rules.iter().copied().zip(names);
    let written = fields(&lent.keywords, rules, nodes, (node, mode));
    // Check 6: "a lent slice too short for what is to be written".
    let own = out.get_mut(..written.len()).ok_or(6)?;
    own.copy_from_slice(&written);
    Ok(written.len())
}

/// The file's bytes, from values that have passed the checks: so kinds, relations and
/// the mode fit one byte, and the longest file has 18,209 bytes, under the limit.
fn fields<'f>(
    keywords: &[&[u8]],
    rules: impl Iterator<Item = (u16, &'f [u8])>,
    nodes: &[u16],
    (start, mode): (u16, u16),
) -> Vec<u8> {
    let mut file = Vec::new();
    // "tag 1, once, value the byte 1"
    field(&mut file, 1, &[&[1]]);
    for word in keywords {
        field(&mut file, 2, &[word]);
    }
    // "two-byte node number, then its name"
    for (node, name) in rules {
        field(&mut file, 3, &[&node.to_be_bytes(), name]);
    }
    // "kind (one byte), a (two), b (two), relation (one)"
    for [kind, a, b, relation] in nodes.as_chunks().0 {
        let (a, b) = (a.to_be_bytes(), b.to_be_bytes());
        field(&mut file, 4, &[&[*kind as u8], &a, &b, &[*relation as u8]]);
    }
    // "start node (two bytes), start mode (one)"
    field(&mut file, 5, &[&start.to_be_bytes(), &[mode as u8]]);
    file
}

/// "one-byte tag, two-byte length (high byte first), value"; the value in its parts.
fn field(file: &mut Vec<u8>, tag: u8, parts: &[&[u8]]) {
    let value = parts.concat();
    file.push(tag);
    file.extend_from_slice(&(value.len() as u16).to_be_bytes());
    file.extend_from_slice(&value);
}
