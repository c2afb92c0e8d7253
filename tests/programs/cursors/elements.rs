//! Elements in the form of `openssl asn1parse`.

use schema_cursor::Cursor;
use ber::Universal;
use std::alloc::Global;
use std::io;

/// Prints the offset, the depth, and the lengths of the header and the contents of each element, but not
/// of those inside strings; and each element to which the path that it prints does not lead.
pub fn print_elements<R: Print>(rt: &R, alloc: Global, root: Cursor<'_>) -> io::Result<()> {
    let mut left = Vec::new(alloc);
    left.push(root)?;
    while let Some(element) = left.pop() {
        let entry = element.entry();
        let form = if element.is_constructed() {
            "cons"
        } else {
            "prim"
        };
        println!(rt; "{}:d={} hl={} l={} {form}", entry.offset, entry.depth, entry.header_len, entry.contents_len)?;
        if !is_found(alloc, root, element)? {
            println!(rt; "{} leads to another element", element.place())?;
        }
        if element.universal() != Some(Universal::OctetString) {
            let at = left.len();
            for child in element.children() {
                left.insert(at, child)?;
            }
        }
    }
    Ok(())
}

// Whether the path of an element leads to it, or to the element around it if it is a value inside that.
fn is_found(alloc: Global, root: Cursor<'_>, element: Cursor<'_>) -> io::Result<bool> {
    let path = format!(in alloc; "{}", element.place())?;
    match root.at(path.as_str()) {
        Some(found) => Ok(found.index() == element.index()
            || found.inner().map(|it| it.index()) == Some(element.index())),
        None => Ok(false),
    }
}
