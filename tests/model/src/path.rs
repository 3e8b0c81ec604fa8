//! Paths as text.

use crate::size::*;

pub const INTRODUCE: &[u8] = b"@introduceDomain";
pub const RELEASE: &[u8] = b"@releaseDomain";

/// One byte or more, all of them letters, digits, `-`, `_` or `@`.
pub fn is_name(name: &[u8]) -> bool {
    !name.is_empty() && name.iter().all(|b| b.is_ascii_alphanumeric() || b"-_@".contains(b))
}

/// Whether a request may give this path, `@` names aside.
pub fn well_formed(path: &[u8]) -> bool {
    let (names, longest) = match path.strip_prefix(b"/") {
        Some(names) => (names, 3072),
        None => (path, 2048),
    };
    path.len() <= longest && path.first() != Some(&b'@') && (path == b"/" || names.split(|&b| b == b'/').all(is_name))
}

pub fn is_special(path: &[u8]) -> bool {
    path == INTRODUCE || path == RELEASE
}

/// What stands before a domain's relative paths.
pub fn base(domain: u16) -> Vec<u8> {
    format!("/local/domain/{domain}/").into_bytes()
}

/// The full path meant by a well-formed one.
pub fn full(path: &[u8], sender: u16) -> Vec<u8> {
    if path.starts_with(b"/") {
        path.to_vec()
    } else {
        [&base(sender), path].concat()
    }
}

/// The names of a full path, from the root's child down.
pub fn names(path: &[u8]) -> impl Iterator<Item = &[u8]> {
    path[1..].split(|&b| b == b'/').filter(|name| !name.is_empty())
}

pub fn depth(path: &[u8]) -> usize {
    names(path).count()
}

/// The path of a full path's first names, one or more of them.
pub fn leading(path: &[u8], count: usize) -> Vec<u8> {
    names(path).take(count).flat_map(|name| [b"/", name].concat()).collect()
}

/// Whether a well-formed full path is within the sizes.
pub fn fits(path: &[u8]) -> bool {
    depth(path) <= DEPTH && names(path).all(|name| name.len() <= NAME)
}

/// Whether bytes in a table are a full path within the sizes.
pub fn is_stored(path: &[u8]) -> bool {
    path.starts_with(b"/") && well_formed(path) && fits(path)
}

/// Whether `path` lies below `above`, as text: `/` and anything, or the path, a slash and anything.
pub fn is_below(path: &[u8], above: &[u8]) -> bool {
    if above == b"/" {
        path.starts_with(b"/") && path.len() > 1
    } else {
        path.strip_prefix(above).is_some_and(|rest| rest.starts_with(b"/"))
    }
}
