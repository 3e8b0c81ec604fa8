//! Steps 1 and 2 of the order of checks: the type, and the form of the payload.

use crate::path;
use crate::size::*;
use crate::store::Entry;
use crate::world::Errno::{self, Einval, Enosys};

/// A request on one node.
pub enum Node {
    Directory,
    Read,
    GetPerms,
    Write(Vec<u8>),
    Mkdir,
    Rm,
    SetPerms(Vec<Entry>),
}

/// A watch's path, full, and its token.
pub struct Place {
    pub path: Vec<u8>,
    pub relative: bool,
    pub token: Vec<u8>,
}

pub enum Request {
    Node(Vec<u8>, Node),
    Watch(Place, Option<u8>),
    Unwatch(Place),
    Start,
    End { commit: bool },
    Introduce { domain: u16, page: i64, channel: u32 },
    Release(u16),
    DomainPath(u16),
    IsIntroduced(u16),
    ResetWatches,
}

/// Strings taken one by one, each nul-ended.
struct Strings<'a>(&'a [u8]);

impl<'a> Strings<'a> {
    fn next(&mut self) -> Result<&'a [u8], Errno> {
        let end = self.0.iter().position(|&b| b == 0).ok_or(Einval)?;
        let (text, rest) = (&self.0[..end], &self.0[end + 1..]);
        self.0 = rest;
        Ok(text)
    }

    fn path(&mut self, sender: u16) -> Result<Vec<u8>, Errno> {
        let text = self.next()?;
        path::well_formed(text).then(|| path::full(text, sender)).ok_or(Einval)
    }

    fn place(&mut self, sender: u16) -> Result<Place, Errno> {
        let text = self.next()?;
        if path::is_special(text) {
            return Ok(Place { path: text.to_vec(), relative: false, token: self.next()?.to_vec() });
        }
        let path = path::well_formed(text).then(|| path::full(text, sender)).ok_or(Einval)?;
        Ok(Place { path, relative: !text.starts_with(b"/"), token: self.next()?.to_vec() })
    }

    fn decimal(&mut self, least: u64, most: u64) -> Result<u64, Errno> {
        decimal(self.next()?).filter(|number| (least..=most).contains(number)).ok_or(Einval)
    }

    fn domain(&mut self, least: u64) -> Result<u16, Errno> {
        Ok(self.decimal(least, TOP_DOMAIN)? as u16)
    }

    fn end(&self) -> Result<(), Errno> {
        self.0.is_empty().then_some(()).ok_or(Einval)
    }
}

/// A decimal without sign, blank or spare leading zero.
pub fn decimal(text: &[u8]) -> Option<u64> {
    let plain = text == b"0" || text.first().is_some_and(|&b| b != b'0');
    let digits = text.iter().all(u8::is_ascii_digit);
    std::str::from_utf8(text).ok().filter(|_| plain && digits)?.parse().ok()
}

fn page(text: &[u8]) -> Option<i64> {
    match text.strip_prefix(b"-") {
        Some(digits) => decimal(digits).filter(|&n| n != 0).and_then(|n| 0i64.checked_sub_unsigned(n)),
        None => decimal(text)?.try_into().ok(),
    }
}

fn entry(text: &[u8]) -> Option<Entry> {
    let (letter, id) = text.split_first()?;
    let access = b"nrwb".iter().position(|l| l == letter)?;
    let domain = decimal(id).filter(|&id| id <= TOP_DOMAIN)?;
    Some(Entry { access: access as u8, domain: domain as u16 })
}

/// The request that a payload of this type means.
pub fn request(kind: u32, payload: &[u8], tx_id: u32, sender: u16) -> Result<Request, Errno> {
    let mut strings = Strings(payload);
    let asked = match kind {
        1 => Request::Node(strings.path(sender)?, Node::Directory),
        2 => Request::Node(strings.path(sender)?, Node::Read),
        3 => Request::Node(strings.path(sender)?, Node::GetPerms),
        4 => watch(&mut strings, sender)?,
        5 => Request::Unwatch(strings.place(sender)?),
        6 if tx_id == 0 && payload == b"\0" => return Ok(Request::Start),
        7 if payload == b"T\0" || payload == b"F\0" => return Ok(Request::End { commit: payload == b"T\0" }),
        8 => {
            let domain = strings.domain(1)?;
            let page = page(strings.next()?).ok_or(Einval)?;
            Request::Introduce { domain, page, channel: strings.decimal(0, u32::MAX.into())? as u32 }
        }
        9 => Request::Release(strings.domain(1)?),
        10 => Request::DomainPath(strings.domain(0)?),
        11 => {
            let path = strings.path(sender)?;
            return Ok(Request::Node(path, Node::Write(strings.0.to_vec())));
        }
        12 => Request::Node(strings.path(sender)?, Node::Mkdir),
        13 => rm(strings.path(sender)?)?,
        14 => set_perms(&mut strings, sender)?,
        17 => Request::IsIntroduced(strings.domain(0)?),
        21 if payload == b"\0" => return Ok(Request::ResetWatches),
        6 | 7 | 21 => return Err(Einval),
        _ => return Err(Enosys),
    };
    strings.end()?;
    Ok(asked)
}

fn watch(strings: &mut Strings, sender: u16) -> Result<Request, Errno> {
    let place = strings.place(sender)?;
    let depth = match strings.end() {
        Ok(()) => None,
        Err(_) => Some(strings.decimal(0, 255)? as u8),
    };
    if path::is_special(&place.path) && !matches!(depth, None | Some(1)) {
        return Err(Einval);
    }
    Ok(Request::Watch(place, depth))
}

fn rm(path: Vec<u8>) -> Result<Request, Errno> {
    if path == b"/" {
        return Err(Einval);
    }
    Ok(Request::Node(path, Node::Rm))
}

fn set_perms(strings: &mut Strings, sender: u16) -> Result<Request, Errno> {
    let path = strings.path(sender)?;
    let mut entries = vec![entry(strings.next()?).ok_or(Einval)?];
    while strings.end().is_err() {
        entries.push(entry(strings.next()?).ok_or(Einval)?);
    }
    if path == b"/" && entries[0].domain != 0 {
        return Err(Einval);
    }
    Ok(Request::Node(path, Node::SetPerms(entries)))
}
