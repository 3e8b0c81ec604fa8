//! Steps 3 to 7 of the order of checks, and what each request does.

use crate::nodes::on_node;
use crate::path;
use crate::payload::{Node as Asked, Place, Request};
use crate::size::*;
use crate::store::Store;

#[derive(Clone)]
pub struct Watch {
    pub relative: bool,
    pub depth: Option<u8>,
    pub owner: u16,
    pub path: Vec<u8>,
    pub token: Vec<u8>,
}

#[derive(Clone)]
pub struct Change {
    /// The path that the request named.
    pub path: Vec<u8>,
    pub removed: bool,
    /// How many of the nodes right above the named one the change created.
    pub parents: usize,
}

impl Change {
    /// The parents that were created, topmost first.
    pub fn created_parents(&self) -> impl Iterator<Item = Vec<u8>> + '_ {
        let names = path::depth(&self.path);
        (names - self.parents..names).map(|count| path::leading(&self.path, count))
    }

    /// One event for each created parent, topmost first, and one for the named path.
    fn events(&self) -> impl Iterator<Item = Event> + '_ {
        self.created_parents().chain([self.path.clone()]).map(|path| Event::Node { path, removed: self.removed })
    }
}

#[derive(Clone)]
pub struct Transaction {
    pub stale: bool,
    pub holder: u16,
    pub changes: Vec<Change>,
    pub store: Store,
}

pub struct World {
    pub store: Store,
    pub watches: Vec<Option<Watch>>,
    pub transactions: Vec<Option<Transaction>>,
    pub domains: Vec<Option<u16>>,
}

#[derive(Clone, Copy, Debug, PartialEq, Eq)]
pub enum Errno {
    Enosys,
    Einval,
    Eacces,
    Enoent,
    Eexist,
    E2big,
    Enospc,
    Eagain,
}

impl Errno {
    pub fn name(self) -> &'static str {
        match self {
            Errno::Enosys => "ENOSYS",
            Errno::Einval => "EINVAL",
            Errno::Eacces => "EACCES",
            Errno::Enoent => "ENOENT",
            Errno::Eexist => "EEXIST",
            Errno::E2big => "E2BIG",
            Errno::Enospc => "ENOSPC",
            Errno::Eagain => "EAGAIN",
        }
    }
}

use Errno::*;

pub enum Event {
    /// A node that was created, altered or removed.
    Node { path: Vec<u8>, removed: bool },
    /// `@introduceDomain` or `@releaseDomain`.
    Domain { name: &'static [u8], id: u16 },
    /// A new watch's own first event.
    Watched { watch: usize, place: Vec<u8> },
}

/// What a request that succeeds gives back.
#[derive(Default)]
pub struct Answer {
    pub payload: Vec<u8>,
    pub events: Vec<Event>,
    pub page: i64,
    pub channel: u32,
}

impl Answer {
    pub fn of_text(text: &str) -> Answer {
        Answer { payload: [text.as_bytes(), b"\0"].concat(), ..Answer::default() }
    }

    fn ok(events: Vec<Event>) -> Answer {
        Answer { events, ..Answer::of_text("OK") }
    }
}

/// The lowest free place of a table.
fn free<T>(table: &[Option<T>]) -> Result<usize, Errno> {
    table.iter().position(Option::is_none).ok_or(Enospc)
}

fn drop_where<T>(table: &mut [Option<T>], gone: impl Fn(&T) -> bool) {
    table.iter_mut().filter(|entry| entry.as_ref().is_some_and(&gone)).for_each(|entry| *entry = None);
}

impl World {
    pub fn fresh() -> World {
        World {
            store: Store::fresh(),
            watches: vec![None; WATCH_PLACES],
            transactions: vec![None; TRANSACTION_PLACES],
            domains: vec![None; DOMAIN_PLACES],
        }
    }

    /// Whether a sender is domain 0 or introduced.
    pub fn knows(&self, sender: u32) -> bool {
        sender == 0 || self.domains.iter().flatten().any(|&id| u32::from(id) == sender)
    }

    pub fn act(&mut self, sender: u16, tx_id: u32, request: Request) -> Result<Answer, Errno> {
        match request {
            Request::Node(path, asked) => self.node_request(sender, tx_id, path, asked),
            Request::Watch(place, depth) => self.watch(sender, place, depth),
            Request::Unwatch(place) => self.unwatch(sender, place),
            Request::Start => self.start(sender),
            Request::End { commit } => self.end(sender, tx_id, commit),
            Request::Introduce { domain, page, channel } => self.introduce(sender, domain, page, channel),
            Request::Release(domain) => self.release(sender, domain),
            Request::DomainPath(domain) => Ok(Answer::of_text(&format!("/local/domain/{domain}"))),
            Request::IsIntroduced(domain) => Ok(Answer::of_text(if self.knows(domain.into()) { "T" } else { "F" })),
            Request::ResetWatches => {
                drop_where(&mut self.watches, |watch| watch.owner == sender);
                drop_where(&mut self.transactions, |open| open.holder == sender);
                Ok(Answer::ok(vec![]))
            }
        }
    }

    fn make_stale(&mut self) {
        self.transactions.iter_mut().flatten().for_each(|open| open.stale = true);
    }

    /// The sender's open transaction of this id.
    fn held(&mut self, sender: u16, tx_id: u32) -> Result<&mut Transaction, Errno> {
        let place = (tx_id as usize).checked_sub(1).ok_or(Enoent)?;
        let open = self.transactions.get_mut(place).and_then(Option::as_mut);
        open.filter(|open| open.holder == sender).ok_or(Enoent)
    }

    fn node_request(&mut self, sender: u16, tx_id: u32, path: Vec<u8>, asked: Asked) -> Result<Answer, Errno> {
        if tx_id == 0 {
            let (payload, change) = on_node(&mut self.store, sender, path, asked, true)?;
            if change.is_some() {
                self.make_stale();
            }
            return Ok(Answer { payload, events: change.iter().flat_map(Change::events).collect(), ..Answer::default() });
        }
        let open = self.held(sender, tx_id)?;
        let room = open.changes.len() < CHANGES;
        let (payload, change) = on_node(&mut open.store, sender, path, asked, room)?;
        open.changes.extend(change);
        Ok(Answer { payload, ..Answer::default() })
    }

    fn watch(&mut self, sender: u16, place: Place, depth: Option<u8>) -> Result<Answer, Errno> {
        let Place { path, relative, token } = place;
        if path::is_special(&path) && sender != 0 {
            return Err(Eacces);
        }
        if self.watches.iter().flatten().any(|w| w.owner == sender && w.path == path && w.token == token) {
            return Err(Eexist);
        }
        if !(path::is_special(&path) || path::fits(&path)) || token.len() > TOKEN {
            return Err(Enospc);
        }
        let watch = free(&self.watches)?;
        self.watches[watch] = Some(Watch { relative, depth, owner: sender, path: path.clone(), token });
        Ok(Answer::ok(vec![Event::Watched { watch, place: path }]))
    }

    fn unwatch(&mut self, sender: u16, place: Place) -> Result<Answer, Errno> {
        if path::is_special(&place.path) && sender != 0 {
            return Err(Eacces);
        }
        let same = |w: &Watch| w.owner == sender && w.path == place.path && w.token == place.token;
        if !self.watches.iter().flatten().any(same) {
            return Err(Enoent);
        }
        drop_where(&mut self.watches, same);
        Ok(Answer::ok(vec![]))
    }

    fn start(&mut self, sender: u16) -> Result<Answer, Errno> {
        let place = free(&self.transactions)?;
        self.transactions[place] = Some(Transaction { stale: false, holder: sender, changes: vec![], store: self.store.clone() });
        Ok(Answer::of_text(&(place + 1).to_string()))
    }

    fn end(&mut self, sender: u16, tx_id: u32, commit: bool) -> Result<Answer, Errno> {
        let ended = self.held(sender, tx_id)?.clone();
        self.transactions[tx_id as usize - 1] = None;
        if !commit {
            return Ok(Answer::ok(vec![]));
        }
        if ended.stale {
            return Err(Eagain);
        }
        self.store = ended.store;
        if !ended.changes.is_empty() {
            self.make_stale();
        }
        Ok(Answer::ok(ended.changes.iter().flat_map(Change::events).collect()))
    }

    fn introduce(&mut self, sender: u16, domain: u16, page: i64, channel: u32) -> Result<Answer, Errno> {
        if sender != 0 {
            return Err(Eacces);
        }
        if self.domains.contains(&Some(domain)) {
            return Err(Eexist);
        }
        let place = free(&self.domains)?;
        self.domains[place] = Some(domain);
        Ok(Answer { page, channel, ..Answer::ok(vec![Event::Domain { name: path::INTRODUCE, id: domain }]) })
    }

    fn release(&mut self, sender: u16, domain: u16) -> Result<Answer, Errno> {
        if sender != 0 {
            return Err(Eacces);
        }
        if !self.domains.contains(&Some(domain)) {
            return Err(Enoent);
        }
        drop_where(&mut self.domains, |&id| id == domain);
        drop_where(&mut self.watches, |watch| watch.owner == domain);
        drop_where(&mut self.transactions, |open| open.holder == domain);
        let removed = self.store.owned_by(domain);
        if !removed.is_empty() {
            self.make_stale();
        }
        let mut events = Vec::new();
        for (slot, path) in removed {
            self.store.remove(slot);
            events.push(Event::Node { path, removed: true });
        }
        events.push(Event::Domain { name: path::RELEASE, id: domain });
        Ok(Answer::ok(events))
    }
}
