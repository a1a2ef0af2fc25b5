//! A plain bucket in memory: tree maps, shared bytes, no proofs.

use crate::md5::{digest, hex};
use std::collections::BTreeMap;
use std::ops::Bound::{Excluded, Included, Unbounded};
use std::rc::Rc;

pub type Bytes = Rc<[u8]>;
pub type Key = Rc<str>;

#[derive(Clone)]
pub enum Request {
    Put {
        key: Key,
        bytes: Bytes,
        header: Option<u64>,
    },
    Get(Key),
    Head(Key),
    Delete(Key),
    DeleteMany(Rc<[Key]>),
    Page {
        prefix: Key,
        after: Key,
    },
    Create(Key),
    Part {
        key: Key,
        upload: u64,
        number: u32,
        bytes: Bytes,
    },
    Complete {
        key: Key,
        upload: u64,
        parts: Rc<[(u32, String)]>,
    },
    Abort {
        key: Key,
        upload: u64,
    },
    Uploads {
        prefix: Key,
        after: Option<(Key, u64)>,
    },
}

pub enum Reply {
    Done,
    Missing,
    Bytes(Bytes),
    Keys(Vec<Key>, bool),
    Upload(u64),
    Tag(String),
    Uploads(Vec<(Key, u64)>, bool),
}

struct Object {
    bytes: Bytes,
    #[allow(dead_code)]
    header: Option<u64>,
}

struct Part {
    bytes: Bytes,
    digest: [u8; 16],
}

struct Upload {
    key: Key,
    parts: BTreeMap<u32, Part>,
}

#[derive(Default)]
pub struct Store {
    objects: BTreeMap<Key, Object>,
    uploads: BTreeMap<u64, Upload>,
    by_key: BTreeMap<(Key, u64), ()>,
    next: u64,
}

impl Store {
    pub fn send(&mut self, request: &Request) -> Reply {
        match request {
            Request::Put { key, bytes, header } => {
                let tag = hex(&digest(bytes));
                self.objects.insert(
                    key.clone(),
                    Object {
                        bytes: bytes.clone(),
                        header: *header,
                    },
                );
                Reply::Tag(tag)
            }
            Request::Get(key) => self
                .objects
                .get(key)
                .map_or(Reply::Missing, |it| Reply::Bytes(it.bytes.clone())),
            Request::Head(key) => self
                .objects
                .get(key)
                .map_or(Reply::Missing, |_| Reply::Done),
            Request::Delete(key) => {
                self.objects.remove(key);
                Reply::Done
            }
            Request::DeleteMany(keys) => {
                for key in keys.iter() {
                    self.objects.remove(key);
                }
                Reply::Done
            }
            Request::Page { prefix, after } => {
                let from = if **after < **prefix {
                    Included(prefix.clone())
                } else {
                    Excluded(after.clone())
                };
                let mut keys: Vec<Key> = self
                    .objects
                    .range((from, Unbounded))
                    .map(|it| it.0)
                    .take_while(|it| it.starts_with(&**prefix))
                    .take(1001)
                    .cloned()
                    .collect();
                let more = keys.len() > 1000;
                keys.truncate(1000);
                Reply::Keys(keys, more)
            }
            Request::Create(key) => {
                self.next += 1;
                self.uploads.insert(
                    self.next,
                    Upload {
                        key: key.clone(),
                        parts: BTreeMap::new(),
                    },
                );
                self.by_key.insert((key.clone(), self.next), ());
                Reply::Upload(self.next)
            }
            Request::Part {
                key,
                upload,
                number,
                bytes,
            } => match self.uploads.get_mut(upload) {
                Some(it) if it.key == *key => {
                    let digest = digest(bytes);
                    it.parts.insert(
                        *number,
                        Part {
                            bytes: bytes.clone(),
                            digest,
                        },
                    );
                    Reply::Tag(hex(&digest))
                }
                _ => Reply::Missing,
            },
            Request::Complete { key, upload, parts } => self.complete(key, *upload, parts),
            Request::Abort { key, upload } => {
                self.uploads.remove(upload);
                self.by_key.remove(&(key.clone(), *upload));
                Reply::Done
            }
            Request::Uploads { prefix, after } => {
                let from = after
                    .clone()
                    .map_or(Included((prefix.clone(), 0)), Excluded);
                let mut found: Vec<(Key, u64)> = self
                    .by_key
                    .range((from, Unbounded))
                    .map(|it| it.0)
                    .take_while(|it| it.0.starts_with(&**prefix))
                    .take(1001)
                    .cloned()
                    .collect();
                let more = found.len() > 1000;
                found.truncate(1000);
                Reply::Uploads(found, more)
            }
        }
    }

    fn complete(&mut self, key: &Key, upload: u64, parts: &[(u32, String)]) -> Reply {
        let Some(held) = self.uploads.get(&upload).filter(|it| it.key == *key) else {
            return Reply::Missing;
        };
        let (mut bytes, mut digests) = (Vec::new(), Vec::new());
        for (number, tag) in parts {
            match held.parts.get(number) {
                Some(part) if hex(&part.digest) == *tag => {
                    bytes.push(part.bytes.clone());
                    digests.extend_from_slice(&part.digest);
                }
                _ => return Reply::Missing,
            }
        }
        let tag = format!("{}-{}", hex(&digest(&digests)), parts.len());
        let bytes: Bytes = if bytes.len() == 1 {
            bytes.pop().unwrap()
        } else {
            bytes.concat().into()
        };
        self.objects.insert(
            key.clone(),
            Object {
                bytes,
                header: None,
            },
        );
        self.uploads.remove(&upload);
        self.by_key.remove(&(key.clone(), upload));
        Reply::Tag(tag)
    }
}
