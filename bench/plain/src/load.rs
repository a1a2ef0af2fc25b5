//! A plain reader of a folder's log. It fills the maps of one bucket from the base and from each change after it.
use crate::store::{Key, Request, Store};
use std::fs;

/// The bytes that are left to read.
struct Reader<'a>(&'a [u8]);

impl<'a> Reader<'a> {
    fn bytes(&mut self, length: usize) -> &'a [u8] {
        let (front, rest) = self.0.split_at(length);
        self.0 = rest;
        front
    }

    /// A number of `length` bytes, big-endian.
    fn number(&mut self, length: usize) -> u64 {
        self.bytes(length).iter().fold(0, |sum, it| sum << 8 | u64::from(*it))
    }

    /// Bytes that come after their count, a number of `length` bytes.
    fn block(&mut self, length: usize) -> &'a [u8] {
        let length = self.number(length) as usize;
        self.bytes(length)
    }

    /// A text that comes after the count of its bytes, a number of `length` bytes.
    fn text(&mut self, length: usize) -> Key {
        std::str::from_utf8(self.block(length)).unwrap().into()
    }
}

/// Reads the objects of a base. The base must have no live uploads.
fn base(store: &mut Store, bytes: &[u8]) {
    let mut rest = Reader(bytes);
    rest.bytes(24);
    for _ in 0..rest.number(8) {
        rest.block(2);
        for _ in 0..rest.number(8) {
            let key = rest.text(2);
            let header = rest.number(8).checked_sub(1);
            let bytes = rest.block(8).into();
            store.send(&Request::Put { key, bytes, header });
        }
        assert_eq!(rest.number(8), 0, "an upload");
    }
}

/// Reads the change in a record's body. Gives none if it makes a bucket.
fn change(body: &[u8]) -> Option<Request> {
    let mut rest = Reader(body);
    let kind = rest.number(1);
    rest.block(8);
    Some(match kind {
        1 => return None,
        2 => Request::Put {
            key: rest.text(8),
            header: rest.number(8).checked_sub(1),
            bytes: rest.block(8).into(),
        },
        3 => Request::Delete(rest.text(8)),
        4 => Request::DeleteMany((0..rest.number(4)).map(|_| rest.text(8)).collect()),
        6 => Request::Create(rest.text(8)),
        7 => Request::Part {
            key: rest.text(8),
            upload: rest.number(8),
            number: rest.number(4) as u32,
            bytes: rest.block(8).into(),
        },
        8 => Request::Complete {
            key: rest.text(8),
            upload: rest.number(8),
            parts: (0..rest.number(4))
                .map(|_| {
                    let number = rest.number(4) as u32;
                    let tag = String::from_utf8(rest.bytes(32).to_vec()).unwrap();
                    rest.number(4);
                    (number, tag)
                })
                .collect(),
        },
        9 => Request::Abort {
            key: rest.text(8),
            upload: rest.number(8),
        },
        _ => panic!("a change of kind {kind}"),
    })
}

/// Reads the log at a path, and prints how many changes it has.
pub fn load(path: &str) {
    let log = fs::read(path).unwrap();
    let (mut store, mut rest, mut changes) = (Store::default(), Reader(&log[8..]), 0);
    base(&mut store, rest.block(8));
    while rest.number(1) == 1 {
        if let Some(request) = change(rest.block(8)) {
            store.send(&request);
        }
        changes += 1;
    }
    println!("changes {changes}");
}
