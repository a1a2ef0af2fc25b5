//! A plain program that runs the job of `s3a FOLDER gen SEED TASKS FILES`. `plain SEED TASKS FILES` sends the same requests in the same
//! order, to a store in memory without a log, and prints the same line. It assumes that no request fails.

mod attempt;
mod disk;
mod json;
mod load;
mod md5;
mod store;

use attempt::{Attempt, Op};
use std::rc::Rc;
use store::{Bytes, Key, Reply, Request, Store};

/// One request that was sent, and the number of the actor that sent it.
pub struct Entry {
    #[allow(dead_code)]
    pub actor: u32,
    #[allow(dead_code)]
    pub request: Request,
}

/// The sequence of random numbers that a seed gives.
pub struct Numbers(u64);

impl Numbers {
    pub fn new(seed: u64) -> Numbers {
        Numbers(seed % (1 << 31))
    }

    pub fn next(&mut self) -> u64 {
        self.0 = (1103515245 * self.0 + 12345) % (1 << 31);
        self.0 / 65536
    }
}

pub struct World {
    store: Store,
    pub journal: Vec<Entry>,
}

impl World {
    pub fn send(&mut self, actor: u32, request: Request) -> Reply {
        let reply = self.store.send(&request);
        self.journal.push(Entry { actor, request });
        reply
    }

    fn keys(&mut self, prefix: &str) -> Vec<Key> {
        let (prefix, mut keys): (Key, Vec<Key>) = (prefix.into(), Vec::new());
        loop {
            let after = keys.last().cloned().unwrap_or_else(|| "".into());
            let Reply::Keys(page, more) = self.send(
                0,
                Request::Page {
                    prefix: prefix.clone(),
                    after,
                },
            ) else {
                unreachable!()
            };
            keys.extend(page);
            if !more {
                return keys;
            }
        }
    }

    fn sweep(&mut self, prefix: &str) {
        let keys = self.keys(prefix);
        for batch in keys.chunks(1000) {
            self.send(0, Request::DeleteMany(batch.into()));
        }
    }

    /// Lets all busy attempts send, one request at a time in the order that the seed gives, until all are done.
    fn mix(&mut self, attempts: &mut [Attempt], seed: u64) {
        let mut numbers = Numbers::new(seed);
        let mut busy: Vec<usize> = (0..attempts.len())
            .filter(|at| attempts[*at].is_busy())
            .collect();
        while !busy.is_empty() {
            let chosen = numbers.next() as usize % busy.len();
            if !attempts[busy[chosen]].send(self, busy[chosen] as u32 + 1) {
                busy.remove(chosen);
            }
        }
    }
}

pub const DEST: &str = "gen";

fn main() {
    let words: Vec<String> = std::env::args().skip(1).collect();
    match &words[..] {
        [command, from, to] if command == "disk" => return disk::copy_log(from, to).unwrap(),
        [command, path] if command == "load" => return load::load(path),
        _ => {}
    }
    let words: Vec<u64> = words.iter().map(|it| it.parse().unwrap()).collect();
    let (seed, tasks, files) = (words[0], words[1], words[2]);
    let mut numbers = Numbers::new(seed);
    let mut attempts = Vec::new();
    for task in 0..tasks {
        let made: Rc<[(String, Bytes)]> = (0..files)
            .map(|file| {
                let length = numbers.next() % 4096;
                let byte = 97 + numbers.next() % 26;
                (
                    format!("part-{task:03}-{file:02}"),
                    vec![byte as u8; length as usize].into(),
                )
            })
            .collect();
        attempts.push(Attempt::new(task, 0, made.clone()));
        if task % 5 == 4 {
            attempts.push(Attempt::new(task, 1, made));
        }
    }
    let mut world = World {
        store: Store::default(),
        journal: Vec::new(),
    };
    let magic = format!("{DEST}/__magic/job-gen/");
    // set-up
    world.send(0, Request::Head(DEST.into()));
    world.send(0, Request::Delete(format!("{DEST}/_SUCCESS").into()));
    world.sweep(&magic);
    // the writes; the tasks whose first attempt is killed are written again
    for it in attempts.iter_mut().filter(|it| it.attempt == 0) {
        it.start(Op::Write);
    }
    world.mix(&mut attempts, seed);
    for at in 0..attempts.len() {
        if attempts[at].attempt == 1 {
            attempts[at].start(Op::Write);
            while attempts[at].send(&mut world, at as u32 + 1) {}
        }
    }
    // the commits of the tasks
    for it in attempts
        .iter_mut()
        .filter(|it| (it.attempt == 1) == (it.task % 5 == 4))
    {
        it.start(Op::Commit);
    }
    world.mix(&mut attempts, seed);
    // the job's commit
    let mut commits = Vec::new();
    for task in 0..tasks {
        let Reply::Bytes(bytes) = world.send(
            0,
            Request::Get(format!("{magic}sets/task_{task}.pendingset").into()),
        ) else {
            unreachable!()
        };
        let set = json::read(&bytes).unwrap();
        for it in set.get("commits").unwrap().list() {
            let key: Key = it.get("destination").unwrap().text().unwrap().into();
            let parts: Rc<[(u32, String)]> = it
                .get("etags")
                .unwrap()
                .list()
                .iter()
                .zip(1..)
                .map(|(tag, number)| (number, tag.text().unwrap().to_string()))
                .collect();
            commits.push((
                key,
                it.get("upload").unwrap().number().unwrap(),
                parts,
                it.get("length").unwrap().number().unwrap(),
            ));
        }
    }
    let mut paths: Vec<&str> = commits.iter().map(|it| &it.0[DEST.len() + 1..]).collect();
    paths.sort_unstable();
    assert!(
        paths.windows(2).all(|it| it[0] != it[1]),
        "two tasks write one path"
    );
    let listed = paths
        .iter()
        .map(|it| format!("{it:?}"))
        .collect::<Vec<_>>()
        .join(",");
    let marker = format!("{{\"committer\":\"magic\",\"files\":[{listed}],\"job\":\"gen\",\"kind\":\"success\",\"version\":1}}");
    let bytes: u64 = commits.iter().map(|it| it.3).sum();
    for (key, upload, parts, _) in &commits {
        world.send(
            0,
            Request::Complete {
                key: key.clone(),
                upload: *upload,
                parts: parts.clone(),
            },
        );
    }
    world.send(
        0,
        Request::Put {
            key: format!("{DEST}/_SUCCESS").into(),
            bytes: marker.into_bytes().into(),
            header: None,
        },
    );
    // the clean
    let mut found: Vec<(Key, u64)> = Vec::new();
    loop {
        let Reply::Uploads(page, more) = world.send(
            0,
            Request::Uploads {
                prefix: format!("{DEST}/").into(),
                after: found.last().cloned(),
            },
        ) else {
            unreachable!()
        };
        found.extend(page);
        if !more {
            break;
        }
    }
    for (key, upload) in found {
        world.send(0, Request::Abort { key, upload });
    }
    world.sweep(&magic);
    println!(
        "tasks {tasks} files {} bytes {bytes} sent {} status 0",
        tasks * files,
        world.journal.len()
    );
}

#[cfg(test)]
mod tests {
    use crate::md5::{digest, hex};

    #[test]
    fn digests() {
        for (text, wanted) in [
            ("", "d41d8cd98f00b204e9800998ecf8427e"),
            ("hello", "5d41402abc4b2a76b9719d911017c592"),
            (
                "12345678901234567890123456789012345678901234567890123456789012345678901234567890",
                "57edf4a22be3c955ac49da2e2107b67a",
            ),
        ] {
            assert_eq!(hex(&digest(text.as_bytes())), wanted);
        }
    }
}
