//! An attempt of a task, with the magic committer.

use crate::store::{Bytes, Key, Reply, Request};
use crate::{World, DEST};
use std::rc::Rc;

#[derive(Clone, Copy, PartialEq)]
pub enum Op {
    Write,
    Commit,
}

#[derive(Clone, Copy)]
enum Stage {
    Idle,
    Create(usize),
    Part(usize),
    Marker(usize),
    Record(usize),
    List,
    Read(usize),
    Set,
}

pub struct Attempt {
    pub task: u64,
    pub attempt: u64,
    files: Rc<[(String, Bytes)]>,
    uploads: Vec<(u64, String)>,
    listed: Vec<Key>,
    records: Vec<Bytes>,
    directory: String,
    stage: Stage,
}

impl Attempt {
    pub fn new(task: u64, attempt: u64, files: Rc<[(String, Bytes)]>) -> Attempt {
        let directory = format!("{DEST}/__magic/job-gen/tasks/{task}_{attempt}/__base/");
        Attempt {
            task,
            attempt,
            files,
            uploads: Vec::new(),
            listed: Vec::new(),
            records: Vec::new(),
            directory,
            stage: Stage::Idle,
        }
    }

    pub fn start(&mut self, op: Op) {
        self.stage = if op == Op::Commit {
            Stage::List
        } else {
            Stage::Create(0)
        };
    }

    pub fn is_busy(&self) -> bool {
        !matches!(self.stage, Stage::Idle)
    }

    fn record(&self, at: usize) -> Bytes {
        let ((path, bytes), (upload, tag)) = (&self.files[at], &self.uploads[at]);
        format!(
            "{{\"attempt\":{},\"bucket\":\"lake\",\"destination\":\"{DEST}/{path}\",\"etags\":[\"{tag}\"],\"kind\":\"pending\",\"length\":{length},\"sizes\":[{length}],\"task\":{},\"upload\":{upload},\"version\":2}}",
            self.attempt, self.task, length = bytes.len()
        )
        .into_bytes()
        .into()
    }

    fn marker_key(&self, at: usize) -> String {
        format!("{}{}", self.directory, self.files[at].0)
    }

    /// Sends the next request of the attempt. Gives false once its operation is over.
    pub fn send(&mut self, world: &mut World, actor: u32) -> bool {
        self.stage = match self.stage {
            Stage::Idle => Stage::Idle,
            Stage::Create(at) => {
                let Reply::Upload(upload) = world.send(
                    actor,
                    Request::Create(format!("{DEST}/{}", self.files[at].0).into()),
                ) else {
                    unreachable!()
                };
                self.uploads.push((upload, String::new()));
                Stage::Part(at)
            }
            Stage::Part(at) => {
                let (path, bytes) = &self.files[at];
                let Reply::Tag(tag) = world.send(
                    actor,
                    Request::Part {
                        key: format!("{DEST}/{path}").into(),
                        upload: self.uploads[at].0,
                        number: 1,
                        bytes: bytes.clone(),
                    },
                ) else {
                    unreachable!()
                };
                self.uploads[at].1 = tag;
                Stage::Marker(at)
            }
            Stage::Marker(at) => {
                world.send(
                    actor,
                    Request::Put {
                        key: self.marker_key(at).into(),
                        bytes: Rc::new([]),
                        header: Some(self.files[at].1.len() as u64),
                    },
                );
                Stage::Record(at)
            }
            Stage::Record(at) => {
                world.send(
                    actor,
                    Request::Put {
                        key: format!("{}.pending", self.marker_key(at)).into(),
                        bytes: self.record(at),
                        header: None,
                    },
                );
                if at + 1 < self.files.len() {
                    Stage::Create(at + 1)
                } else {
                    Stage::Idle
                }
            }
            Stage::List => {
                let after = self.listed.last().cloned().unwrap_or_else(|| "".into());
                let Reply::Keys(page, more) = world.send(
                    actor,
                    Request::Page {
                        prefix: self.directory.as_str().into(),
                        after,
                    },
                ) else {
                    unreachable!()
                };
                self.listed.extend(page);
                if more {
                    Stage::List
                } else {
                    self.listed.retain(|key| key.ends_with(".pending"));
                    Stage::Read(0)
                }
            }
            Stage::Read(at) => {
                let Reply::Bytes(bytes) = world.send(actor, Request::Get(self.listed[at].clone()))
                else {
                    unreachable!()
                };
                crate::json::read(&bytes).expect("a record");
                self.records.push(bytes);
                if at + 1 < self.listed.len() {
                    Stage::Read(at + 1)
                } else {
                    Stage::Set
                }
            }
            Stage::Set => {
                let commits = self
                    .records
                    .iter()
                    .map(|it| std::str::from_utf8(it).unwrap())
                    .collect::<Vec<_>>()
                    .join(",");
                let set = format!("{{\"attempt\":{},\"commits\":[{commits}],\"job\":\"gen\",\"kind\":\"pendingset\",\"task\":{},\"version\":1}}", self.attempt, self.task);
                world.send(
                    actor,
                    Request::Put {
                        key: format!("{DEST}/__magic/job-gen/sets/task_{}.pendingset", self.task)
                            .into(),
                        bytes: set.into_bytes().into(),
                        header: None,
                    },
                );
                Stage::Idle
            }
        };
        self.is_busy()
    }
}
