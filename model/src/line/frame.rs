//! Document 01, "Clocks and steps", and requests 2026-01, 2026-04 and 2026-07: a frame,
//! who sends it, and its bytes.

use std::fmt;

use super::Line;
use crate::answer::{FRAME_KIND, FRAME_LENGTH, FRAME_VERSION, NO_SUCH_CONSOLE};
use crate::plan::length_field;
use crate::record::Record;

/// What is asked. The record of a Feed is looked at only after the node: it
/// stays bytes here.
#[derive(Clone, Copy, Debug, PartialEq, Eq)]
pub enum Frame {
    Feed {
        node: u8,
        record: [u8; Record::LENGTH],
    },
    Send {
        channel: u8,
    },
    Take {
        channel: u8,
    },
    Crash {
        node: u8,
    },
    Recover {
        node: u8,
    },
    Trim {
        node: u8,
    },
    Ask {
        node: u8,
    },
    Commit {
        node: u8,
    },
}

/// Who asks. "Frames of version 2 carry a console number 0..3 after the kind and
/// are one byte longer; version 1 frames are console 0."
#[derive(Clone, Copy, Debug, PartialEq, Eq)]
pub enum Caller {
    /// In a frame of version 1.
    Unnamed,
    /// In a frame of version 2.
    Console(u8),
}

impl Caller {
    pub const ALL: [Caller; 1 + Line::CONSOLES] = [
        Caller::Unnamed,
        Caller::Console(0),
        Caller::Console(1),
        Caller::Console(2),
        Caller::Console(3),
    ];

    pub fn console(self) -> usize {
        match self {
            Caller::Unnamed => 0,
            Caller::Console(console) => console.into(),
        }
    }
}

impl fmt::Display for Caller {
    fn fmt(&self, out: &mut fmt::Formatter) -> fmt::Result {
        match self {
            Caller::Unnamed => write!(out, "version 1"),
            Caller::Console(console) => write!(out, "version 2, console {console}"),
        }
    }
}

impl Frame {
    pub const VERSIONS: [u8; 2] = [1, 2];
    /// What a length field says at the least.
    pub const LEAST_LENGTH: usize = 5;

    /// Checks 9 to 11 and then 25. "A frame: length of the frame (2 bytes),
    /// version 1, kind, node number (belt number for kinds 2 and 3); kind 1 adds
    /// a record. So 13 bytes for kind 1, else 5." In version 2 the console comes
    /// after the kind: 14 bytes, else 6.
    pub fn read(bytes: &[u8]) -> Result<(Caller, Frame), u32> {
        if bytes.len() < Frame::LEAST_LENGTH || bytes.len() != length_field(bytes) {
            return Err(FRAME_LENGTH);
        }
        let (version, kind, rest) = (bytes[2], bytes[3], &bytes[4..]);
        let (caller, asked) = match version {
            1 => (Caller::Unnamed, rest),
            2 => (Caller::Console(rest[0]), &rest[1..]),
            _ => return Err(FRAME_VERSION),
        };
        let frame = match (kind, asked) {
            (1, &[node, ref record @ ..]) => Frame::Feed {
                node,
                record: record.try_into().map_err(|_| FRAME_KIND)?,
            },
            (2, &[channel]) => Frame::Send { channel },
            (3, &[channel]) => Frame::Take { channel },
            (4, &[node]) => Frame::Crash { node },
            (5, &[node]) => Frame::Recover { node },
            (6, &[node]) => Frame::Trim { node },
            (7, &[node]) => Frame::Ask { node },
            (8, &[node]) => Frame::Commit { node },
            _ => return Err(FRAME_KIND),
        };
        if caller.console() >= Line::CONSOLES {
            return Err(NO_SUCH_CONSOLE);
        }
        Ok((caller, frame))
    }

    /// In version 1.
    pub fn write(&self) -> Vec<u8> {
        self.sent_by(Caller::Unnamed)
    }

    /// Also by a console that there is not.
    pub fn sent_by(&self, caller: Caller) -> Vec<u8> {
        let (kind, place) = match *self {
            Frame::Feed { node, .. } => (1, node),
            Frame::Send { channel } => (2, channel),
            Frame::Take { channel } => (3, channel),
            Frame::Crash { node } => (4, node),
            Frame::Recover { node } => (5, node),
            Frame::Trim { node } => (6, node),
            Frame::Ask { node } => (7, node),
            Frame::Commit { node } => (8, node),
        };
        let mut bytes = match caller {
            Caller::Unnamed => vec![0, 0, 1, kind, place],
            Caller::Console(console) => vec![0, 0, 2, kind, console, place],
        };
        if let Frame::Feed { record, .. } = self {
            bytes.extend(record);
        }
        bytes[1] = bytes.len() as u8;
        bytes
    }
}
