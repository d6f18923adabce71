//! What a run of a command is to end with.

/// How a run ends, and with which note.
#[derive(Clone, PartialEq, Eq, Debug)]
pub enum End {
    Done,
    Usage(String),
    Refused(String),
    Limit,
}

impl End {
    pub fn status(&self) -> i32 {
        match self {
            End::Done => 0,
            End::Usage(_) => 2,
            End::Refused(_) => 3,
            End::Limit => 7,
        }
    }

    /// The line on standard error.
    pub fn note(&self) -> String {
        match self {
            End::Done => String::new(),
            End::Usage(fault) => format!("tc: usage: {fault}\n"),
            End::Refused(fault) => format!("tc: refused: {fault}\n"),
            End::Limit => "tc: limit\n".into(),
        }
    }

    /// A fault of a file, with its name and the byte at which it is.
    pub fn at_byte(name: &str, place: u64) -> End {
        End::Refused(format!("{name} at byte {place}"))
    }
}

/// What a run writes, and how it ends.
#[derive(Clone, PartialEq, Eq, Debug)]
pub struct Run {
    pub output: Vec<u8>,
    pub end: End,
}

impl Run {
    pub fn usage(fault: String) -> Run {
        Run { output: Vec::new(), end: End::Usage(fault) }
    }

    pub fn text(output: String, end: End) -> Run {
        Run { output: output.into_bytes(), end }
    }
}
