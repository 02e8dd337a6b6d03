//! The calls of include/tishkolan.h on layers: their numbers, and one request for one of them.

use super::expected::expected;
use super::survey::{self, Fault};
use crate::lent::{self, Answer, Called};

/// Which of the two kinds of layer.
#[derive(Debug, Clone, Copy, PartialEq, Eq)]
pub enum Of {
    Flags,
    Values,
}

impl Of {
    pub const BOTH: [Of; 2] = [Of::Flags, Of::Values];

    /// The bytes of a record.
    pub fn width(self) -> usize {
        match self {
            Of::Flags => 20,
            Of::Values => 24,
        }
    }
}

#[derive(Debug, Clone, Copy, PartialEq, Eq)]
pub enum Call {
    Set(Of),
    Get(Of),
    Remove(Of),
    Contains(Of),
    Clear(Of),
    Count(Of),
    IsEmpty(Of),
    List(Of),
    Aggregate,
    Rollup,
    Load,
    Write,
    HasFlag,
    SetFlag,
    ClearFlag,
    IsBlocked,
}

/// Each call has the number under which layers.c and the vectors know it, and its name in the
/// header without `tishkolan_`.
pub const ALL: [(u8, Call, &str); 24] = [
    (1, Call::Set(Of::Flags), "flags_set"),
    (2, Call::Get(Of::Flags), "flags_get"),
    (3, Call::Remove(Of::Flags), "flags_remove"),
    (4, Call::Contains(Of::Flags), "flags_contains"),
    (5, Call::Clear(Of::Flags), "flags_clear"),
    (6, Call::Count(Of::Flags), "flags_count"),
    (7, Call::IsEmpty(Of::Flags), "flags_is_empty"),
    (8, Call::List(Of::Flags), "flags_list"),
    (11, Call::Set(Of::Values), "values_set"),
    (12, Call::Get(Of::Values), "values_get"),
    (13, Call::Remove(Of::Values), "values_remove"),
    (14, Call::Contains(Of::Values), "values_contains"),
    (15, Call::Clear(Of::Values), "values_clear"),
    (16, Call::Count(Of::Values), "values_count"),
    (17, Call::IsEmpty(Of::Values), "values_is_empty"),
    (18, Call::List(Of::Values), "values_list"),
    (21, Call::Aggregate, "values_aggregate"),
    (22, Call::Rollup, "values_rollup"),
    (31, Call::Load, "survey_load"),
    (32, Call::Write, "survey_write"),
    (41, Call::HasFlag, "has_flag"),
    (42, Call::SetFlag, "set_flag"),
    (43, Call::ClearFlag, "clear_flag"),
    (44, Call::IsBlocked, "is_blocked"),
];

pub type Request = lent::Request<Call>;

impl Called for Call {
    const BUFFERS: usize = 3;
    const COUNTED: &'static str = "answered, refused";

    fn all() -> Vec<(u8, &'static str)> {
        ALL.iter()
            .map(|&(number, _, name)| (number, name))
            .collect()
    }

    fn number(self) -> u8 {
        ALL.iter().find(|row| row.1 == self).unwrap().0
    }

    fn numbers(self) -> &'static [&'static str] {
        match self {
            Call::Set(_) => &["count", "kept"],
            Call::Clear(_) => &[],
            Call::Aggregate => &["count", "how"],
            Call::Rollup => &["fine count", "how", "coarse count"],
            Call::Load | Call::Write => &["flags count", "values count"],
            Call::HasFlag | Call::SetFlag | Call::ClearFlag => &["flags", "flag"],
            Call::IsBlocked => &["flags"],
            _ => &["count"],
        }
    }

    fn buffers(self) -> &'static [&'static str] {
        match self {
            Call::Set(_) | Call::Get(_) | Call::Remove(_) | Call::Contains(_) => &["table", "cell"],
            Call::Clear(_) | Call::Count(_) | Call::IsEmpty(_) => &["table"],
            Call::List(_) => &["table", "out"],
            Call::Aggregate => &["table", "cells"],
            Call::Rollup => &["fine", "coarse"],
            Call::Load => &["file", "flags", "values"],
            Call::Write => &["flags", "values", "out"],
            Call::HasFlag | Call::SetFlag | Call::ClearFlag | Call::IsBlocked => &[],
        }
    }

    fn expected(request: &Request) -> Answer {
        expected(request)
    }

    fn counted(answer: &Answer) -> u32 {
        answer.refusal.number
    }

    fn kinds() -> &'static [&'static str] {
        &[
            "files loaded",
            "files without room",
            "files with a bad head",
            "flags that do not ascend",
            "values that do not ascend",
        ]
    }

    fn kind(request: &Request, answer: &Answer) -> Option<usize> {
        if request.call != Call::Load {
            return None;
        }
        Some(match survey::sections(&request.buffers[0]) {
            Ok(_) if answer.refusal.number == 0 => 0,
            Ok(_) => 1,
            Err((Fault::Head, _)) => 2,
            Err((Fault::Flags, _)) => 3,
            Err((Fault::Values, _)) => 4,
        })
    }
}
