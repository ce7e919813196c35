//! The proved calls and the second implementation's side by side, and how many
//! calls came to what.

use crate::common::Proved;
use second::stream::{Call, Kind, Lent, Player, Reply, Second};

/// Refusals have the numbers 1 to 25; an accepted call has 0.
pub const NUMBERS: usize = 26;

/// Both implementations, side by side.
#[derive(Default)]
pub struct Pair {
    second: Player,
    /// What the calls left, of both.
    pub proved: Player,
    pub calls: u64,
    pub accepted: u64,
    /// Answers that count links past their curves.
    pub over: u64,
    /// Calls by kind and by the number answered.
    answers: [[u64; NUMBERS]; Kind::ALL.len()],
}

impl Pair {
    /// Makes one call on both, and compares what comes of it.
    pub fn play(&mut self, call: &Call) -> Reply {
        let expected = self.second.play(&Second, call);
        let reply = self.proved.play(&Proved, call);
        let (kind, number) = (call.kind, self.calls);
        assert_eq!(reply, expected, "answer of call {number}, a {kind:?}");
        let same = self.proved == self.second;
        assert!(same, "what call {number}, a {kind:?}, left differs");
        self.calls += 1;
        self.accepted += u64::from(reply.refusal() == 0);
        self.over += u64::from(reply.over() > 0);
        self.answers[place(kind)][usize::from(reply.refusal())] += 1;
        reply
    }

    pub fn call(&mut self, kind: Kind, file: &[u8], lent: Lent, numbers: Numbers) -> Reply {
        self.play(&Call {
            kind,
            file: Some(file.to_vec()),
            lent,
            share: numbers.share,
            budget: numbers.budget,
            excess: numbers.excess,
        })
    }

    /// How many calls of a kind were answered each number.
    pub fn answered(&self, kind: Kind) -> &[u64; NUMBERS] {
        &self.answers[place(kind)]
    }

    /// The numbers that no call of a kind was answered.
    pub fn never(&self, kind: Kind) -> Vec<usize> {
        let answered = self.answered(kind);
        (0..NUMBERS)
            .filter(|&number| answered[number] == 0)
            .collect()
    }
}

/// Kinds are numbered from 1 on.
fn place(kind: Kind) -> usize {
    kind as usize - 1
}

/// What a call is handed besides the file and what it is lent.
#[derive(Clone, Copy, Default)]
pub struct Numbers {
    pub share: u32,
    pub budget: u32,
    pub excess: u16,
}

impl Numbers {
    pub fn share(share: u32) -> Self {
        Numbers {
            share,
            ..Numbers::default()
        }
    }
}
