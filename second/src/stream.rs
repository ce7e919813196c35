//! Recorded calls: their stream of bytes, and the lines of their answers.
//!
//! # The stream
//!
//! All numbers are little-endian. Call follows call without padding:
//!
//! ```text
//! u8   kind: 1 check, 2 pack, 3 start, 4 pass, 5 run, 6 audit, 7 page,
//!      8 take back, 9 desks; 0 ends the stream, and nothing follows it
//! ```
//!
//! Behind all kinds but desks stands:
//!
//! ```text
//! u32  length of the file in bytes, F
//!      F bytes of the file
//! u32  length of what is lent, L: for a pack, the output's bytes; for a
//!      start, pass, run, audit, page or take back, the table's numbers; 0 for
//!      a check
//!      L bytes (pack), or L numbers u32 (all others)
//! u32  length of the page slice in bytes, P (page only)
//!      P bytes, the page slice as it is lent (page only)
//! u32  length of the note in numbers, N (pass and take back only)
//!      N numbers u16, the note as it is lent (pass and take back only)
//! u32  share    (0 where the call takes none)
//! u32  budget   (0 where the call takes none)
//! u16  excess   (0 where the call takes none)
//! ```
//!
//! A length F, L or N of 0xFFFF_FFFF is followed by no bytes or numbers. As F it
//! means the same file as in the call before. As L it means the table as the
//! call before left it, its length included; it is used only where the call
//! before is a start, pass, run, audit, page or take back too. As N it means the
//! note as the last call that was lent one left it, its length included,
//! whatever calls came in between; before any such call it means an empty note.
//! P has no such length. For F and L a call for desks is no call before: they
//! mean the last one of another kind.
//!
//! Behind the kind of desks stands:
//!
//! ```text
//!      for each seat from 0 to 7:
//! u32  length of the seat's file in bytes, F
//!      F bytes of the file
//! u32  length of the seat's table in numbers, L
//!      L numbers u32, the table as it is lent
//! u32  budget
//! u16  excess
//!      after all seats:
//! u32  desks
//! u32  allowance
//! ```
//!
//! Here too a length F or L of 0xFFFF_FFFF is followed by no bytes or numbers. As
//! F it means the file that this seat had in the last call for desks, as L the
//! table as that call left it on this seat, its length included; before any such
//! call both are empty. Files and tables of other kinds have no part in it.
//!
//! No file has more than 65,540 bytes, and no table more than 32,800 numbers.
//!
//! # The answers
//!
//! One line of text for each call, its numbers separated by single spaces:
//!
//! ```text
//! check <refusal> <digest>
//! pack <refusal> <digest>
//! start <refusal> <digest>
//! pass <refusal> <outcome> <gap> <cost> <share> <over> <digest>
//! run <refusal> <ending> <judged> <share> <gap> <cost> <over> <digest>
//! audit <refusal> <gap> <cost> <over> <digest>
//! page <refusal> <digest>
//! take_back <refusal> <share> <digest>
//! desks <refusal> <turns> <seat 0> ... <seat 7> <digest>
//! ```
//!
//! Each seat of desks has seven numbers,
//! `<refusal> <ending> <judged> <share> <gap> <cost> <over>`.
//!
//! Outcome: 0 refused, 1 moved, 2 finest. Ending: 0 refused, 1 reached,
//! 2 finest, 3 spent, 4 waiting. Over: how many links of the judged table are on step
//! 256, and 0 in a refusal. The digest is the 64-bit FNV-1a digest of all that
//! was lent, as the call leaves it, in 16 hexadecimal digits: the output's
//! bytes of a pack; the table's numbers as little-endian bytes of a start, run
//! or audit (all of them, also those that the study does not use); the same of a
//! pass or take back, and after them the note's numbers as little-endian bytes
//! (all of them, also those that the study does not use); the page slice's bytes
//! of a page (all of them, also those after the first 30m, but not its table,
//! which it cannot change); the numbers of all eight tables as little-endian
//! bytes, in the order of the seats, of desks (all of them, also those that no
//! study uses); no bytes at all of a check.

use crate::calls::{self, AuditAnswer, PassAnswer, RunAnswer, TakeBackAnswer};
use crate::desks::{Desk, DesksAnswer, SEATS, desks};

/// The length that stands for "as it was left".
const SAME: u32 = u32::MAX;

/// Which call.
#[derive(Clone, Copy, Debug, PartialEq, Eq)]
#[repr(u8)]
pub enum Kind {
    /// Check.
    Check = 1,
    /// Pack.
    Pack = 2,
    /// Start.
    Start = 3,
    /// Pass.
    Pass = 4,
    /// Run.
    Run = 5,
    /// Audit.
    Audit = 6,
    /// Page.
    Page = 7,
    /// Taking back.
    TakeBack = 8,
    /// Desks.
    Desks = 9,
}

impl Kind {
    /// All kinds.
    pub const ALL: [Kind; 9] = [
        Kind::Check,
        Kind::Pack,
        Kind::Start,
        Kind::Pass,
        Kind::Run,
        Kind::Audit,
        Kind::Page,
        Kind::TakeBack,
        Kind::Desks,
    ];

    /// The word a line of answers begins with.
    pub fn word(self) -> &'static str {
        match self {
            Kind::Check => "check",
            Kind::Pack => "pack",
            Kind::Start => "start",
            Kind::Pass => "pass",
            Kind::Run => "run",
            Kind::Audit => "audit",
            Kind::Page => "page",
            Kind::TakeBack => "take_back",
            Kind::Desks => "desks",
        }
    }

    /// Whether the call is lent one flow table.
    pub fn has_table(self) -> bool {
        !matches!(self, Kind::Check | Kind::Pack | Kind::Desks)
    }

    /// Whether the call is lent a note.
    pub fn has_note(self) -> bool {
        matches!(self, Kind::Pass | Kind::TakeBack)
    }
}

/// What a call is lent.
#[derive(Clone, Debug, PartialEq, Eq)]
pub enum Lent {
    /// Nothing, as a check.
    Nothing,
    /// The table as the call before left it.
    Same,
    /// This table.
    Table(Vec<u32>),
    /// This output.
    Output(Vec<u8>),
    /// This table, or none for the table as the call before left it, and this
    /// page slice.
    Page(Option<Vec<u32>>, Vec<u8>),
    /// This table, or none for the table as the call before left it, and this
    /// note, or none for the note as it was left last.
    Noted(Option<Vec<u32>>, Option<Vec<u16>>),
    /// This on eight seats, as for desks.
    Desks(Box<LentDesks>),
}

/// What a call for desks is lent, and its two numbers.
#[derive(Clone, Debug, Default, PartialEq, Eq)]
pub struct LentDesks {
    /// The seats.
    pub seats: [LentSeat; SEATS],
    /// How many of them have a desk.
    pub desks: u32,
    /// Turns that may be made.
    pub allowance: u32,
}

/// What one seat is lent, and its two numbers.
#[derive(Clone, Debug, Default, PartialEq, Eq)]
pub struct LentSeat {
    /// The file, or none for the same file as in the last call for desks.
    pub file: Option<Vec<u8>>,
    /// The table, or none for the table as the last call for desks left it.
    pub table: Option<Vec<u32>>,
    /// Budget.
    pub budget: u32,
    /// Excess.
    pub excess: u16,
}

/// One recorded call.
#[derive(Clone, Debug, PartialEq, Eq)]
pub struct Call {
    /// Which call.
    pub kind: Kind,
    /// The file, or none for the same file as in the call before; none for
    /// desks, whose seats have files of their own.
    pub file: Option<Vec<u8>>,
    /// What is lent.
    pub lent: Lent,
    /// Share, for a pass, an audit, a page or taking back.
    pub share: u32,
    /// Budget, for a run.
    pub budget: u32,
    /// Excess, for a run.
    pub excess: u16,
}

impl Call {
    /// A call for desks that are lent this.
    pub fn for_desks(lent: LentDesks) -> Self {
        Call {
            kind: Kind::Desks,
            file: None,
            lent: Lent::Desks(Box::new(lent)),
            share: 0,
            budget: 0,
            excess: 0,
        }
    }
}

/// Writes calls as a stream.
pub fn write_calls(calls: &[Call]) -> Vec<u8> {
    let mut stream = Vec::new();
    for call in calls {
        stream.push(call.kind as u8);
        if let Lent::Desks(lent) = &call.lent {
            write_desks(&mut stream, lent);
        } else {
            write_call(&mut stream, call);
        }
    }
    stream.push(0);
    stream
}

/// Writes what stands behind the kind of a call that is not for desks.
fn write_call(stream: &mut Vec<u8>, call: &Call) {
    write_bytes(stream, call.file.as_deref());
    match &call.lent {
        Lent::Nothing | Lent::Desks(_) => stream.extend(0_u32.to_le_bytes()),
        Lent::Same => write_numbers(stream, None, u32::to_le_bytes),
        Lent::Table(table) => write_numbers(stream, Some(table), u32::to_le_bytes),
        Lent::Output(output) => write_bytes(stream, Some(output)),
        Lent::Page(table, page) => {
            write_numbers(stream, table.as_deref(), u32::to_le_bytes);
            write_bytes(stream, Some(page));
        }
        Lent::Noted(table, note) => {
            write_numbers(stream, table.as_deref(), u32::to_le_bytes);
            write_numbers(stream, note.as_deref(), u16::to_le_bytes);
        }
    }
    stream.extend(call.share.to_le_bytes());
    stream.extend(call.budget.to_le_bytes());
    stream.extend(call.excess.to_le_bytes());
}

/// Writes what stands behind the kind of a call for desks.
fn write_desks(stream: &mut Vec<u8>, lent: &LentDesks) {
    for seat in &lent.seats {
        write_bytes(stream, seat.file.as_deref());
        write_numbers(stream, seat.table.as_deref(), u32::to_le_bytes);
        stream.extend(seat.budget.to_le_bytes());
        stream.extend(seat.excess.to_le_bytes());
    }
    stream.extend(lent.desks.to_le_bytes());
    stream.extend(lent.allowance.to_le_bytes());
}

/// Writes a length and its bytes, or the length of what stays the same.
fn write_bytes(stream: &mut Vec<u8>, bytes: Option<&[u8]>) {
    write_numbers(stream, bytes, u8::to_le_bytes);
}

/// Writes a length and its numbers, of so many bytes each, or the length of
/// what stays the same.
fn write_numbers<T: Copy, const BYTES: usize>(
    stream: &mut Vec<u8>,
    numbers: Option<&[T]>,
    bytes: fn(T) -> [u8; BYTES],
) {
    let length = numbers.map_or(SAME, |numbers| numbers.len() as u32);
    stream.extend(length.to_le_bytes());
    let numbers = numbers.into_iter().flatten();
    stream.extend(numbers.flat_map(|&number| bytes(number)));
}

/// Reads a stream, or tells what is wrong with it.
pub fn read_calls(stream: &[u8]) -> Result<Vec<Call>, String> {
    let mut reader = Reader(stream);
    let mut calls: Vec<Call> = Vec::new();
    loop {
        let [byte] = reader.bytes()?;
        if byte == 0 {
            break;
        }
        let kind = *Kind::ALL
            .get(usize::from(byte) - 1)
            .ok_or_else(|| format!("there is no kind {byte}"))?;
        let call = if kind == Kind::Desks {
            reader.desks()?
        } else {
            let before = calls.iter().rfind(|call| call.kind != Kind::Desks);
            reader.call(kind, before)?
        };
        calls.push(call);
    }
    if reader.0.is_empty() {
        Ok(calls)
    } else {
        Err("the stream goes on after its end".to_string())
    }
}

/// What is left of a stream.
struct Reader<'a>(&'a [u8]);

impl Reader<'_> {
    /// The next bytes.
    fn take(&mut self, length: usize) -> Result<&[u8], String> {
        let (here, after) = self
            .0
            .split_at_checked(length)
            .ok_or_else(|| "the stream ends within a call".to_string())?;
        self.0 = after;
        Ok(here)
    }

    /// So many bytes.
    fn bytes<const BYTES: usize>(&mut self) -> Result<[u8; BYTES], String> {
        let mut bytes = [0; BYTES];
        bytes.copy_from_slice(self.take(BYTES)?);
        Ok(bytes)
    }

    /// A length and its numbers, of so many bytes each; none for the length of
    /// what stays the same.
    fn numbers<T, const BYTES: usize>(
        &mut self,
        number: fn([u8; BYTES]) -> T,
    ) -> Result<Option<Vec<T>>, String> {
        let length = u32::from_le_bytes(self.bytes()?);
        if length == SAME {
            return Ok(None);
        }
        let (chunks, _) = self.take(BYTES * length as usize)?.as_chunks();
        Ok(Some(chunks.iter().map(|&bytes| number(bytes)).collect()))
    }

    /// A call for desks.
    fn desks(&mut self) -> Result<Call, String> {
        let mut lent = LentDesks::default();
        for seat in &mut lent.seats {
            *seat = self.seat()?;
        }
        lent.desks = u32::from_le_bytes(self.bytes()?);
        lent.allowance = u32::from_le_bytes(self.bytes()?);
        Ok(Call::for_desks(lent))
    }

    /// One of its seats.
    fn seat(&mut self) -> Result<LentSeat, String> {
        Ok(LentSeat {
            file: self.numbers(u8::from_le_bytes)?,
            table: self.numbers(u32::from_le_bytes)?,
            budget: u32::from_le_bytes(self.bytes()?),
            excess: u16::from_le_bytes(self.bytes()?),
        })
    }

    /// A call of this kind, not for desks, after this one.
    fn call(&mut self, kind: Kind, before: Option<&Call>) -> Result<Call, String> {
        let file = self.numbers(u8::from_le_bytes)?;
        if file.is_none() && before.is_none() {
            return Err("the first call has no file".to_string());
        }
        Ok(Call {
            kind,
            file,
            lent: self.lent(kind, before)?,
            share: u32::from_le_bytes(self.bytes()?),
            budget: u32::from_le_bytes(self.bytes()?),
            excess: u16::from_le_bytes(self.bytes()?),
        })
    }

    /// What a call of this kind after this one is lent.
    fn lent(&mut self, kind: Kind, before: Option<&Call>) -> Result<Lent, String> {
        if !kind.has_table() {
            let output = self.numbers(u8::from_le_bytes)?;
            return match (kind, output) {
                (Kind::Pack, Some(output)) => Ok(Lent::Output(output)),
                (Kind::Check, Some(output)) if output.is_empty() => Ok(Lent::Nothing),
                (Kind::Check, Some(_)) => Err("a check is lent nothing".to_string()),
                _ => Err("there is no table to take over".to_string()),
            };
        }
        let table = self.numbers(u32::from_le_bytes)?;
        if table.is_none() && !before.is_some_and(|call| call.kind.has_table()) {
            return Err("there is no table to take over".to_string());
        }
        if kind.has_note() {
            return Ok(Lent::Noted(table, self.numbers(u16::from_le_bytes)?));
        }
        if kind == Kind::Page {
            let page = self.numbers(u8::from_le_bytes)?;
            let page = page.ok_or_else(|| "a page slice is not taken over".to_string())?;
            return Ok(Lent::Page(table, page));
        }
        Ok(table.map_or(Lent::Same, Lent::Table))
    }
}

/// The nine calls, whoever answers them.
pub trait Calls {
    /// Check.
    fn check(&self, file: &[u8]) -> u8;
    /// Pack.
    fn pack(&self, file: &[u8], output: &mut [u8]) -> u8;
    /// Start.
    fn start(&self, file: &[u8], table: &mut [u32]) -> u8;
    /// Pass.
    fn pass(&self, file: &[u8], table: &mut [u32], share: u32, note: &mut [u16]) -> PassAnswer;
    /// Run.
    fn run(&self, file: &[u8], table: &mut [u32], budget: u32, excess: u16) -> RunAnswer;
    /// Audit.
    fn audit(&self, file: &[u8], table: &[u32], share: u32) -> AuditAnswer;
    /// Page.
    fn page(&self, file: &[u8], table: &[u32], share: u32, page: &mut [u8]) -> u8;
    /// Taking back.
    fn take_back(&self, file: &[u8], table: &mut [u32], share: u32, note: &[u16])
    -> TakeBackAnswer;
    /// Desks.
    fn desks(&self, seats: &mut [Desk<'_>; SEATS], desks: u32, allowance: u32) -> DesksAnswer;
}

/// The calls of this library.
pub struct Second;

impl Calls for Second {
    fn check(&self, file: &[u8]) -> u8 {
        calls::check(file)
    }

    fn pack(&self, file: &[u8], output: &mut [u8]) -> u8 {
        calls::pack(file, output)
    }

    fn start(&self, file: &[u8], table: &mut [u32]) -> u8 {
        calls::start(file, table)
    }

    fn pass(&self, file: &[u8], table: &mut [u32], share: u32, note: &mut [u16]) -> PassAnswer {
        calls::pass(file, table, share, note)
    }

    fn run(&self, file: &[u8], table: &mut [u32], budget: u32, excess: u16) -> RunAnswer {
        calls::run(file, table, budget, excess)
    }

    fn audit(&self, file: &[u8], table: &[u32], share: u32) -> AuditAnswer {
        calls::audit(file, table, share)
    }

    fn page(&self, file: &[u8], table: &[u32], share: u32, page: &mut [u8]) -> u8 {
        calls::page(file, table, share, page)
    }

    fn take_back(
        &self,
        file: &[u8],
        table: &mut [u32],
        share: u32,
        note: &[u16],
    ) -> TakeBackAnswer {
        calls::take_back(file, table, share, note)
    }

    fn desks(&self, seats: &mut [Desk<'_>; SEATS], count: u32, allowance: u32) -> DesksAnswer {
        desks(seats, count, allowance)
    }
}

/// What a call answered.
#[derive(Clone, Copy, Debug, PartialEq, Eq)]
#[expect(
    clippy::large_enum_variant,
    reason = "few replies are kept at a time, and all can be copied"
)]
pub enum Reply {
    /// Check.
    Check(u8),
    /// Pack.
    Pack(u8),
    /// Start.
    Start(u8),
    /// Pass.
    Pass(PassAnswer),
    /// Run.
    Run(RunAnswer),
    /// Audit.
    Audit(AuditAnswer),
    /// Page.
    Page(u8),
    /// Taking back.
    TakeBack(TakeBackAnswer),
    /// Desks.
    Desks(DesksAnswer),
}

impl Reply {
    /// The refusal's number, or 0.
    pub fn refusal(&self) -> u8 {
        match self {
            Reply::Check(refusal)
            | Reply::Pack(refusal)
            | Reply::Start(refusal)
            | Reply::Page(refusal) => *refusal,
            Reply::Pass(answer) => answer.refusal,
            Reply::Run(answer) => answer.refusal,
            Reply::Audit(answer) => answer.refusal,
            Reply::TakeBack(answer) => answer.refusal,
            Reply::Desks(answer) => answer.refusal,
        }
    }

    /// Links of the judged table on step 256; 0 where the call judges none, and
    /// of desks, which have a count each.
    pub fn over(&self) -> u32 {
        match self {
            Reply::Pass(answer) => answer.over,
            Reply::Run(answer) => answer.over,
            Reply::Audit(answer) => answer.over,
            _ => 0,
        }
    }

    /// The line of answers, without its end.
    pub fn line(&self, digest: u64) -> String {
        match self {
            Reply::Check(refusal) => format!("check {refusal} {digest:016x}"),
            Reply::Pack(refusal) => format!("pack {refusal} {digest:016x}"),
            Reply::Start(refusal) => format!("start {refusal} {digest:016x}"),
            Reply::Pass(PassAnswer {
                refusal,
                outcome,
                gap,
                cost,
                share,
                over,
            }) => format!("pass {refusal} {outcome} {gap} {cost} {share} {over} {digest:016x}"),
            Reply::Run(answer) => format!("run {} {digest:016x}", run_numbers(answer)),
            Reply::Audit(AuditAnswer {
                refusal,
                gap,
                cost,
                over,
            }) => format!("audit {refusal} {gap} {cost} {over} {digest:016x}"),
            Reply::Page(refusal) => format!("page {refusal} {digest:016x}"),
            Reply::TakeBack(TakeBackAnswer { refusal, share }) => {
                format!("take_back {refusal} {share} {digest:016x}")
            }
            Reply::Desks(DesksAnswer {
                refusal,
                turns,
                seats,
            }) => {
                let seats = seats.each_ref().map(run_numbers).join(" ");
                format!("desks {refusal} {turns} {seats} {digest:016x}")
            }
        }
    }
}

/// The numbers of a run's answer in a line.
fn run_numbers(answer: &RunAnswer) -> String {
    let RunAnswer {
        refusal,
        ending,
        judged,
        share,
        gap,
        cost,
        over,
    } = answer;
    format!("{refusal} {ending} {judged} {share} {gap} {cost} {over}")
}

/// The 64-bit FNV-1a digest.
pub fn digest(bytes: impl IntoIterator<Item = u8>) -> u64 {
    bytes
        .into_iter()
        .fold(0xCBF2_9CE4_8422_2325, |digest, byte| {
            (digest ^ u64::from(byte)).wrapping_mul(0x0000_0100_0000_01B3)
        })
}

/// A seat as the last call for desks left it.
#[derive(Clone, Debug, Default, PartialEq, Eq)]
pub struct Seat {
    /// The file.
    pub file: Vec<u8>,
    /// The table.
    pub table: Vec<u32>,
}

/// Makes recorded calls one after the other.
#[derive(Clone, Debug, Default, PartialEq, Eq)]
pub struct Player {
    /// The file of the last call that was not for desks.
    pub file: Vec<u8>,
    /// The table as the last call that was lent one left it.
    pub table: Vec<u32>,
    /// The output as the last pack left it.
    pub output: Vec<u8>,
    /// The page slice as the last page left it.
    pub page: Vec<u8>,
    /// The note as the last pass or taking back left it.
    pub note: Vec<u16>,
    /// The seats as the last call for desks left them.
    pub seats: [Seat; SEATS],
}

impl Seat {
    /// Puts what the seat is lent in the place of what was left.
    fn take_over(&mut self, lent: &LentSeat) {
        if let Some(file) = &lent.file {
            self.file.clone_from(file);
        }
        if let Some(table) = &lent.table {
            self.table.clone_from(table);
        }
    }
}

impl Player {
    /// Makes one call.
    pub fn play(&mut self, implementation: &impl Calls, call: &Call) -> Reply {
        if let Lent::Desks(lent) = &call.lent {
            return Reply::Desks(self.play_desks(implementation, lent));
        }
        if let Some(file) = &call.file {
            self.file.clone_from(file);
        }
        self.take_over(&call.lent);
        let (file, table) = (&self.file, &mut self.table);
        let (page, note) = (&mut self.page, &mut self.note);
        let share = call.share;
        match call.kind {
            Kind::Check => Reply::Check(implementation.check(file)),
            Kind::Pack => Reply::Pack(implementation.pack(file, &mut self.output)),
            Kind::Start => Reply::Start(implementation.start(file, table)),
            Kind::Pass => Reply::Pass(implementation.pass(file, table, share, note)),
            Kind::Run => Reply::Run(implementation.run(file, table, call.budget, call.excess)),
            Kind::Audit => Reply::Audit(implementation.audit(file, table, share)),
            Kind::Page => Reply::Page(implementation.page(file, table, share, page)),
            Kind::TakeBack => Reply::TakeBack(implementation.take_back(file, table, share, note)),
            Kind::Desks => panic!("a call for desks is not lent eight seats"),
        }
    }

    /// Makes one call for desks.
    fn play_desks(&mut self, implementation: &impl Calls, lent: &LentDesks) -> DesksAnswer {
        let mut left = self.seats.iter_mut().zip(&lent.seats);
        let mut seats = std::array::from_fn(|_| {
            let (seat, lent) = left.next().expect("there are eight seats");
            seat.take_over(lent);
            Desk {
                file: &seat.file,
                table: &mut seat.table,
                budget: lent.budget,
                excess: lent.excess,
            }
        });
        implementation.desks(&mut seats, lent.desks, lent.allowance)
    }

    /// Puts what a call is lent in the place of what was left.
    fn take_over(&mut self, lent: &Lent) {
        match lent {
            Lent::Nothing | Lent::Same | Lent::Desks(_) => {}
            Lent::Table(table) => self.table.clone_from(table),
            Lent::Output(output) => self.output.clone_from(output),
            Lent::Page(table, page) => {
                if let Some(table) = table {
                    self.table.clone_from(table);
                }
                self.page.clone_from(page);
            }
            Lent::Noted(table, note) => {
                if let Some(table) = table {
                    self.table.clone_from(table);
                }
                if let Some(note) = note {
                    self.note.clone_from(note);
                }
            }
        }
    }

    /// Digest of what the last call, of this kind, was lent.
    pub fn digest(&self, kind: Kind) -> u64 {
        let table = self.table.iter().flat_map(|number| number.to_le_bytes());
        let tables = self.seats.iter().flat_map(|seat| &seat.table);
        let note = self.note.iter().flat_map(|number| number.to_le_bytes());
        match kind {
            Kind::Check => digest([]),
            Kind::Pack => digest(self.output.iter().copied()),
            Kind::Page => digest(self.page.iter().copied()),
            Kind::Pass | Kind::TakeBack => digest(table.chain(note)),
            Kind::Start | Kind::Run | Kind::Audit => digest(table),
            Kind::Desks => digest(tables.flat_map(|number| number.to_le_bytes())),
        }
    }
}

/// The lines that answer a list of calls, each with its end.
pub fn answers(implementation: &impl Calls, calls: &[Call]) -> String {
    let mut player = Player::default();
    let mut text = String::new();
    for call in calls {
        let reply = player.play(implementation, call);
        text += &reply.line(player.digest(call.kind));
        text.push('\n');
    }
    text
}
