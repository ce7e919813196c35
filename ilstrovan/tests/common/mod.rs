//! The proved calls behind the second implementation's trait, with everything
//! that they are handed between guard words.

use ilstrovan::sys;
use second::stream::Calls;
use second::{AuditAnswer, Desk, DesksAnswer, PassAnswer, RunAnswer, SEATS, TakeBackAnswer};

/// Guard words on either side, so that places of any alignment come up.
const GUARDS: usize = 24;

/// A number that no call leaves behind by chance.
const GUARD: u64 = 0xA5C3_96E1_5A3C_691E;

/// Numbers between guard words.
struct Guarded<T> {
    all: Vec<T>,
    guard: T,
    before: usize,
    length: usize,
}

impl<T: Copy + PartialEq> Guarded<T> {
    fn new(numbers: &[T], guard: T) -> Self {
        let before = GUARDS - numbers.len() % 8;
        let mut all = vec![guard; before];
        all.extend(numbers);
        all.resize(before + numbers.len() + GUARDS, guard);
        Guarded {
            all,
            guard,
            before,
            length: numbers.len(),
        }
    }

    fn numbers(&self) -> &[T] {
        &self.all[self.before..][..self.length]
    }

    fn numbers_mut(&mut self) -> &mut [T] {
        &mut self.all[self.before..][..self.length]
    }

    /// The numbers, once the guards are seen to be as they were.
    fn open(&self) -> &[T] {
        let after = self.before + self.length;
        let whole = |guards: &[T]| guards.iter().all(|&guard| guard == self.guard);
        assert!(
            whole(&self.all[..self.before]) && whole(&self.all[after..]),
            "a call wrote outside what it was lent"
        );
        self.numbers()
    }
}

/// A file between guards, which no call changes.
struct File<'a> {
    bytes: &'a [u8],
    guarded: Guarded<u8>,
}

impl<'a> File<'a> {
    fn new(bytes: &'a [u8]) -> Self {
        let guarded = Guarded::new(bytes, GUARD as u8);
        File { bytes, guarded }
    }
}

impl Drop for File<'_> {
    fn drop(&mut self) {
        if !std::thread::panicking() {
            assert!(self.guarded.open() == self.bytes, "a call changed the file");
        }
    }
}

fn guarded_table(table: &[u32]) -> Guarded<u32> {
    Guarded::new(table, GUARD as u32)
}

fn guarded_note(note: &[u16]) -> Guarded<u16> {
    Guarded::new(note, GUARD as u16)
}

/// An answer that holds anything but what the call is to write.
fn guarded_answer<const N: usize>() -> Guarded<u64> {
    Guarded::new(&[!GUARD; N], GUARD)
}

fn opened<const N: usize>(answer: &Guarded<u64>) -> [u64; N] {
    answer.open().try_into().expect("N numbers")
}

fn narrow<N: TryFrom<u64>>(number: u64) -> N {
    N::try_from(number).unwrap_or_else(|_| panic!("{number} is out of its range"))
}

/// The answer of a run, or of a desk, in these numbers.
fn run_answer(refusal: u8, [ending, judged, share, gap, cost, over]: [u64; 6]) -> RunAnswer {
    RunAnswer {
        refusal,
        ending: narrow(ending),
        judged: narrow(judged),
        share: narrow(share),
        gap,
        cost,
        over: narrow(over),
    }
}

/// The answer of a call for desks in these numbers, turns first.
fn desks_answer(refusal: u8, numbers: [u64; 57]) -> DesksAnswer {
    let [turns, seats @ ..] = numbers;
    let (seats, _) = seats.as_chunks::<7>();
    let seat = |&[refusal, run @ ..]: &[u64; 7]| run_answer(narrow(refusal), run);
    DesksAnswer {
        refusal,
        turns: narrow(turns),
        seats: std::array::from_fn(|place| seat(&seats[place])),
    }
}

/// The proved calls.
pub struct Proved;

impl Calls for Proved {
    fn check(&self, file: &[u8]) -> u8 {
        let file = File::new(file);
        let file = file.guarded.numbers();
        unsafe { sys::ilstrovan_check(file.as_ptr(), file.len()) }
    }

    fn pack(&self, file: &[u8], output: &mut [u8]) -> u8 {
        let file = File::new(file);
        let file = file.guarded.numbers();
        let mut lent = Guarded::new(output, GUARD as u8);
        let room = lent.numbers_mut();
        let refusal = unsafe {
            sys::ilstrovan_pack(file.as_ptr(), file.len(), room.as_mut_ptr(), room.len())
        };
        output.copy_from_slice(lent.open());
        refusal
    }

    fn start(&self, file: &[u8], table: &mut [u32]) -> u8 {
        let file = File::new(file);
        let file = file.guarded.numbers();
        let mut lent = guarded_table(table);
        let flows = lent.numbers_mut();
        let refusal = unsafe {
            sys::ilstrovan_start(file.as_ptr(), file.len(), flows.as_mut_ptr(), flows.len())
        };
        table.copy_from_slice(lent.open());
        refusal
    }

    fn pass(&self, file: &[u8], table: &mut [u32], share: u32, note: &mut [u16]) -> PassAnswer {
        let file = File::new(file);
        let file = file.guarded.numbers();
        let mut lent = guarded_table(table);
        let flows = lent.numbers_mut();
        let mut lent_note = guarded_note(note);
        let noted = lent_note.numbers_mut();
        let mut answer = guarded_answer::<5>();
        let refusal = unsafe {
            sys::ilstrovan_pass(
                file.as_ptr(),
                file.len(),
                flows.as_mut_ptr(),
                flows.len(),
                share,
                noted.as_mut_ptr(),
                noted.len(),
                answer.numbers_mut().as_mut_ptr().cast(),
            )
        };
        table.copy_from_slice(lent.open());
        note.copy_from_slice(lent_note.open());
        let [outcome, gap, cost, share, over] = opened(&answer);
        PassAnswer {
            refusal,
            outcome: narrow(outcome),
            gap,
            cost,
            share: narrow(share),
            over: narrow(over),
        }
    }

    fn run(&self, file: &[u8], table: &mut [u32], budget: u32, excess: u16) -> RunAnswer {
        let file = File::new(file);
        let file = file.guarded.numbers();
        let mut lent = guarded_table(table);
        let flows = lent.numbers_mut();
        let mut answer = guarded_answer::<6>();
        let refusal = unsafe {
            sys::ilstrovan_run(
                file.as_ptr(),
                file.len(),
                flows.as_mut_ptr(),
                flows.len(),
                budget,
                excess,
                answer.numbers_mut().as_mut_ptr().cast(),
            )
        };
        table.copy_from_slice(lent.open());
        run_answer(refusal, opened(&answer))
    }

    fn audit(&self, file: &[u8], table: &[u32], share: u32) -> AuditAnswer {
        let file = File::new(file);
        let file = file.guarded.numbers();
        let lent = guarded_table(table);
        let flows = lent.numbers();
        let mut answer = guarded_answer::<3>();
        let refusal = unsafe {
            sys::ilstrovan_audit(
                file.as_ptr(),
                file.len(),
                flows.as_ptr(),
                flows.len(),
                share,
                answer.numbers_mut().as_mut_ptr().cast(),
            )
        };
        assert!(lent.open() == table, "an audit changed the table");
        let [gap, cost, over] = opened(&answer);
        AuditAnswer {
            refusal,
            gap,
            cost,
            over: narrow(over),
        }
    }

    fn page(&self, file: &[u8], table: &[u32], share: u32, page: &mut [u8]) -> u8 {
        let file = File::new(file);
        let file = file.guarded.numbers();
        let lent = guarded_table(table);
        let flows = lent.numbers();
        let mut paper = Guarded::new(page, GUARD as u8);
        let room = paper.numbers_mut();
        let refusal = unsafe {
            sys::ilstrovan_page(
                file.as_ptr(),
                file.len(),
                flows.as_ptr(),
                flows.len(),
                share,
                room.as_mut_ptr(),
                room.len(),
            )
        };
        assert!(lent.open() == table, "a page changed the table");
        page.copy_from_slice(paper.open());
        refusal
    }

    fn take_back(
        &self,
        file: &[u8],
        table: &mut [u32],
        share: u32,
        note: &[u16],
    ) -> TakeBackAnswer {
        let file = File::new(file);
        let file = file.guarded.numbers();
        let mut lent = guarded_table(table);
        let flows = lent.numbers_mut();
        let lent_note = guarded_note(note);
        let noted = lent_note.numbers();
        let mut answer = guarded_answer::<1>();
        let refusal = unsafe {
            sys::ilstrovan_take_back(
                file.as_ptr(),
                file.len(),
                flows.as_mut_ptr(),
                flows.len(),
                share,
                noted.as_ptr(),
                noted.len(),
                answer.numbers_mut().as_mut_ptr().cast(),
            )
        };
        table.copy_from_slice(lent.open());
        assert!(lent_note.open() == note, "taking back changed the note");
        let [share] = opened(&answer);
        TakeBackAnswer {
            refusal,
            share: narrow(share),
        }
    }

    fn desks(&self, seats: &mut [Desk<'_>; SEATS], desks: u32, allowance: u32) -> DesksAnswer {
        let files = seats.each_ref().map(|seat| File::new(seat.file));
        let mut lent = seats.each_ref().map(|seat| guarded_table(seat.table));
        let budgets = seats.each_ref().map(|seat| seat.budget);
        let excesses = seats.each_ref().map(|seat| seat.excess);
        let lent_budgets = Guarded::new(&budgets, GUARD as u32);
        let lent_excesses = Guarded::new(&excesses, GUARD as u16);
        let mut answer = guarded_answer::<57>();
        let places = std::array::from_fn(|place| {
            sys::Seat::of(files[place].guarded.numbers(), lent[place].numbers_mut())
        });
        let refusal = unsafe {
            sys::ilstrovan_desks_at(
                &places,
                desks,
                allowance,
                lent_budgets.numbers().as_ptr().cast(),
                lent_excesses.numbers().as_ptr().cast(),
                answer.numbers_mut().as_mut_ptr().cast(),
            )
        };
        for (seat, lent) in seats.iter_mut().zip(&lent) {
            seat.table.copy_from_slice(lent.open());
        }
        assert!(lent_budgets.open() == budgets, "desks changed the budgets");
        assert!(
            lent_excesses.open() == excesses,
            "desks changed the excesses"
        );
        desks_answer(refusal, opened(&answer))
    }
}
