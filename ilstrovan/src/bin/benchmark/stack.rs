//! The stack that the proved calls need: each runs on a thread whose stack is
//! painted first, and what is no longer as painted was used.

use std::ffi::{c_int, c_void};
use std::ptr;

use ilstrovan::{
    Desk, LONGEST_NOTE, Refusal, SEATS, audit, check, desks, pack, page, pass, run, start,
    take_back,
};

use crate::studies::Study;

const SIZE: usize = 2 << 20;
const PAINT: u64 = 0x5AD1_0C3E_96B7_42F8;

/// A page of a stack, aligned as one.
#[repr(C, align(4096))]
#[derive(Clone, Copy)]
struct Page([u64; 512]);

/// What C calls pthread_attr_t: 56 bytes on 64-bit Linux.
#[repr(C)]
struct Attributes([u64; 7]);

unsafe extern "C" {
    fn pthread_attr_init(attributes: *mut Attributes) -> c_int;
    fn pthread_attr_setstack(attributes: *mut Attributes, low: *mut c_void, size: usize) -> c_int;
    fn pthread_attr_destroy(attributes: *mut Attributes) -> c_int;
    fn pthread_create(
        thread: *mut usize,
        attributes: *const Attributes,
        entry: extern "C" fn(*mut c_void) -> *mut c_void,
        argument: *mut c_void,
    ) -> c_int;
    fn pthread_join(thread: usize, result: *mut *mut c_void) -> c_int;
}

/// For each call the most bytes of stack that it used, and the study with which
/// it did.
pub fn needs<'a>(studies: &[&'a Study]) -> Vec<(&'static str, usize, &'a str)> {
    let nothing = used(&mut || {});
    let mut needs: Vec<(&str, usize, &str)> = vec![];
    for study in studies {
        for (call, bytes) in needs_of(study) {
            let bytes = bytes - nothing;
            match needs.iter_mut().find(|need| need.0 == call) {
                None => needs.push((call, bytes, study.name())),
                Some(need) if need.1 < bytes => *need = (call, bytes, study.name()),
                Some(_) => {}
            }
        }
    }
    needs
}

/// The stack that each call uses with one study, and a thread with it. Desks all
/// have that study.
fn needs_of(study: &Study) -> [(&'static str, usize); 9] {
    let file = &study.file;
    let mut output = vec![0; file.len()];
    let mut paper = study.paper();
    let mut note = vec![0; LONGEST_NOTE];
    let mut table = vec![0; study.table_length];
    let mut moved = study.moved();
    let mut tables = [(); SEATS].map(|()| vec![0; study.table_length]);
    let mut lent = tables.each_mut().map(|table| Desk {
        file,
        table,
        budget: 8,
        excess: 0,
    });
    let mut call = |name, work: &mut dyn FnMut(&mut [u32]) -> Result<(), Refusal>| {
        (name, used(&mut || work(&mut table).expect("accepted")))
    };
    [
        call("check", &mut |_| check(file)),
        call("pack", &mut |_| pack(file, &mut output)),
        call("run", &mut |table| run(file, table, 8, 0).map(drop)),
        call("start", &mut |table| start(file, table)),
        call("audit", &mut |table| audit(file, table, 1).map(drop)),
        call("page", &mut |table| page(file, table, 1, &mut paper)),
        call("pass", &mut |table| {
            pass(file, table, 1, &mut note).map(drop)
        }),
        call("take back", &mut |_| {
            take_back(file, &mut moved.table, moved.share, &moved.note).map(drop)
        }),
        call("desks", &mut |_| desks(&mut lent, 60).map(drop)),
    ]
}

/// Bytes of stack that a thread uses with this work.
fn used(work: &mut dyn FnMut()) -> usize {
    let pages = SIZE / size_of::<Page>();
    let mut stack = vec![Page([PAINT; 512]); pages];
    let mut work: &mut dyn FnMut() = work;
    let mut attributes = Attributes([0; 7]);
    let mut thread = 0;
    // SAFETY: the stack, the attributes and the work outlive the thread, which
    // is joined here; `entry` is handed what it expects.
    let codes = unsafe {
        [
            pthread_attr_init(&mut attributes),
            pthread_attr_setstack(&mut attributes, stack.as_mut_ptr().cast(), SIZE),
            pthread_create(&mut thread, &attributes, entry, (&raw mut work).cast()),
            pthread_join(thread, ptr::null_mut()),
            pthread_attr_destroy(&mut attributes),
        ]
    };
    assert_eq!(codes, [0; 5], "a thread with a stack of its own");
    let untouched = stack
        .iter()
        .flat_map(|page| page.0)
        .take_while(|&word| word == PAINT)
        .count();
    assert!(untouched > 0, "the stack was too small");
    SIZE - untouched * size_of::<u64>()
}

extern "C" fn entry(work: *mut c_void) -> *mut c_void {
    // SAFETY: `used` hands over a pointer to its work.
    let work = unsafe { &mut *work.cast::<&mut dyn FnMut()>() };
    work();
    ptr::null_mut()
}
