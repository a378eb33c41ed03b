//! How much native stack a call uses: it is made on a thread whose stack was painted before, and
//! afterwards the paint is looked at.

use crate::asked::{Asked, Entry};
use crate::measure::{Compare, Costs};
use crate::sheet::{self, Sheet};
use cases::books::MOST_DEPTH;
use cases::deepest;
use std::ffi::{c_int, c_ulong, c_void};

/// Every kind of nesting, and each entry on the book of which it needs the most.
pub fn measure(sheet: &mut Sheet) {
    sheet.heading(
        "Stack of a run at call depth 64, forms nested to depth 24 in each call",
        sheet::kib,
    );
    let runs = deepest::all_deepest();
    for kind in deepest::kinds() {
        sheet.line(kind, |_| {
            let of_kind = runs.iter().filter(|run| run.kind == kind);
            most(of_kind.map(|run| {
                Asked::to_run(run.book.clone(), run.inputs.clone())
                    .run(Stack, mistdrover::MOST_STEPS)
            }))
        });
    }
    sheet.heading("Stack of the other entries, the most of all those books", sheet::kib);
    let books: Vec<_> = deepest::books_of_depth(MOST_DEPTH).into_iter().map(Asked::new).collect();
    let entries: [(&str, Entry<Stack>); 4] = [
        ("reader", Asked::read),
        ("checker", Asked::check),
        ("finder", Asked::find),
        ("reporter", Asked::level),
    ];
    for (name, entry) in entries {
        sheet.line(name, |_| most(books.iter().map(|asked| entry(asked, Stack))));
    }
}

/// A kind needs what the run or book needs that needs the most.
fn most(all: impl Iterator<Item = Costs>) -> Costs {
    all.reduce(Costs::most).expect("there is at least one")
}

/// Compares what calls use of the stack, in bytes.
#[derive(Clone, Copy)]
pub struct Stack;

impl Compare for Stack {
    fn compare(
        self,
        ours: impl FnMut() -> u32 + Send,
        older: Option<impl FnMut() -> u32 + Send>,
        plain: impl FnMut() -> u32 + Send,
    ) -> Costs {
        let (ours, refusal) = used(ours);
        let older = older.map(used);
        Costs {
            ours,
            older: older.map(|(bytes, _)| bytes),
            plain: used(plain).0,
            refused_otherwise: older.is_some_and(|(_, older)| older != refusal),
        }
    }
}

/// No call is expected to use more.
const PAGES: usize = 4_096;
const WORDS: usize = 512;
const PAINT: u64 = 0x5AA5_C33C_6996_F00F;

#[repr(C, align(4096))]
#[derive(Clone, Copy)]
struct Page([u64; WORDS]);

/// What the C library keeps about a new thread: on no system longer than this.
#[repr(C, align(16))]
struct Attributes([u8; 256]);

extern "C" {
    fn pthread_attr_init(attributes: *mut Attributes) -> c_int;
    fn pthread_attr_setstack(attributes: *mut Attributes, low: *mut c_void, bytes: usize) -> c_int;
    fn pthread_attr_destroy(attributes: *mut Attributes) -> c_int;
    fn pthread_create(
        thread: *mut c_ulong,
        attributes: *const Attributes,
        start: extern "C" fn(*mut c_void) -> *mut c_void,
        given: *mut c_void,
    ) -> c_int;
    fn pthread_join(thread: c_ulong, returned: *mut *mut c_void) -> c_int;
}

/// A call, and the address of the stack's top when it was made.
struct Task<'a> {
    call: &'a mut (dyn FnMut() + Send),
    top: usize,
}

/// What the thread begins with: it notes where its own part of the stack ends, then makes the call.
extern "C" fn perform(task: *mut c_void) -> *mut c_void {
    // SAFETY: `used` gives the only pointer to its task, and waits until this has returned.
    let task = unsafe { &mut *task.cast::<Task>() };
    let here = 0u8;
    task.top = std::hint::black_box(&here) as *const u8 as usize;
    (task.call)();
    std::ptr::null_mut()
}

/// The bytes of stack that a call uses, and what it returns.
fn used(mut call: impl FnMut() -> u32 + Send) -> (f64, u32) {
    let mut refusal = 0;
    let mut stack = vec![Page([PAINT; WORDS]); PAGES];
    let low = stack.as_mut_ptr();
    let mut task = Task { call: &mut || refusal = call(), top: 0 };
    run_on(low.cast(), PAGES * size_of::<Page>(), (&raw mut task).cast());
    let top = task.top;
    let untouched = stack.iter().flat_map(|page| page.0).take_while(|&word| word == PAINT).count();
    assert!(untouched > WORDS, "the stack was too short for the call");
    ((top - low as usize - untouched * size_of::<u64>()) as f64, refusal)
}

/// Performs a task on a thread that has the given memory for its stack, and waits for its end.
fn run_on(low: *mut c_void, bytes: usize, task: *mut c_void) {
    let mut attributes = Attributes([0; 256]);
    let mut thread = 0;
    // SAFETY: there is room for the attributes; the memory and the task outlive the thread, which has
    // ended when this returns, and nobody else touches them meanwhile.
    unsafe {
        expect(pthread_attr_init(&mut attributes));
        expect(pthread_attr_setstack(&mut attributes, low, bytes));
        expect(pthread_create(&mut thread, &attributes, perform, task));
        expect(pthread_join(thread, std::ptr::null_mut()));
        expect(pthread_attr_destroy(&mut attributes));
    }
}

/// None of these calls fails unless memory is short.
fn expect(status: c_int) {
    assert_eq!(status, 0, "a thread with a stack of its own cannot be had");
}
