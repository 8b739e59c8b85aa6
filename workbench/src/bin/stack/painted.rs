//! Stacks that are painted before a call, so that what it took can be seen.

use crate::{could_not_run, refused, Outcome};
use std::ffi::{c_int, c_ulong, c_void};

const WORD: usize = size_of::<u64>();
const PAGE_WORDS: usize = 4_096 / WORD;
/// 256 KiB, so that far more than the limit is still measured.
const PAGES: usize = 64;
/// A word that no call is likely to leave behind.
const PAINT: u64 = 0xA7C3_915E_7B2D_F068;

#[repr(C, align(4096))]
#[derive(Clone, Copy)]
struct Page([u64; PAGE_WORDS]);

/// Room for a `pthread_attr_t`, which has 56 bytes.
#[repr(C, align(16))]
struct Attributes([u64; 16]);

extern "C" {
    fn pthread_attr_init(attributes: *mut Attributes) -> c_int;
    fn pthread_attr_setstack(attributes: *mut Attributes, lowest: *mut c_void, size: usize) -> c_int;
    fn pthread_attr_destroy(attributes: *mut Attributes) -> c_int;
    fn pthread_create(
        thread: *mut c_ulong,
        attributes: *const Attributes,
        start: extern "C" fn(*mut c_void) -> *mut c_void,
        argument: *mut c_void,
    ) -> c_int;
    fn pthread_join(thread: c_ulong, answer: *mut *mut c_void) -> c_int;
}

/// What a thread shall do, and where its first frame was.
struct Job<'a> {
    work: &'a mut dyn FnMut(),
    frame: usize,
}

/// The thread's first frame: what lies below it the work has taken.
extern "C" fn start(argument: *mut c_void) -> *mut c_void {
    // The thread that made the job waits for this one and leaves the job alone.
    let job = unsafe { &mut *argument.cast::<Job>() };
    let here = 0_u8;
    job.frame = std::hint::black_box(&raw const here) as usize;
    (job.work)();
    std::ptr::null_mut()
}

/// The stack that all measured threads use, one after the other.
pub struct Stack {
    pages: Vec<Page>,
}

impl Stack {
    pub fn new() -> Stack {
        Stack { pages: vec![Page([PAINT; PAGE_WORDS]); PAGES] }
    }

    /// The bytes of stack that the work took, and its answer.
    pub fn measure<T>(&mut self, work: impl FnOnce() -> T) -> Outcome<(usize, T)> {
        self.pages.fill(Page([PAINT; PAGE_WORDS]));
        let (mut work, mut answer) = (Some(work), None);
        let mut run = || answer = work.take().map(|work| work());
        let mut job = Job { work: &mut run, frame: 0 };
        self.run(&mut job)?;
        let bytes = job.frame.checked_sub(self.lowest()?);
        let bytes = bytes.ok_or_else(|| could_not_run("the thread ran on another stack"))?;
        Ok((bytes, answer.ok_or_else(|| could_not_run("the thread did nothing"))?))
    }

    /// The lowest address that lost its paint.
    fn lowest(&self) -> Outcome<usize> {
        let kept = self.pages.iter().flat_map(|page| page.0).take_while(|word| *word == PAINT).count();
        if kept == 0 {
            return Err(refused("a call took the whole stack that was lent to it"));
        }
        Ok(self.pages.as_ptr() as usize + kept * WORD)
    }

    fn run(&mut self, job: &mut Job) -> Outcome<()> {
        let mut attributes = Attributes([0; 16]);
        let size = size_of_val(self.pages.as_slice());
        // The pages, the attributes and the job outlive the thread, which is waited for here.
        unsafe {
            done("pthread_attr_init", pthread_attr_init(&mut attributes))?;
            let lowest = self.pages.as_mut_ptr().cast();
            done("pthread_attr_setstack", pthread_attr_setstack(&mut attributes, lowest, size))?;
            let mut thread = 0;
            let argument = (&raw mut *job).cast();
            done("pthread_create", pthread_create(&mut thread, &attributes, start, argument))?;
            done("pthread_join", pthread_join(thread, std::ptr::null_mut()))?;
            done("pthread_attr_destroy", pthread_attr_destroy(&mut attributes))
        }
    }
}

fn done(call: &str, code: c_int) -> Outcome<()> {
    if code == 0 {
        Ok(())
    } else {
        Err(could_not_run(format!("{call} failed with {code}")))
    }
}
