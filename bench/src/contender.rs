//! Who takes part in a kernel's race, and the check that those who must give the same bits.

use crate::job::Job;
use crate::kernels::{Call, Kernel};
use std::ffi::{CStr, c_char};
use std::hint::black_box;

#[derive(Clone, Copy, PartialEq, Eq, Debug)]
pub enum Who {
    Ours,
    Rust,
    BranchFree,
    Glibc,
    Sleef,
}

type CCall = unsafe extern "C" fn(*const Job);

enum Body {
    Rust(Call),
    C(CCall),
}

pub struct Contender {
    pub who: Who,
    body: Body,
}

impl Contender {
    pub fn run(&self, job: &Job, times: usize) {
        match self.body {
            Body::Rust(call) => (0..times).for_each(|_| black_box(call)(black_box(job))),
            // SAFETY: c/job.h has the same job.
            Body::C(call) => (0..times).for_each(|_| unsafe { black_box(call)(black_box(job)) }),
        }
    }
    /// glibc and SLEEF round otherwise.
    fn same_bits(&self) -> bool {
        matches!(self.who, Who::Ours | Who::Rust | Who::BranchFree)
    }
}

/// As in c/job.h.
#[repr(C)]
struct Loop {
    kernel: *const c_char,
    call: Option<CCall>,
}

unsafe extern "C" {
    #[link_name = "branch_free"]
    static BRANCH_FREE: Loop;
    #[link_name = "glibc"]
    static GLIBC: Loop;
    #[link_name = "sleef"]
    static SLEEF: Loop;
}

fn found(kernel: &str, mut entry: *const Loop) -> Option<CCall> {
    // SAFETY: a list that ends with a NULL kernel.
    unsafe {
        while !(*entry).kernel.is_null() {
            if CStr::from_ptr((*entry).kernel).to_bytes() == kernel.as_bytes() {
                return (*entry).call;
            }
            entry = entry.add(1);
        }
    }
    None
}

pub fn of(kernel: &Kernel) -> Vec<Contender> {
    let lists = [(Who::BranchFree, &raw const BRANCH_FREE), (Who::Glibc, &raw const GLIBC), (Who::Sleef, &raw const SLEEF)];
    let rust = [(Who::Ours, kernel.ours), (Who::Rust, kernel.rust)].map(|(who, call)| Contender { who, body: Body::Rust(call) });
    let c = lists.into_iter().filter_map(|(who, list)| Some(Contender { who, body: Body::C(found(kernel.name, list)?) }));
    rust.into_iter().chain(c).collect()
}

/// Whether the contenders that must agree leave the same bytes, on buffers that start with the same unwritten pattern.
pub fn agree(contenders: &[Contender], job: &Job) -> Result<(), Who> {
    let mut first: Option<Vec<u64>> = None;
    for contender in contenders.iter().filter(|c| c.same_bits()) {
        job.clear();
        contender.run(job, 1);
        match &first {
            None => first = Some(job.written().to_vec()),
            Some(ours) if ours != job.written() => return Err(contender.who),
            Some(_) => {}
        }
    }
    Ok(())
}
