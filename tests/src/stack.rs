//! How deep a call goes: it is made on a stack of our own with a pattern in it, and what it wrote there is looked for afterwards. The
//! library is for x86-64 alone, and so is this.

use std::arch::asm;
use std::cell::RefCell;
use std::collections::BTreeMap;

/// No call of the library uses more stack than this: README states it, `soak` holds them to it.
pub const STATED: usize = 64 * 1024;

/// Nor does a program use more than this, with what the system puts there.
pub const STATED_OF_PROGRAMS: usize = 128 * 1024;

/// Words of the painted stack: more than is stated, so that a call that goes too deep is measured and does not break anything.
const WORDS: usize = 4 * STATED / 8;

const PAINT: u64 = 0x7061_696e_7465_6421;

/// A painted stack, and the most bytes that each call has used of it.
struct Painted {
    words: Vec<u64>,
    deepest: BTreeMap<&'static str, usize>,
}

thread_local! {
    /// none where nothing is measured
    static PAINTED: RefCell<Option<Painted>> = const { RefCell::new(None) };
}

/// Makes a call of the library; on the painted stack while `measuring`.
pub fn calling<R>(name: &'static str, call: impl FnOnce() -> R) -> R {
    PAINTED.with_borrow_mut(|painted| match painted {
        None => call(),
        Some(painted) => painted.measure(name, call),
    })
}

/// The most stack that each call made meanwhile has used, in bytes.
pub fn measuring(work: impl FnOnce()) -> BTreeMap<&'static str, usize> {
    let painted = Painted {
        words: vec![PAINT; WORDS],
        deepest: BTreeMap::new(),
    };
    PAINTED.set(Some(painted));
    work();
    let painted = PAINTED.take();
    painted.map_or(BTreeMap::new(), |painted| painted.deepest)
}

impl Painted {
    fn measure<R>(&mut self, name: &'static str, call: impl FnOnce() -> R) -> R {
        let mut answer = None;
        let top = self.words.as_mut_ptr_range().end;
        on_stack(top, || answer = Some(call()));
        let clean = self.words.iter().take_while(|word| **word == PAINT).count();
        assert!(clean > 0, "{name} went below the painted stack");
        let used = 8 * (WORDS - clean);
        self.words[clean..].fill(PAINT);
        let most = self.deepest.entry(name).or_default();
        *most = used.max(*most);
        answer.expect("the call was made")
    }
}

/// Runs `call` with the stack pointer at `top`.
fn on_stack<F: FnOnce()>(top: *mut u64, call: F) {
    extern "C" fn enter<F: FnOnce()>(call: &mut Option<F>) {
        if let Some(call) = call.take() {
            call();
        }
    }
    let mut call = Some(call);
    let aligned = top as usize & !15;
    // SAFETY: below `top` there is memory that nothing else uses; r12 is kept across a C call, so the stack pointer comes back as it was;
    // `enter` does not unwind (a panic in an extern "C" function aborts).
    unsafe {
        asm!(
            "xchg rsp, r12",
            "call {enter}",
            "mov rsp, r12",
            enter = sym enter::<F>,
            inout("r12") aligned => _,
            inout("rdi") &mut call => _,
            clobber_abi("C"),
        );
    }
}
