//! What a machine keeps: memory for the slots that are used, not for those that its program names. What a thread keeps.

use atc_vm::{Op, Vm};
use std::alloc::{GlobalAlloc, Layout, System};
use std::cell::Cell;

// Counts the bytes that this thread holds.
struct Counting;

thread_local! {
    static HELD: Cell<isize> = const { Cell::new(0) };
}

// SAFETY: every call goes on to the system's allocator as it is.
unsafe impl GlobalAlloc for Counting {
    unsafe fn alloc(&self, layout: Layout) -> *mut u8 {
        HELD.set(HELD.get() + layout.size() as isize);
        System.alloc(layout)
    }

    unsafe fn dealloc(&self, place: *mut u8, layout: Layout) {
        HELD.set(HELD.get() - layout.size() as isize);
        System.dealloc(place, layout)
    }
}

#[global_allocator]
static COUNTING: Counting = Counting;

const SLOT: isize = 8;
const LAST: usize = 65_535;

// The bytes that runs leave held, once the thread has its buffers.
fn kept(run: impl FnOnce()) -> isize {
    let warm = Vm::new(vec![Op::Halt, Op::Store(LAST)]).run_with_gas(0);
    assert_eq!(warm, Ok(vec![]));
    let before = HELD.get();
    run();
    HELD.get() - before
}

#[test]
fn a_success_keeps_what_it_uses() {
    for (program, used, after, most) in [
        // It stores nothing.
        (vec![Op::Halt, Op::Store(LAST)], 1, 1, 0),
        // It stores to fewer slots than it names.
        (
            vec![Op::Push(1), Op::Store(9), Op::Halt, Op::Store(LAST)],
            1,
            10,
            9,
        ),
        (vec![Op::Push(1), Op::Store(LAST)], 0, LAST + 1, LAST + 1),
        // The slots named take no more than the used ones.
        (vec![Op::Halt, Op::Store(199)], 100, 100, 100),
        (vec![Op::Halt, Op::Store(200)], 100, 100, 0),
    ] {
        let mut vm = Vm::with_context(program, 0, vec![4; used]);
        for _ in 0..3 {
            let kept = kept(|| assert!(vm.run_with_gas(100).is_ok()));
            assert!(kept <= SLOT * most as isize, "{kept}");
            assert_eq!(vm.state().len(), after);
        }
    }
}

#[test]
fn a_refusal_keeps_nothing() {
    let program = vec![Op::Push(1), Op::Store(LAST), Op::Add];
    for gas in [0, 1, 4, 100] {
        let mut vm = Vm::with_context(program.clone(), 0, vec![4; 3]);
        assert_eq!(kept(|| assert!(vm.run_with_gas(gas).is_err())), 0);
        assert_eq!(vm.state(), [4; 3]);
    }
    let mut vm = Vm::with_context(vec![Op::Jump(LAST), Op::Store(LAST)], 0, vec![4; 3]);
    assert_eq!(kept(|| assert!(vm.run_with_gas(100).is_err())), 0);
}

#[test]
fn a_thousand_machines_keep_nothing_for_a_slot_that_is_only_named() {
    let program = vec![Op::Halt, Op::Store(LAST)];
    let mut vms = vec![Vm::with_context(program, 0, vec![1]); 1_000];
    assert_eq!(
        kept(|| vms
            .iter_mut()
            .for_each(|vm| assert!(vm.run_with_gas(0).is_ok()))),
        0
    );
    assert!(vms.iter().all(|vm| vm.state() == [1]));
}

#[test]
fn a_thread_keeps_1056_kib_at_most() {
    std::thread::spawn(|| {
        let before = HELD.get();
        for last in [1, 40_000, LAST - 1, LAST, 7] {
            let mut vm = Vm::new(vec![Op::Halt, Op::Store(last)]);
            assert_eq!(vm.run_with_gas(0), Ok(vec![]));
        }
        let mut vm = Vm::with_context(vec![Op::Halt], 0, vec![0; LAST + 2]);
        assert_eq!(vm.run_with_gas(0).unwrap_err().number(), 43);
        drop(vm);
        assert_eq!(Vm::new(vec![Op::Halt]).run_with_gas(0), Ok(vec![]));
        assert!(HELD.get() - before <= 1_056 * 1_024 + 100);
    })
    .join()
    .unwrap();
}
