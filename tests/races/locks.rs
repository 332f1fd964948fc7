//! `TurnLock`: threads take turns at a list of numbers, passes are used one after another, and closing returns the value.

use std::alloc::{AllocError as NoMemory, Global};
use std::sync::Wait;
use std::test::Fail;
use std::thread;
use std::thread::Threads;
use turn_lock::lock::{Pass, TurnLock};
use turn_lock::number_list::{NumberList, append};

// Returns a list with title 7 and the entry (9, 5). No lock here has a pass 9. Reserves room for `room` more entries, so that no turn needs
// memory.
fn five(alloc: Global, room: usize) -> Result<NumberList, NoMemory> {
    let mut numbers = Vec::with_capacity(alloc, room + 1)?;
    numbers.push((9, 5))?;
    Ok(NumberList { title: 7, numbers })
}

// Returns the entries that were added to a list from `five`, or `None` if its title or first entry changed.
fn added(list: &NumberList) -> Option<&[(u64, u32)]> {
    let (first, added) = list.numbers.as_slice().split_first()?;
    if list.title == 7 && *first == (9, 5) {
        return Some(added);
    }
    None
}

// Checks whether the entries are exactly the numbers below `each` from every pass below `passes`, in order for each pass. The passes may
// take turns in any order.
fn are_counts(added: &[(u64, u32)], passes: usize, each: u32) -> bool {
    let mut next = [0; 4];
    for (by, number) in added {
        let by = *by as usize;
        if by >= passes || *number != next[by] || *number >= each {
            return false;
        }
        next[by] += 1;
    }
    next[..passes].iter().all(|count| *count == each)
}

// Appends the numbers from `from` to `to`, one in each turn.
fn add_all<R: Wait>(
    rt: &R,
    lock: &TurnLock<NumberList>,
    pass: &mut Pass<NumberList>,
    from: u32,
    to: u32,
) {
    for number in from..to {
        append(rt, lock, pass, number);
    }
}

// Appends the numbers below `each` through every pass, each pass in its own thread.
fn all_count<R: Threads + Wait + Sync>(
    rt: &R,
    lock: &TurnLock<NumberList>,
    passes: &mut [Pass<NumberList>],
    each: u32,
) {
    let part = |_: usize, pass: &mut Pass<NumberList>| { add_all(rt, lock, pass, 0, each) };
    thread::for_each_mut(rt, passes, 4, &part);
}

// Checks whether threads that each append the numbers below `each` leave exactly these entries. Every pass has its own thread.
fn threads_count<R: Threads + Wait + Sync>(
    rt: &R,
    alloc: Global,
    passes: u32,
    each: u32,
) -> Result<bool, NoMemory> {
    let list = five(alloc, 4 * each as usize)?;
    let Ok((lock, mut all)) = TurnLock::make(alloc, list, passes) else {
        return Err(NoMemory);
    };
    all_count(rt, &lock, &mut all, each);
    let list = lock.close(all);
    Ok(added(&list).is_some_and(|added| are_counts(added, passes as usize, each)))
}

#[test]
fn threads_take_turns(rt: HostRuntime) -> Result<(), Fail> {
    assert!(rt; threads_count(&rt, rt.alloc(), 2, 150)?);
    assert!(rt; threads_count(&rt, rt.alloc(), 4, 150)?);
    Ok(())
}

// Appends each number through the pass with its index.
fn add_in_turn<R: Wait>(
    rt: &R,
    lock: &TurnLock<NumberList>,
    passes: &mut [Pass<NumberList>],
    turns: &[(u64, u32)],
) {
    for (by, number) in turns {
        let by = *by as usize;
        if by >= passes.len() {
            return;
        }
        append(rt, lock, &mut passes[by], *number);
    }
}

// Checks whether three passes, used in these turns on one thread, leave exactly these entries in this order.
fn passes_add<R: Wait>(rt: &R, alloc: Global, turns: &[(u64, u32)]) -> Result<bool, NoMemory> {
    let list = five(alloc, turns.len())?;
    let Ok((lock, mut passes)) = TurnLock::make(alloc, list, 3) else {
        return Err(NoMemory);
    };
    add_in_turn(rt, &lock, &mut passes, turns);
    let list = lock.close(passes);
    Ok(added(&list) == Some(turns))
}

#[test]
fn passes_are_used_one_after_another(rt: HostRuntime) -> Result<(), Fail> {
    let turns = [(1, 10), (0, 11), (1, 12), (1, 10), (2, 11), (0, 0)];
    assert!(rt; passes_add(&rt, rt.alloc(), &turns)?);
    assert!(rt; passes_add(&rt, rt.alloc(), &[])?);
    Ok(())
}

// Returns the value of a lock that is closed at once. If memory for the lock runs out, returns the value that came back.
fn make_and_close(alloc: Global, list: NumberList) -> NumberList {
    match TurnLock::make(alloc, list, 3) {
        Ok((lock, passes)) => lock.close(passes),
        Err((_, list)) => list,
    }
}

#[test]
fn the_value_comes_back(rt: HostRuntime) -> Result<(), Fail> {
    let list = make_and_close(rt.alloc(), five(rt.alloc(), 0)?);
    assert!(rt; added(&list).is_some_and(|added| added.is_empty()));
    Ok(())
}

// Appends a number through the pass and returns the pass.
fn add_there<R: Wait>(
    rt: &R,
    lock: &TurnLock<NumberList>,
    mut pass: Pass<NumberList>,
    number: u32,
) -> Pass<NumberList> {
    append(rt, lock, &mut pass, number);
    pass
}

#[test]
fn passes_go_to_other_threads_between_two_turns(rt: HostRuntime) -> Result<(), Fail> {
    let alloc = rt.alloc();
    let list = five(alloc, 4)?;
    let Ok((lock, mut passes)) = TurnLock::make(alloc, list, 2) else {
        return Err(NoMemory)?;
    };
    let Some(second) = passes.pop() else {
        unreachable!()
    };
    let Some(first) = passes.pop() else {
        unreachable!()
    };
    let first = add_there(&rt, &lock, first, 0);
    let second = add_there(&rt, &lock, second, 0);
    let (one, two) = thread::join(
        &rt,
        || add_there(&rt, &lock, first, 1),
        || add_there(&rt, &lock, second, 1),
    );
    passes.push_reserved(one);
    passes.push_reserved(two);
    let list = lock.close(passes);
    assert!(rt; added(&list).is_some_and(|added| are_counts(added, 2, 2)));
    Ok(())
}
