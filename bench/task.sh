#!/bin/sh
# Prints how long tasks take to be made, woken and let go, in microseconds: as many resources and owners as
# tasks, at 10,000 and 100,000 tasks. It builds a throw-away program in a temporary folder, over copies of the
# crates, and doesn't prove it: that takes longer than all the rest.
set -eu
. "$(dirname "$0")/frame.sh"
step=try
time_over task_bench fizz_text id_lists fizz_task <<'RT'
#![tactic(auto)]

use fizz_task::Tasks;
use fizz_text::Text;
use std::alloc::Global;
use std::rt::Clock;
use std::test::Fail;
use std::time::Instant;

fn name_of(alloc: Global, number: u32) -> Result<Text, Fail> {
    let mut bytes = Vec::new(alloc);
    let mut left = number;
    for _ in 0..6 {
        bytes.push(b'0' + (left % 10) as u8)?;
        left /= 10;
    }
    match Text::from_bytes(bytes) {
        Ok(name) => Ok(name),
        Err(_) => Ok(Text::fixed("")),
    }
}

fn names_of(alloc: Global, count: u32) -> Result<Vec<Text>, Fail> {
    let mut names = Vec::new(alloc);
    for number in 0..count {
        names.push(name_of(alloc, number)?)?;
    }
    Ok(names)
}

/// A task for each name, each of an owner of its own.
fn tasks_of(alloc: Global, names: &[Text], count: u32) -> Result<Tasks<u32>, Fail> {
    let mut tasks: Tasks<u32> = Tasks::new(alloc);
    tasks.reserve(count)?;
    let mut number = 0u32;
    for name in names {
        if tasks.spare() > 0 {
            let _ = tasks.spawn(Some(number), number, Some(name.copy(alloc)?));
        }
        number = number.wrapping_add(1);
    }
    Ok(tasks)
}

fn settle_all(tasks: &mut Tasks<u32>, names: &[Text]) -> u32 {
    let mut woken = 0u32;
    for name in names {
        woken = woken.wrapping_add(tasks.settle(name));
    }
    woken
}

fn drop_all(tasks: &mut Tasks<u32>, count: u32) -> u32 {
    for owner in 0..count {
        tasks.drop_owned(Some(owner));
    }
    tasks.runnable_count()
}

fn time_one(rt: &(impl AllocGlobal + Clock + Print), count: u32) -> Result<(), Fail> {
    let names = names_of(rt.alloc(), count)?;
    let start = Instant::now(rt)?;
    let mut tasks = tasks_of(rt.alloc(), &names, count)?;
    let made = start.elapsed(rt)?.as_micros();
    let start = Instant::now(rt)?;
    let woken = settle_all(&mut tasks, &names);
    let settled = start.elapsed(rt)?.as_micros();
    let start = Instant::now(rt)?;
    let left = drop_all(&mut tasks, count);
    let dropped = start.elapsed(rt)?.as_micros();
    println!(rt; "{count} tasks: made in {made} us, {woken} woken in {settled} us, let go in {dropped} us, {left} left")?;
    Ok(())
}

fn main(rt: HostRuntime) -> Result<(), Fail> {
    time_one(&rt, 10_000)?;
    time_one(&rt, 100_000)
}
RT
