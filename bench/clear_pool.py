#!/usr/bin/env python3
"""Measures a clear of a pool with 1,000 subpools beside other pools, up to 1,000,000 of them, and the same clear once these
others are gone, so that the tree has the same memory; in one run.

    python3 bench/clear_pool.py

A small program over the crate `pool_tree` is proved and built in a folder of its own, over what earlier checks kept.
"""
import os
import shutil
import subprocess
import tempfile

TOP = os.path.dirname(os.path.dirname(os.path.abspath(__file__)))
BELOW = ('module_code', 'byte_text', 'run_model', 'name_table', 'pool_tree')

PROGRAM = '''\
//! The time of a clear of a pool with 1,000 subpools, beside other pools and once these are gone.
#![tactic(auto)]

use pool_tree::{PoolId, PoolTree};
use std::process::ExitCode;
use std::time::Instant;

const SUBPOOLS: u32 = 1_000;
const OTHERS: [u32; 4] = [0, 10_000, 100_000, 1_000_000];
const ROUNDS: u32 = 9;

/// Makes pools under a pool, each with a payload.
fn fill(tree: &mut PoolTree<u64>, parent: PoolId, count: u32) -> Option<()> {
    for number in 0..count {
        if !tree.is_live(parent) {
            return None;
        }
        let pool = tree.create(parent).ok()?;
        if !tree.is_live(pool) {
            return None;
        }
        tree.register(pool, u64::from(number)).ok()?;
    }
    Some(())
}

/// A tree in which so many pools stand under one, or stood there.
fn grown(rt: &HostRuntime, others: u32, stay: bool) -> Option<PoolTree<u64>> {
    let mut tree = PoolTree::new(rt.alloc(), 1).ok()?;
    let root = tree.root();
    if !tree.is_live(root) {
        return None;
    }
    let holder = tree.create(root).ok()?;
    fill(&mut tree, holder, others)?;
    if !stay {
        if !tree.is_live(holder) {
            return None;
        }
        tree.clear(holder).ok()?;
    }
    Some(tree)
}

/// How many microseconds the clear takes beside so many other pools, or once they are gone.
fn clear_time(rt: &HostRuntime, others: u32, stay: bool) -> Option<u128> {
    let mut tree = grown(rt, others, stay)?;
    let root = tree.root();
    if !tree.is_live(root) {
        return None;
    }
    let pool = tree.create(root).ok()?;
    fill(&mut tree, pool, SUBPOOLS)?;
    if !tree.is_live(pool) {
        return None;
    }
    let start = Instant::now(rt).ok()?;
    let ran = tree.clear(pool).ok()?;
    let took = start.elapsed(rt).ok()?;
    if ran.len() != SUBPOOLS as usize {
        return None;
    }
    Some(took.as_micros())
}

fn measure(rt: &HostRuntime) -> Option<()> {
    for _ in 0..ROUNDS {
        for others in OTHERS {
            let beside = clear_time(rt, others, true)?;
            let alone = clear_time(rt, others, false)?;
            println!(rt; "{others} {beside} {alone}").ok()?;
        }
    }
    Some(())
}

fn main(rt: HostRuntime) -> ExitCode {
    match measure(&rt) {
        Some(()) => ExitCode::SUCCESS,
        None => ExitCode::FAILURE,
    }
}
'''


def crates():
    lines = open(os.path.join(TOP, 'crates.txt')).read().split('\n')
    kept = [line for line in lines if line.split(':')[0] in BELOW]
    return '\n'.join(kept + ['clear_pool: pool_tree']) + '\n'


def built(folder):
    for name in BELOW:
        shutil.copytree(os.path.join(TOP, 'crates', name), os.path.join(folder, 'crates', name))
    crate = os.path.join(folder, 'crates', 'clear_pool')
    os.makedirs(os.path.join(crate, 'src'))
    with open(os.path.join(folder, 'crates.txt'), 'w') as out:
        out.write(crates())
    with open(os.path.join(crate, 'src', 'main.rt'), 'w') as out:
        out.write(PROGRAM)
    subprocess.run(['git', 'init', '-q', folder], check=True)
    return crate


def main():
    if not shutil.which('rt'):
        raise SystemExit('bench/clear_pool.py: there is no toolchain: no command rt')
    with tempfile.TemporaryDirectory() as folder:
        crate = built(folder)
        done = subprocess.run(['rt', 'run'], cwd=crate, capture_output=True, text=True, stdin=subprocess.DEVNULL)
        rounds = [line.split() for line in done.stdout.split('\n') if line.replace(' ', '').isdigit()]
        if done.returncode != 0 or not rounds:
            raise SystemExit('not built or not run:\n' + done.stdout + done.stderr)
        for others in sorted({int(row[0]) for row in rounds}):
            beside, alone = (sorted(int(row[k]) for row in rounds if int(row[0]) == others) for k in (1, 2))
            print('clear of 1,000 subpools, microseconds at best and in the middle: beside %d pools %d %d, once they are gone %d %d' % (
                others, beside[0], beside[len(beside) // 2], alone[0], alone[len(alone) // 2]))


if __name__ == '__main__':
    main()
