#!/usr/bin/env bash
# Prints how long each operation of ka10_alu and ka10_bytes takes: nanoseconds of processor time an
# operation, in a loop in which each operation waits for the one before it. The loop's own time is printed
# first and taken off.
# Status 1: an operation that is no division took longer than the bar, in nanoseconds, 10 or the argument.
set -eu
bar=${1:-10}
top=$(cd "$(dirname "$0")/.." && pwd)
work=$(mktemp -d)
trap 'rm -rf "$work"' EXIT

mkdir -p "$work/crates/alu_speed/src"
for crate in word36 ka10_alu ka10_bytes; do
    mkdir "$work/crates/$crate"
    find "$top/crates/$crate" -mindepth 1 -maxdepth 1 ! -name out -exec cp -r -t "$work/crates/$crate" {} +
    grep "^$crate:" "$top/crates.txt" >>"$work/crates.txt"
done
echo 'alu_speed: word36 ka10_alu ka10_bytes' >>"$work/crates.txt"
printf 'Handles allowed: none.\n' >"$work/HANDLES"

cat >"$work/crates/alu_speed/src/main.rt" <<'PROGRAM'
//! Times the operations of the KA10, one after another.
#![tactic(auto)]
ghost use Rattle.std.specs.Prelude.{◌≡◌, ◌+◌, ◌*◌, ◌<◌, ◌≤◌, ◌^◌};

use ka10_alu::{arith, boolean, half, holds, mask, shift, test, Out};
use ka10_bytes::{deposit, increment, load};
use std::io;
use std::time::{CpuClock, Duration};
use word36::Word;

const TURNS: u64 = 20_000_000;

// Where a chain of operations stands: the last result, and a number that is new at each turn.
#[derive(Clone, Copy)]
struct Chain {
    last: Word,
    number: u64,
}

impl Chain {
    fn new() -> Chain {
        Chain {
            last: Word::wrapped(0o123456701234),
            number: 1,
        }
    }

    // The next operand.
    fn operand(&mut self) -> Word {
        self.number = self
            .number
            .wrapping_mul(6364136223846793005)
            .wrapping_add(1442695040888963407);
        Word::wrapped(self.number >> 20)
    }

    // Takes all of what an operation gave, so that none of it is left out.
    fn take(&mut self, out: Out) {
        let flags = out.flags;
        let set = (flags.overflow as u64) << 1 ^ flags.carry0 as u64 ^ (flags.carry1 as u64) << 2;
        let low = out.low.unwrap_or(Word::ZERO).value();
        self.take_word(Word::wrapped(out.word.value() ^ low ^ set));
    }

    fn take_word(&mut self, word: Word) {
        self.last = Word::wrapped(self.last.value() ^ word.value());
    }
}

fn nothing(chain: &mut Chain) {
    for _turn in 0..TURNS {
        let m = chain.operand();
        chain.take_word(m);
    }
}

fn arithmetic(chain: &mut Chain, op: u16)
    requires first { 0o200 ≤ op }
    requires last { op < 0o240 }
{
    for _turn in 0..TURNS {
        let m = chain.operand();
        if let Some(out) = arith(op, chain.last, m, m) {
            chain.take(out);
        }
    }
}

fn sums(chain: &mut Chain, op: u16)
    requires first { 0o270 ≤ op }
    requires last { op < 0o300 }
{
    for _turn in 0..TURNS {
        let m = chain.operand();
        if let Some(out) = arith(op, chain.last, m, m) {
            chain.take(out);
        }
    }
}

fn shifts(chain: &mut Chain, op: u16, is_right: bool)
    requires first { 0o240 ≤ op }
    requires last { op ≤ 0o246 }
{
    for _turn in 0..TURNS {
        let m = chain.operand();
        let places = m.right() % 64;
        let e = if is_right { 0o777777 - places } else { places };
        chain.take(shift(op, chain.last, m, e));
    }
}

fn halves(chain: &mut Chain, op: u16)
    requires first { 0o500 ≤ op }
    requires last { op < 0o600 }
{
    for _turn in 0..TURNS {
        let m = chain.operand();
        chain.take_word(half(op, chain.last, m));
    }
}

fn booleans(chain: &mut Chain, op: u16)
    requires first { 0o400 ≤ op }
    requires last { op < 0o500 }
{
    for _turn in 0..TURNS {
        let m = chain.operand();
        chain.take_word(boolean(op, chain.last, m));
    }
}

fn tests(chain: &mut Chain, op: u16)
    requires first { 0o600 ≤ op }
    requires last { op < 0o700 }
{
    for _turn in 0..TURNS {
        let m = chain.operand();
        let (word, skips) = test(op, chain.last, mask(op, m));
        chain.take_word(Word::wrapped(word.value() ^ skips as u64));
    }
}

fn conditions(chain: &mut Chain, condition: u8)
    requires { condition < 8 }
{
    for _turn in 0..TURNS {
        let m = chain.operand();
        let holds = holds(condition, chain.last.signed());
        chain.take_word(Word::wrapped(m.value() ^ holds as u64));
    }
}

fn increments(chain: &mut Chain) {
    for _turn in 0..TURNS {
        let m = chain.operand();
        let p = Word::wrapped(chain.last.value() ^ m.value());
        chain.last = increment(p);
    }
}

fn loads(chain: &mut Chain) {
    for _turn in 0..TURNS {
        let m = chain.operand();
        chain.take_word(load(m, chain.last));
    }
}

fn deposits(chain: &mut Chain) {
    for _turn in 0..TURNS {
        let m = chain.operand();
        chain.take_word(deposit(m, m, chain.last));
    }
}

// Prints a line of a group of operations: the group, its first opcode or number, picoseconds a turn,
// and the last word, so that the work is not left out.
fn print_line<R: CpuClock + Print>(
    rt: &R,
    group: &str,
    op: u16,
    start: Duration,
    chain: &Chain,
) -> io::Result<()> {
    let picoseconds = rt.thread_cpu_time()?.saturating_sub(start).as_nanos() / (TURNS as u128 / 1000);
    println!(rt; "{group} {op:o} {picoseconds} {:o}", chain.last.value())
}

fn time_bytes<R: CpuClock + Print>(rt: &R) -> io::Result<()> {
    let mut chain = Chain::new();
    let start = rt.thread_cpu_time()?;
    increments(&mut chain);
    print_line(rt, "increment", 0, start, &chain)?;
    let start = rt.thread_cpu_time()?;
    loads(&mut chain);
    print_line(rt, "load", 0, start, &chain)?;
    let start = rt.thread_cpu_time()?;
    deposits(&mut chain);
    print_line(rt, "deposit", 0, start, &chain)
}

fn main(rt: HostRuntime) -> io::Result<()> {
    let mut chain = Chain::new();
    let start = rt.thread_cpu_time()?;
    nothing(&mut chain);
    print_line(&rt, "loop", 0, start, &chain)?;
    for place in 0..8 {
        let start = rt.thread_cpu_time()?;
        arithmetic(&mut chain, 0o200 + 4 * place);
        print_line(&rt, "arithmetic", 0o200 + 4 * place, start, &chain)?;
    }
    for place in 0..2 {
        let start = rt.thread_cpu_time()?;
        sums(&mut chain, 0o270 + 4 * place);
        print_line(&rt, "arithmetic", 0o270 + 4 * place, start, &chain)?;
    }
    for place in 0..7 {
        let start = rt.thread_cpu_time()?;
        shifts(&mut chain, 0o240 + place, false);
        print_line(&rt, "left", 0o240 + place, start, &chain)?;
        let start = rt.thread_cpu_time()?;
        shifts(&mut chain, 0o240 + place, true);
        print_line(&rt, "right", 0o240 + place, start, &chain)?;
    }
    for condition in 0..8 {
        let start = rt.thread_cpu_time()?;
        conditions(&mut chain, condition);
        print_line(&rt, "condition", condition as u16, start, &chain)?;
    }
    for place in 0..16 {
        let start = rt.thread_cpu_time()?;
        booleans(&mut chain, 0o400 + 4 * place);
        print_line(&rt, "boolean", 0o400 + 4 * place, start, &chain)?;
    }
    for place in 0..16 {
        let start = rt.thread_cpu_time()?;
        halves(&mut chain, 0o500 + 4 * place);
        print_line(&rt, "half", 0o500 + 4 * place, start, &chain)?;
    }
    for place in 0..64 {
        let start = rt.thread_cpu_time()?;
        tests(&mut chain, 0o600 + place);
        print_line(&rt, "test", 0o600 + place, start, &chain)?;
    }
    time_bytes(&rt)
}
PROGRAM

cd "$work/crates/alu_speed"
rt run 2>"$work/messages" >"$work/times" || { cat "$work/messages" "$work/times" >&2; exit 2; }
awk -v bar="$bar" '
    $1 == "loop" { loop = $3; printf "%-12s %4s %6.2f ns\n", "the loop", "", loop / 1000; next }
    {
        time = $3 > loop ? ($3 - loop) / 1000 : 0
        division = $1 == "arithmetic" && $2 >= 230 && $2 < 240
        late = time > bar && !division
        failed = failed || late
        printf "%-12s %4s %6.2f ns%s\n", $1, $2, time, late ? "  over the bar" : ""
    }
    END { exit failed }
' "$work/times"
