#!/usr/bin/env bash
# Prints how long calls of the tables take, at a small and at a full table: nanoseconds of processor time a
# turn. The empty loop is printed first and taken off. Calls that undo each other are one turn, and before
# each time stands what the table is filled with (the length of a line for exec_cmd, events for script_lang).
# The sources run by `rt try`: nothing is proved, and each access is checked as it goes, which is many times
# slower than what ./tenex builds. So the columns tell whether a call grows, and not how long it takes there.
# Calls that say in their comment that they grow with the table may: `grows` has them, each with the reason.
# Behind them it prints what bench/pages.sh counts of pages in frames, in a program that is built without such checks.
# Status 1: another call took longer at the full table, by the factor 4 or the argument, or beside others by more than
# `beside` has; or bench/pages.sh found more than there may be. 2: nothing was timed, or not counted.
set -eu
factor=${1:-4}
top=$(cd "$(dirname "$0")/.." && pwd)
work=$(mktemp -d)
trap 'rm -rf "$work"' EXIT

grows='file_dir create, delete=create moves the names behind the new one'
# Calls that take at most so many times as long as others do, at the full table: a page of a space that is found and read
# along maps that are pages, beside one along maps in memory.
beside='slot_paged find, load=flat_pages find, load=2
slot_paged find, load along four=flat_pages find, load along four=2'
timed='number_set number_map tournament page_files jfn_table file_dir frame_order drum_queue frame_table share_table script_lang tty_lines exec_cmd'
paged='page_contracts page_residence paged_store fork_maps flat_tables flat_pages pager_walk paged_tables slot_paged known_slots'

mkdir -p "$work/crates/leaf_speed/src"
for crate in word36 outside page_homes machine_names script_texts plain_pages plain_files plain_typing $timed $paged; do
    mkdir "$work/crates/$crate"
    find "$top/crates/$crate" -mindepth 1 -maxdepth 1 ! -name out -exec cp -r -t "$work/crates/$crate" {} +
    grep "^$crate:" "$top/crates.txt" >>"$work/crates.txt"
done
echo "leaf_speed: word36 outside page_homes machine_names plain_pages plain_typing $timed $paged" >>"$work/crates.txt"
printf 'Handles allowed: none.\n' >"$work/HANDLES"

cat >"$work/crates/leaf_speed/src/main.rt" <<'PROGRAM'
//! Times calls of the tables, each at a small and at a full one.
#![tactic(auto)]

use drum_queue::{Queue, Transfer};
use file_dir::{Dir, read_name};
use flat_pages::{FlatSlots, FlatStore};
use frame_order::FrameOrder;
use frame_table::Frames;
use jfn_table::JobJfns;
use number_map::NumberMap;
use number_set::NumberSet;
use outside::{Drum, Memory, SureDrum};
use page_contracts::{Need, Pages, Store};
use page_files::{Files, Lengths, place};
use paged_store::PagedStore;
use machine_names::{Access, DirName, FileName, FileNo, ForkName, Kind, Place, Slot, TERMINALS, Tty};
use page_homes::{FrameId, Home};
use plain_pages::NewMap;
use known_slots::KnownSlots;
use slot_paged::SlotPaged;
use word36::Word;
use plain_typing::CONTROL_C;
use script_lang::big_from;
use share_table::{Pointer, Share, ShareTable, decode, encode};
use std::io;
use std::time::CpuClock;
use tournament::Tournament;
use tty_lines::Line;

// How many nanoseconds the last round of turns takes at least.
const LONG: u128 = 10_000_000;

// What times the calls of a table that is filled so far.
#[derive(Drop)]
struct Timer<'a> {
    rt: &'a HostRuntime,
    table: &'a str,
    filled: u32,
}

impl<'a> Timer<'a> {
    fn of(rt: &'a HostRuntime, table: &'a str, filled: u32) -> Timer<'a> {
        Timer { rt, table, filled }
    }

    // How many nanoseconds so many turns of calls take, each with a number below `filled`.
    fn round<T: Drop, F: FnMut(u32) -> T>(&self, turns: u64, turn: &mut F) -> io::Result<u128> {
        let mut number: u64 = 1;
        let start = self.rt.thread_cpu_time()?;
        for _turn in 0..turns {
            number = number
                .wrapping_mul(6364136223846793005)
                .wrapping_add(1442695040888963407);
            let below = (number >> 32) * u64::from(self.filled) >> 32;
            let _ = turn(below as u32);
        }
        Ok(self.rt.thread_cpu_time()?.saturating_sub(start).as_nanos())
    }

    // Times rounds of calls, each of twice as many turns as the one before, until one is long
    // enough. Prints a line of it: the table and the calls, how full it is, picoseconds a turn.
    fn time<T: Drop, F: FnMut(u32) -> T>(&self, calls: &str, mut turn: F) -> io::Result<()> {
        for doublings in 5..40 {
            let taken = self.round(1 << doublings, &mut turn)?;
            if taken >= LONG {
                let picoseconds = (taken * 1000) >> doublings;
                return println!(self.rt; "{} {calls}:{}:{picoseconds}", self.table, self.filled);
            }
        }
        Ok(())
    }
}

// A table that there was memory for.
fn there<T>(made: Result<T, Memory>) -> io::Result<T> {
    made.map_err(|_| io::Error::from(io::ErrorKind::OutOfMemory))
}

fn number_set(rt: &HostRuntime, filled: u32) -> io::Result<()> {
    let timer = Timer::of(rt, "number_set", filled);
    let mut numbers = there(NumberSet::boot(rt.alloc(), 262144))?;
    for n in 0..filled {
        numbers.insert(n as usize);
    }
    timer.time("least_absent", |n| numbers.least_absent(n as usize))?;
    timer.time("remove, least_absent, insert", |n| {
        numbers.remove(n as usize);
        let least = numbers.least_absent(0);
        numbers.insert(n as usize);
        least
    })
}

fn number_map(rt: &HostRuntime, filled: u32) -> io::Result<()> {
    let timer = Timer::of(rt, "number_map", filled);
    let mut map = there(NumberMap::<u32, 16384>::boot(rt.alloc()))?;
    for n in 0..filled {
        map.insert(n as usize, n);
    }
    timer.time("get", |n| map.get(n as usize))?;
    timer.time("remove, insert", |n| {
        map.remove(n as usize);
        map.insert(n as usize, n)
    })?;
    timer.time("first_free", |_| map.first_free(0))
}

fn tournament(rt: &HostRuntime, filled: u32) -> io::Result<()> {
    let timer = Timer::of(rt, "tournament", filled);
    let mut keys = there(Tournament::boot(rt.alloc(), filled as usize))?;
    for n in 0..filled {
        keys.set(n as usize, Some(u64::from(n)));
    }
    timer.time("winner", |_| keys.winner())?;
    // A key that is set to what it was would end at once, in a small table sooner than in a full one.
    let mut key = u64::from(filled);
    timer.time("set", |n| {
        key += 1;
        keys.set(n as usize, Some(key))
    })
}

fn page_files(rt: &HostRuntime, filled: u32) -> io::Result<()> {
    let timer = Timer::of(rt, "page_files", filled);
    let mut files = there(Files::<u32>::boot(rt.alloc()))?;
    let mut lengths = there(Lengths::boot(rt.alloc()))?;
    let at = |n: u32| (FileNo((n / 512) as u16), (n % 512) as u16);
    for n in 0..filled {
        files.put_page(at(n).0, at(n).1, n);
    }
    timer.time("page", |n| files.page(at(n).0, at(n).1))?;
    timer.time("drop_page, put_page", |n| {
        files.drop_page(at(n).0, at(n).1);
        files.put_page(at(n).0, at(n).1, n)
    })?;
    timer.time("set_length, length, size", |n| {
        lengths.set_length(at(n).0, u64::from(n), 7);
        (lengths.length(at(n).0), lengths.size(at(n).0))
    })?;
    timer.time("place", |n| place(7, u64::from(n)))
}

// Each job holds so many JFNs.
fn jfn_table(rt: &HostRuntime, filled: u32) -> io::Result<()> {
    let timer = Timer::of(rt, "jfn_table", filled);
    let mut jobs = there(JobJfns::boot(rt.alloc()))?;
    for n in 0..TERMINALS as u32 * filled {
        let jfns = jobs.of_mut(Tty((n / filled) as u8));
        let _ = jfns.take(FileNo((n % filled) as u16));
    }
    timer.time("get", |n| jobs.of(Tty(0)).get(n + 1))?;
    timer.time("names", |n| jobs.names(FileNo(n as u16)))?;
    let jfns = jobs.of_mut(Tty(0));
    timer.time("take, release", |n| {
        if let Ok(jfn) = jfns.take(FileNo(n as u16)) {
            jfns.release(jfn);
        }
    })
}

// The name of a file, told from the others by two letters.
fn lettered(n: u32) -> FileName {
    let letter = |m: u32| b'A' + (m % 26) as u8;
    FileName::new(&[b'<', b'U', b'>', letter(n / 26), letter(n), b'.'])
}

fn file_dir(rt: &HostRuntime, filled: u32) -> io::Result<()> {
    let timer = Timer::of(rt, "file_dir", filled);
    let user = DirName::new(b"U");
    let mut dir = there(Dir::boot(rt.alloc()))?;
    let mut names = Vec::new(rt.alloc());
    for n in 0..filled {
        names.push(lettered(n))?;
        let _ = dir.create(&lettered(n));
    }
    timer.time("read_name", |_| read_name(b"name.txt", &user))?;
    timer.time("name_of", |n| dir.name_of(FileNo(n as u16)))?;
    timer.time("find", |n| dir.find(&names[n as usize]))?;
    timer.time("list", |n| dir.list(&user, Some(FileNo(n as u16))))?;
    timer.time("create, delete", |n| {
        dir.delete(FileNo(n as u16));
        dir.create(&names[n as usize])
    })
}

fn frame_order(rt: &HostRuntime, filled: u32) -> io::Result<()> {
    let timer = Timer::of(rt, "frame_order", filled);
    let mut order = there(FrameOrder::boot(rt.alloc(), filled))?;
    for f in 0..filled {
        order.push(f);
    }
    timer.time("remove, push, first", |f| {
        order.remove(f);
        order.push(f);
        order.first()
    })
}

fn drum_queue(rt: &HostRuntime, filled: u32) -> io::Result<()> {
    let timer = Timer::of(rt, "drum_queue", filled);
    let mut queue = there(Queue::boot(rt.alloc(), filled))?;
    for f in 0..filled {
        queue.start_write(FrameId(f), Home(f));
    }
    timer.time("transfer_of", |f| queue.transfer_of(FrameId(f)))?;
    timer.time("rescue, start_write", |f| {
        if queue.rescue(FrameId(f)) {
            queue.start_write(FrameId(f), Home(f));
        }
    })?;
    timer.time("cancel, start_read", |f| {
        if queue.cancel(FrameId(f)).is_some() {
            queue.start_read(FrameId(f), Home(f));
        }
    })?;
    timer.time("next, finish, start_read", |_| {
        let oldest = queue.next().map_or(FrameId(0), Transfer::frame);
        queue.finish();
        queue.start_read(oldest, Home(oldest.0));
    })
}

fn frame_table(rt: &HostRuntime, filled: u32) -> io::Result<()> {
    let timer = Timer::of(rt, "frame_table", filled);
    let mut frames = there(Frames::boot(rt.alloc(), filled))?;
    for n in 0..filled {
        let _ = frames.assign(Home(n));
    }
    timer.time("hold, release", |f| {
        let hold = frames.hold(FrameId(f));
        frames.release(hold);
    })?;
    timer.time("pin, unpin", |f| {
        frames.pin(FrameId(f));
        frames.unpin(FrameId(f));
    })?;
    timer.time("touch_age", |f| frames.touch_age(FrameId(f)))?;
    timer.time("touch_age, look_for_victim, victim", |f| {
        frames.touch_age(FrameId(f));
        frames.look_for_victim();
        frames.victim()
    })?;
    timer.time("free, assign", |f| {
        frames.free(FrameId(f));
        frames.assign(Home(f))
    })?;
    frames.touch_age(FrameId(0));
    for f in 1..filled {
        frames.pin(FrameId(f));
    }
    // Each that was pinned is passed over once, and one in 64 in a look.
    for _look in 0..64 {
        frames.look_for_victim();
    }
    timer.time("victim, others pinned", |_| {
        frames.look_for_victim();
        frames.victim()
    })
}

fn share_table(rt: &HostRuntime, filled: u32) -> io::Result<()> {
    let timer = Timer::of(rt, "share_table", filled);
    let access = Access {
        r: true,
        w: true,
        x: false,
        c: true,
    };
    let mut shares = there(ShareTable::boot(rt.alloc(), filled))?;
    for n in 0..filled {
        shares.share(Home(n));
    }
    timer.time("encode, decode", |n| {
        decode(encode(Pointer::Shared(Share(n), access)))
    })?;
    timer.time("join, leave", |n| {
        shares.join(Share(n));
        shares.leave(Share(n))
    })?;
    timer.time("leave, share", |n| {
        let home = shares.leave(Share(n)).unwrap_or(Home(0));
        shares.share(home)
    })
}

// A drum's own copies of a page, which it writes and reads again.
fn drum(rt: &HostRuntime, pages: u32) -> io::Result<()> {
    let mut drum = there(SureDrum::new(rt.alloc(), pages))?;
    let mut words = [0; 512];
    Timer::of(rt, "outside", pages).time("write, read", |page| {
        let _written = drum.write(page, &words);
        drum.read(page, &mut words)
    })
}

// All frames are full. Of each home from their number on the page stands on the drum alone.
fn paged_store(rt: &HostRuntime, frames: u32) -> io::Result<()> {
    let timer = Timer::of(rt, "paged_store", frames);
    let pages = 2 * frames;
    let mut drum = there(SureDrum::new(rt.alloc(), pages))?;
    let mut store = there(PagedStore::boot(rt.alloc(), frames, pages))?;
    for page in 0..pages {
        if page >= frames {
            store.fetch(Need::Frame);
            store.complete(&mut drum);
        }
        store.make();
    }
    // The last homes are in frames: which of them is in which is found by their words.
    timer.time("find, load", |n| {
        let home = Home(frames + n);
        store.find(home).map(|found| store.load(found, 0))
    })?;
    timer.time("put", |n| store.put(Home(frames + n), 0, Word::ZERO))?;
    timer.time("free, make", |n| {
        store.free(Home(frames + n));
        store.make()
    })?;
    timer.time("evict, fetch", |n| {
        let home = Home(frames + n);
        store.evict(FrameId(n));
        store.complete(&mut drum);
        store.fetch(Need::Page(home));
        store.complete(&mut drum)
    })?;
    let mut next = 0;
    timer.time("fetch by a victim", |_| {
        let home = Home(next);
        next = if next + 1 == pages { 0 } else { next + 1 };
        store.fetch(Need::Page(home));
        store.complete(&mut drum);
        store.fetch(Need::Page(home));
        store.complete(&mut drum)
    })
}

// A fork of the first terminal.
fn fork(serial: u32) -> ForkName {
    ForkName {
        tty: Tty(0),
        serial,
    }
}

// A page of a fork's space.
fn page_of(serial: u32, page: u32) -> Place {
    Place::Fork(Slot {
        fork: fork(serial),
        page: (page % 512) as u16,
    })
}

// So many forks of a terminal, of which each follows the one before it.
fn maps_in_memory(rt: &HostRuntime, forks: u32) -> io::Result<()> {
    let timer = Timer::of(rt, "flat_pages", forks);
    let store = there(FlatStore::boot(rt.alloc(), 256))?;
    let mut pages = there(FlatSlots::boot(rt.alloc(), store, 256))?;
    pages.add_fork(fork(1), NewMap::Empty);
    for serial in 2..=forks {
        pages.add_fork(fork(serial), NewMap::FollowAll(fork(if serial > 4 { 1 } else { serial - 1 })));
    }
    timer.time("touch", |n| pages.touch(page_of(1, n), Kind::Read))?;
    timer.time("touch along four", |n| pages.touch(page_of(4, n), Kind::Read))
}

// A page is found and read, where maps are in memory and pages in frames.
fn pages_in_frames(rt: &HostRuntime, forks: u32) -> io::Result<()> {
    let timer = Timer::of(rt, "flat_pages", forks);
    let store = there(PagedStore::boot(rt.alloc(), 256, 256))?;
    let mut pages = there(FlatSlots::boot(rt.alloc(), store, 256))?;
    pages.add_fork(fork(1), NewMap::Empty);
    for serial in 2..=forks {
        pages.add_fork(fork(serial), NewMap::FollowAll(fork(if serial > 4 { 1 } else { serial - 1 })));
    }
    pages.settle(page_of(1, 0), Kind::Write, Tty(0));
    let (one, four) = (pages.space(fork(1)), pages.space(fork(4)));
    timer.time("find, load", |n| match pages.find(one, 0, Kind::Read) {
        Some(found) => pages.load(one, found, n % 512),
        None => Word::ZERO,
    })?;
    timer.time("find, load along four", |n| match pages.find(four, 0, Kind::Read) {
        Some(found) => pages.load(four, found, n % 512),
        None => Word::ZERO,
    })
}

// The same, where maps are pages in frames.
fn maps_in_pages(rt: &HostRuntime, forks: u32) -> io::Result<()> {
    let timer = Timer::of(rt, "slot_paged", forks);
    let store = there(PagedStore::boot(rt.alloc(), 256, 256))?;
    let mut pages = there(SlotPaged::boot(rt.alloc(), store, 256))?;
    pages.add_fork(fork(1), NewMap::Empty);
    for serial in 2..=forks {
        pages.add_fork(fork(serial), NewMap::FollowAll(fork(if serial > 4 { 1 } else { serial - 1 })));
    }
    timer.time("touch", |n| pages.touch(page_of(1, n), Kind::Read))?;
    timer.time("touch along four", |n| pages.touch(page_of(4, n), Kind::Read))?;
    pages.settle(page_of(1, 0), Kind::Write, Tty(0));
    let mut pages = there(KnownSlots::over(rt.alloc(), pages))?;
    let (one, four) = (pages.space(fork(1)), pages.space(fork(4)));
    timer.time("find, load", |n| match pages.find(one, 0, Kind::Read) {
        Some(found) => pages.load(one, found, n % 512),
        None => Word::ZERO,
    })?;
    timer.time("find, load along four", |n| match pages.find(four, 0, Kind::Read) {
        Some(found) => pages.load(four, found, n % 512),
        None => Word::ZERO,
    })
}

// The line stores so many characters, and of so many codes each is assigned that may be.
fn tty_lines(rt: &HostRuntime, stored: u32, codes: u8) -> io::Result<()> {
    let fork = ForkName {
        tty: Tty(0),
        serial: 1,
    };
    let mut line = there(Line::boot(rt.alloc()))?;
    for _typed in 0..stored {
        let _ = line.typed(b'A');
    }
    for code in 0..codes {
        if code != CONTROL_C {
            line.assign(code, fork, 1);
        }
    }
    Timer::of(rt, "tty_lines", stored).time("take, typed", |_| (line.take(), line.typed(b'A')))?;
    let timer = Timer::of(rt, "tty_lines", u32::from(codes));
    timer.time("assign", |n| line.assign((n % 3) as u8, fork, 2))
}

fn exec_cmd(rt: &HostRuntime, line: &[u8]) -> io::Result<()> {
    let user = DirName::new(b"U");
    let timer = Timer::of(rt, "exec_cmd", line.len() as u32);
    timer.time("read", |_| exec_cmd::read(line, &user))
}

// Each turn gives an event. After so many of them the script begins again.
fn generated(rt: &HostRuntime, events: u32) -> io::Result<()> {
    let (mut big, mut left) = (big_from(7), events);
    Timer::of(rt, "script_lang", events).time("next", |_| {
        if left == 0 {
            (big, left) = (big_from(7), events);
        }
        left -= 1;
        big.next()
    })
}

fn main(rt: HostRuntime) -> io::Result<()> {
    Timer::of(&rt, "the", 1).time("loop", |n| n)?;
    for filled in [64, 16384] {
        number_set(&rt, filled)?;
        number_map(&rt, filled)?;
        share_table(&rt, filled)?;
    }
    page_files(&rt, 16)?;
    page_files(&rt, 512 * 512)?;
    jfn_table(&rt, 1)?;
    jfn_table(&rt, 19)?;
    file_dir(&rt, 16)?;
    file_dir(&rt, 512)?;
    for frames in [64, 8192] {
        tournament(&rt, frames)?;
        frame_order(&rt, frames)?;
        drum_queue(&rt, frames)?;
        frame_table(&rt, frames)?;
    }
    for frames in [160, 8192] {
        drum(&rt, 2 * frames)?;
        paged_store(&rt, frames)?;
    }
    for forks in [4, 30] {
        maps_in_memory(&rt, forks)?;
        pages_in_frames(&rt, forks)?;
        maps_in_pages(&rt, forks)?;
    }
    tty_lines(&rt, 1, 3)?;
    tty_lines(&rt, 80, 0o33)?;
    exec_cmd(&rt, b"RUN A")?;
    exec_cmd(&rt, b"DELETE <ABCDEFGHIJKL>ABCDEFGHIJKLMNOPQRSTU.XYZ")?;
    generated(&rt, 8)?;
    generated(&rt, 242)
}
PROGRAM

cd "$work/crates/leaf_speed"
# rt try also runs a program on an interpreter, which is to stop at its first step.
rt try --steps 1 --seconds 300 2>"$work/messages" >"$work/times" || { cat "$work/messages" "$work/times" >&2; exit 2; }
status=0
awk -F: -v factor="$factor" -v grows="$grows" -v beside="$beside" '
    BEGIN {
        for (n = split(grows, lines, "\n"); n > 0; n--) {
            reason[substr(lines[n], 1, index(lines[n], "=") - 1)] = substr(lines[n], index(lines[n], "=") + 1)
        }
        for (n = split(beside, lines, "\n"); n > 0; n--) {
            split(lines[n], parts, "=")
            other[parts[1]] = parts[2]
            most[parts[1]] = parts[3]
        }
        printf "%-46s %14s %22s\n", "calls", "small: ns", "full: ns"
    }
    $1 == "the loop" { loop = $3; printf "%-46s %14.0f\n", "the loop", loop / 1000; next }
    { time = $3 > loop ? ($3 - loop) / 1000 : 0 }
    !($1 in small) { small[$1] = time; size[$1] = $2; next }
    {
        longer = time > factor * small[$1] && !($1 in reason)
        failed = failed || longer
        full[$1] = time
        says = longer ? "  LONGER" : $1 in reason ? "  " reason[$1] : ""
        printf "%-46s %5d: %7.0f %12d: %8.0f%s\n", $1, size[$1], small[$1], $2, time, says
    }
    END {
        for (calls in other) {
            longer = full[calls] > most[calls] * full[other[calls]]
            failed = failed || longer
            printf "%s: %.1f times as long as %s, at most %d%s\n", calls, full[calls] / full[other[calls]], other[calls], most[calls], longer ? "  LONGER" : ""
        }
        exit failed
    }
' "$work/times" || status=1
echo
"$top/bench/pages.sh" || { counted=$?; [ $status -ne 0 ] || status=$counted; }
exit $status
