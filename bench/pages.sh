#!/usr/bin/env bash
# Prints how many machine instructions it takes that a page leaves its frame and comes back, that one comes in and sends
# off another, with few frames and with as many as there may be, and that a page of a space is found and a word of it is
# read, along maps in memory and along maps that are pages in frames, by the same code: in a program that is proved here
# and built as ./tenex is. All leave out the start of the program: they are the difference between two runs.
# Status 1: a page that leaves and comes back takes more than `copies` times as many as its two copies, whose
# machine instructions move 32 bytes each; with many frames it, or one that sends off another, takes more than
# `halves` hundredths of what it does with few, as the steps of a search by halves do; or a word along maps that
# are pages takes more than `maps` times as many as along maps in memory. 2: nothing was counted.
set -eu
copies=3 few=160 many=8192 halves=178 maps=2
top=$(cd "$(dirname "$0")/.." && pwd)
work=$(mktemp -d)
trap 'rm -rf "$work"' EXIT
command -v valgrind >/dev/null || {
    echo 'machine instructions: not counted, as valgrind is not there'
    exit 2
}

below='word36 outside page_homes machine_names plain_pages plain_files number_set number_map tournament frame_order page_files'
pages='drum_queue frame_table share_table page_contracts page_residence paged_store fork_maps flat_tables flat_pages pager_walk paged_tables slot_paged known_slots'
speed=$work/crates/page_speed
mkdir -p "$speed/src" "$speed/proofs/is_away" "$speed/proofs/complete" "$speed/proofs/look" "$speed/proofs/paged"
for crate in $below $pages; do
    mkdir "$work/crates/$crate"
    find "$top/crates/$crate" -mindepth 1 -maxdepth 1 ! -name out -exec cp -r -t "$work/crates/$crate" {} +
    grep "^$crate:" "$top/crates.txt" >>"$work/crates.txt"
done
echo 'page_speed: outside page_homes machine_names plain_pages page_contracts paged_store flat_pages paged_tables slot_paged known_slots' >>"$work/crates.txt"
printf 'Handles allowed: none.\n' >"$work/HANDLES"

cat >"$speed/src/main.rt" <<'PROGRAM'
//! Calls on pages that come and go, as often as is asked, so that their machine instructions can be counted.
#![tactic(auto)]

ghost use Rattle.std.specs.Prelude.{◌≡◌, ◌⊎◌, ◌+◌, ◌≤◌, ◌<◌, ◌^◌, ◌||◌, true, false};
ghost use Rattle.machine_names.specs.declared.names.ForkName.{ForkName as AForkName};
ghost use Rattle.machine_names.specs.declared.names.TheConstants.{TERMINALS};
ghost use Rattle.machine_names.specs.Orders.{same_fork};
ghost use Rattle.page_contracts.specs.Pages.{IsNewMap, MapFollowsFork};
ghost use Rattle.page_contracts.specs.Stores.{away, place};
ghost use Rattle.paged_store.specs.StoreMeaning.{paged_meaning};

use flat_pages::FlatSlots;
use known_slots::KnownSlots;
use machine_names::{ForkName, Kind, Place, Slot, Tty};
use outside::{Drum, Memory, SureDrum};
use page_contracts::{Need, Pages, Room, Store, Touch};
use page_homes::{FrameId, Home, MOST_HOMES};
use paged_store::PagedStore;
use plain_pages::NewMap;
use slot_paged::SlotPaged;
use std::alloc::Global;
use std::{env, io};

// A drum's own copy of a page, which it reads. How many of the words that are looked at are odd.
fn copy_pages(drum: &mut SureDrum, times: u32) -> u32 {
    let mut words = [0; 512];
    let mut odd: u32 = 0;
    for time in 0..times {
        if time % 256 < drum.pages() {
            let _read = drum.read(time % 256, &mut words);
        }
        if words[(time % 512) as usize] % 2 == 1 {
            odd = odd.wrapping_add(1);
        }
    }
    odd
}

// Whether a home's page is on the drum alone.
fn is_away(store: &PagedStore, home: Home) -> bool
    ensures { result ≡ true → place (paged_meaning.homes store.now) home.0 ≡ away }
{
    store.taken(home) && store.find(home).is_none()
}

// Ends the oldest transfer.
fn complete(store: &mut PagedStore, drum: &mut SureDrum) {
    if drum.pages() < MOST_HOMES {
        return;
    }
    let _told = store.complete(drum);
}

// Asks for a page that is in no frame, and ends the oldest transfer.
fn bring(store: &mut PagedStore, drum: &mut SureDrum, home: Home) {
    if is_away(store, home) {
        store.fetch(Need::Page(home));
        complete(store, drum);
    }
}

// All frames are full, and there are twice as many pages. Those of the last homes are in frames, each in its own.
fn filled(alloc: Global, drum: &mut SureDrum, frames: u32) -> Result<PagedStore, Memory> {
    if frames > 8192 {
        return Err(Memory);
    }
    let pages = 2 * frames;
    let mut store = PagedStore::boot(alloc, frames, pages)?;
    for _page in 0..pages {
        if let Room::NeedFrame = store.room(1) {
            store.fetch(Need::Frame);
            complete(&mut store, drum);
        }
        if let Room::Enough = store.room(1) {
            store.make();
        }
    }
    Ok(store)
}

// A page leaves its frame and comes back.
fn fetch_pages(store: &mut PagedStore, drum: &mut SureDrum, frames: u32, times: u32) {
    for time in 0..times {
        let n = time % frames.max(1);
        store.evict(FrameId(n));
        complete(store, drum);
        bring(store, drum, Home(frames.saturating_add(n)));
    }
}

// A use of a page, where it is in a frame.
fn use_page(store: &mut PagedStore, home: Home) {
    if store.taken(home) {
        if let Some(found) = store.find(home) {
            let _word = store.load(found, 0);
        }
    }
}

// Pages come in, one after the other, and each sends the one off that is next to leave. Between them four pages are
// used that are drawn from all.
fn turn_pages(store: &mut PagedStore, drum: &mut SureDrum, frames: u32, times: u32) {
    let pages = frames.saturating_mul(2).max(1);
    let mut number: u32 = 1;
    for time in 0..times {
        let home = Home(time % pages);
        bring(store, drum, home);
        bring(store, drum, home);
        for _use in 0..4 {
            number = number.wrapping_mul(1664525).wrapping_add(1013904223);
            use_page(store, Home((number >> 12) % pages));
        }
    }
}

// Forks of the first terminal.
const FIRST: ForkName = ForkName {
    tty: Tty(0),
    serial: 1,
};

const SECOND: ForkName = ForkName {
    tty: Tty(0),
    serial: 2,
};

const THIRD: ForkName = ForkName {
    tty: Tty(0),
    serial: 3,
};

const FOURTH: ForkName = ForkName {
    tty: Tty(0),
    serial: 4,
};

// The page of which a word is read, and its first address.
const PAGE: u16 = 5;

const ADDRESS: u32 = 2560;

// Adds a fork. False where there is no room.
fn add<P: Pages>(pages: &mut P, fork: ForkName, map: NewMap) -> bool
    requires absent { P.means.lives pages.old fork ≡ false }
    requires few { P.means.forks_of pages.old fork.tty < P.means.most_forks }
    requires terminal { fork.tty.0 < TERMINALS }
    requires map { IsNewMap (P.means.lives pages.old) fork map }
    requires follows { MapFollowsFork map }
    ensures lives { result ≡ true → (f : AForkName) → P.means.lives pages.new f ≡ (same_fork f fork || P.means.lives pages.old f) }
    ensures forks { result ≡ true → P.means.forks_of pages.new fork.tty ≡ P.means.forks_of pages.old fork.tty + 1 }
    ensures serials { P.means.serial pages.new ≡ P.means.serial pages.old }
{
    let Room::Enough = pages.room(1) else {
        return false;
    };
    pages.add_fork(fork, map);
    true
}

// Four forks, of which each follows the one before it. False where there is no room.
fn are_four<P: Pages>(pages: &mut P) -> bool
    requires absent { (f : AForkName) → P.means.lives pages.old f ≡ false }
    requires few { P.means.forks_of pages.old FIRST.tty + 4 ≤ P.means.most_forks }
    ensures first { result ≡ true → P.means.lives pages.new FIRST ≡ true }
    ensures fourth { result ≡ true → P.means.lives pages.new FOURTH ≡ true }
    ensures serials { P.means.serial pages.new ≡ P.means.serial pages.old }
{
    add(pages, FIRST, NewMap::Empty)
        && add(pages, SECOND, NewMap::FollowAll(FIRST))
        && add(pages, THIRD, NewMap::FollowAll(SECOND))
        && add(pages, FOURTH, NewMap::FollowAll(THIRD))
}

// Makes the page of the first fork. False where it can't be made.
fn is_made<P: Pages>(pages: &mut P) -> bool
    requires first { P.means.lives pages.old FIRST ≡ true }
    requires serial { P.means.serial pages.old FIRST.tty < 2 ^ 63 }
    ensures { P.means.lives pages.new ≡ P.means.lives pages.old }
{
    let at = Place::Fork(Slot {
        fork: FIRST,
        page: PAGE,
    });
    let Touch::Zero = pages.touch(at, Kind::Write) else {
        return false;
    };
    pages.settle(at, Kind::Write, FIRST.tty);
    true
}

// How many of so many times the page is found in a fork's space, and a word of it read.
fn look<P: Pages>(pages: &mut P, fork: ForkName, times: u32) -> u32
    requires { P.means.lives pages.old fork ≡ true }
{
    let space = pages.space(fork);
    let mut read: u32 = 0;
    for _time in 0..times {
        if let Some(found) = pages.find(space, PAGE, Kind::Read) {
            let _word = pages.load(space, found, ADDRESS);
            read = read.wrapping_add(1);
        }
    }
    read
}

// How often the page is read in the first fork or along four.
fn looked<P: Pages>(pages: &mut P, fork: ForkName, times: u32) -> Result<u32, Memory>
    requires absent { (f : AForkName) → P.means.lives pages.old f ≡ false }
    requires few { P.means.forks_of pages.old FIRST.tty + 4 ≤ P.means.most_forks }
    requires serial { P.means.serial pages.old FIRST.tty < 2 ^ 63 }
    requires fork { (fork ≡ FIRST) ⊎ (fork ≡ FOURTH) }
{
    if !are_four(pages) || !is_made(pages) {
        return Err(Memory);
    }
    Ok(look(pages, fork, times))
}

// The same along maps that are in memory, over pages in frames.
fn flat(alloc: Global, fork: ForkName, times: u32) -> Result<u32, Memory>
    requires { (fork ≡ FIRST) ⊎ (fork ≡ FOURTH) }
{
    let store = PagedStore::boot(alloc, 256, 256)?;
    let mut pages = FlatSlots::boot(alloc, store, 256)?;
    looked(&mut pages, fork, times)
}

// The same along maps that are pages in frames too.
fn paged(alloc: Global, fork: ForkName, times: u32) -> Result<u32, Memory>
    requires { (fork ≡ FIRST) ⊎ (fork ≡ FOURTH) }
{
    let store = PagedStore::boot(alloc, 256, 256)?;
    let pages = SlotPaged::boot(alloc, store, 256)?;
    let mut known = KnownSlots::over(alloc, pages)?;
    looked(&mut known, fork, times)
}

// Pages come and go.
fn paging(alloc: Global, what: &str, frames: u32, times: u32) -> Result<u32, Memory> {
    let mut drum = SureDrum::new(alloc, MOST_HOMES)?;
    if what == "copies" {
        return Ok(copy_pages(&mut drum, times));
    }
    let mut store = filled(alloc, &mut drum, frames)?;
    if what == "fetch" {
        fetch_pages(&mut store, &mut drum, frames, times);
    } else {
        turn_pages(&mut store, &mut drum, frames, times);
    }
    Ok(0)
}

// What is done so often: a page that is found and read, or pages that come and go among so many frames.
fn done(alloc: Global, what: &str, frames: u32, times: u32) -> Result<u32, Memory> {
    if what == "flat_near" {
        flat(alloc, FIRST, times)
    } else if what == "flat_far" {
        flat(alloc, FOURTH, times)
    } else if what == "paged_near" {
        paged(alloc, FIRST, times)
    } else if what == "paged_far" {
        paged(alloc, FOURTH, times)
    } else {
        paging(alloc, what, frames, times)
    }
}

fn main(rt: HostRuntime) -> io::Result<()> {
    let alloc = rt.alloc();
    let words: Vec<String> = env::args(&rt)?.skip(1).collect(alloc)?;
    let [what, frames, times] = words.as_slice() else {
        return Err(io::Error::from(io::ErrorKind::InvalidInput));
    };
    let (Ok(frames), Ok(times)) = (frames.parse(), times.parse()) else {
        return Err(io::Error::from(io::ErrorKind::InvalidInput));
    };
    match done(alloc, what.as_str(), frames, times) {
        Ok(number) => println!(rt; "{number}"),
        Err(_) => Err(io::Error::from(io::ErrorKind::OutOfMemory)),
    }
}
PROGRAM

cat >"$speed/proofs/Lib.antt" <<'PROOF'
pub mod Looking
PROOF

cat >"$speed/proofs/Looking.antt" <<'PROOF'
-- What a look at a page says of it.
use Rattle.std.proofs.Common.{◌≡◌, true, false, refl}
use Rattle.std.proofs.lemmas.Bool.{true≢false, false≢true}
use Rattle.page_contracts.specs.Stores.{HomePlace, free, away, here, is_here, is_taken}

-- a page that is taken and not in a frame
pub away_from : (p : HomePlace) → is_taken p ≡ true → is_here p ≡ false → p ≡ away
away_from free taken gone = absurd (false≢true taken)
away_from away taken gone = refl
away_from (here words) taken gone = absurd (true≢false gone)
PROOF

cat >"$speed/proofs/is_away/Answers.antt" <<'PROOF'
use Rattle.std.proofs.Common.{is_some, not, sym, ◌∙◌, ap}
use Rattle.page_contracts.specs.Stores.{place}
use Rattle.paged_store.specs.StoreMeaning.{homes_of}
use Rattle.paged_store.specs.StoreSound.{paged_sound}
use Rattle.page_speed.proofs.Looking.{away_from}
use Rattle.page_speed.proofs.is_away.Goals as goal

pub returns-then-taken : goal.returns-then-taken
returns-then-taken c none =
    let s = c.args.store.now in
    away_from (place (homes_of s) c.args.home.0) (sym c.taken.ensures ∙ c.if-taken.true)
    (sym ((paged_sound s).finds c.args.home.0) ∙ ap is_some (sym c.find.ensures) ∙ c.is_none.ensures ∙ ap not none)
PROOF

cat >"$speed/proofs/complete/Answers.antt" <<'PROOF'
use Rattle.std.proofs.Common.{arith}
use Rattle.paged_store.specs.StoreSound.{paged_sound}
use Rattle.page_speed.proofs.complete.Goals as goal

pub complete-told-requires : goal.complete-told-requires
complete-told-requires c = let few = (paged_sound c.args.store.now).few in omega (arith, few, c.pages.ensures, c.if-pages-lt-MOST_HOMES.false)
PROOF

cat >"$speed/proofs/look/Invariants.antt" <<'PROOF'
use Rattle.page_contracts.specs.Pages.{HasSpace}
use Rattle.page_speed.proofs.look.Given as goal

abbrev pub invariant-loop-time : goal.invariant-loop-time
invariant-loop-time g l = HasSpace g.P.Pages.means l.pages l.space
PROOF

cat >"$speed/proofs/paged/Answers.antt" <<'PROOF'
use Rattle.std.proofs.Common.{◌∙◌, arith}
use Rattle.machine_names.specs.declared.names.Tty.{Tty}
use Rattle.paged_tables.specs.PagedMeaning.{forks_in}
use Rattle.paged_tables.specs.PagedTables.{beside_of}
use Rattle.page_speed.proofs.paged.Goals as goal

pub looked-requires-clause-few : goal.looked-requires-clause-few
looked-requires-clause-few c =
    let first : Tty = record { 0 = 0 } in
    let none = (λ i. forks_in (beside_of (c.in_ok-known.ensures i).tables) first) ∙ c.in_ok-pages.ensures.forks first in
    omega (arith, none)
PROOF

# rt builds a program only where it also runs it.
(cd "$speed" && env -u RT_BACKEND rt run -- flat 0 1) >"$work/messages" 2>&1 || {
    cat "$work/messages" >&2
    exit 2
}

# instructions WORD..: the machine instructions of a run.
instructions() {
    valgrind --tool=callgrind --callgrind-out-file="$work/callgrind" "$speed/out/page_speed" "$@" 2>&1 >/dev/null |
        awk '/Collected/ { print $NF }'
}

# each WHAT FRAMES: the machine instructions of one time. So many times go before that each frame was used.
each() {
    local times=20000
    echo $((($(instructions "$1" "$2" $((2 * times))) - $(instructions "$1" "$2" $times)) / times))
}

failed=0
# says WHAT COUNT MOST: prints a count, and whether it is more than it may be.
says() {
    local mark=
    [ "$2" -le "$3" ] || mark='  MORE' failed=1
    printf '%-58s %6d, at most %6d%s\n' "$1" "$2" "$3" "$mark"
}

two=$((2 * $(each copies 0)))
printf '%-58s %6d\n' 'two copies of a page' "$two"
for calls in 'fetch:a page leaves its frame and comes back' 'turn:a page comes in and sends off another'; do
    what=${calls%%:*} text=${calls#*:}
    small=$(each "$what" $few)
    full=$(each "$what" $many)
    printf '%-58s %6d\n' "$text, $few frames" "$small"
    says "$text, $many frames" "$full" $((small * halves / 100))
    [ "$what" != fetch ] || says 'the same beside its two copies' "$full" $((copies * two))
done
for calls in 'near:a page is found and a word read' 'far:a word is read along four maps'; do
    what=${calls%%:*} text=${calls#*:}
    flat=$(each "flat_$what" 0)
    printf '%-58s %6d\n' "$text, maps in memory" "$flat"
    says "$text, maps in pages" "$(each "paged_$what" 0)" $((maps * flat))
done
exit $failed
