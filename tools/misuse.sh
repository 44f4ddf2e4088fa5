#!/bin/bash
# Programs that must not compile: each makes or changes by itself what only its own crate may make, hands one phase of a view where another
# is wanted, or goes on with a process whose turn is not in its journal. Beside them, programs that do the same as it is meant to be done,
# which must compile and run. What a proof alone refuses is a library that must not be proved; that wants the libraries below proved before,
# as a run of the gate leaves them. Run by hand.
#
#     tools/misuse.sh
#
# prints a line for each, and ends with status 1 where a program of the first kind compiles, or a library of that kind is proved, or fails for
# another reason, or where one of the second kind fails.
set -u
top=$(git rev-parse --show-toplevel)
work=$(mktemp -d)
trap 'rm -rf "$work"' EXIT
git -C "$top" archive HEAD crates crates.txt HANDLES | tar -x -C "$work"
echo 'misuse_audit: rp_base audit_core' >> "$work/crates.txt"
echo 'misuse: rp_base stmt_codec member_events view_table claim_index pool_values claim_pool view_phases rp_devices journal_rp member_core hosted_core node_turns chain_check store_records kv_service' >> "$work/crates.txt"
mkdir -p "$work/crates/misuse/src" "$work/crates/misuse_audit/src"
failed=0

# tries PROGRAM: `said` is what the try said, and the status is its status
tries() {
    printf '#![tactic(auto)]\n\n%s\n' "$1" > "$work/crates/misuse/src/main.rt"
    said=$(cd "$work/crates/misuse" && rt try 2>&1)
}

# use WHAT PROGRAM: as it is meant
use() {
    if tries "$2"; then
        echo "compiles: $1"
    else
        echo "does NOT compile or run as it should: $1"
        grep -m 3 'error\|run=' <<< "$said"
        failed=1
    fi
}

# misuse WHAT PROGRAM [REASON]: the reason is that of what is private, where none is given
misuse() {
    tries "$2"
    if grep -q "error\[${3:-private}" <<< "$said"; then
        echo "refused: $1"
    else
        echo "NOT refused as it should be: $1"
        grep -m 3 'error\|run=' <<< "$said"
        failed=1
    fi
}

# checks LIBRARY: as `tries`, but its proofs are checked too, over the proved libraries below
checks() {
    printf '#![tactic(auto)]\n\n%s\n' "$1" > "$work/crates/misuse_audit/src/lib.rt"
    said=$(cd "$work/crates/misuse_audit" && rt check 2>&1)
}

# proved WHAT LIBRARY: as it is meant
proved() {
    if checks "$2"; then
        echo "proved: $1"
    else
        echo "NOT proved as it should be: $1"
        grep -m 3 'error' <<< "$said"
        failed=1
    fi
}

# unproved WHAT LIBRARY SAID: it is refused, and this is said
unproved() {
    checks "$2"
    if grep -qF "$3" <<< "$said"; then
        echo "refused: $1"
    else
        echo "NOT refused as it should be: $1"
        grep -m 3 'error' <<< "$said"
        failed=1
    fi
}

misuse 'a certificate of nobody' 'use claim_pool::{Certificate, Commit};
use rp_base::PidSet;
use std::marker::PhantomData;
use stmt_codec::Statement;

fn main() {
    let content = Statement::End { view: 0, length: 0 };
    let signers = PidSet::new();
    let _forged: Certificate<Commit> = Certificate {
        content,
        signers,
        kind: PhantomData,
    };
}'

misuse 'a pool whose claims are changed behind its contract' 'use claim_pool::Pool;

fn changed(pool: &mut Pool) {
    let _heard = &mut pool.heard;
}

fn main() {}'

use 'a claim whose signature is looked at' 'use claim_pool::is_signed;
use rp_base::{GroupId, Pid, PlainScheme, Roster};
use stmt_codec::{Claim, Statement};

fn main(rt: HostRuntime) {
    let Ok(roster) = Roster::new(rt.alloc()) else {
        return;
    };
    let claim = Claim {
        signer: Pid::default(),
        statement: Statement::End { view: 0, length: 0 },
        signature: b"",
    };
    let _signed = is_signed(&PlainScheme, &roster, &GroupId([0; 16]), &claim);
}'

use 'a certificate that a pool is asked for' 'use claim_pool::{Commit, Pool};
use rp_base::Pid;
use stmt_codec::Slot;
use view_table::View;

fn main(rt: HostRuntime) {
    let Some(view) = View::new(0, &[Pid::default()]) else {
        return;
    };
    let Ok(pool) = Pool::new(rt.alloc(), view) else {
        return;
    };
    if let Some(certificate) = pool.certificate::<Commit>(Slot::Rank { view: 0, rank: 0 }) {
        let _signers = certificate.signers();
    }
}'

misuse 'a certificate with signers more' 'use claim_pool::{Certificate, Commit};
use rp_base::PidSet;

fn signed_by_all(certificate: &mut Certificate<'"'"'_, Commit>) {
    certificate.signers = PidSet::from_mask(u64::MAX);
}

fn main() {}'

use 'a pool that is changed by its calls' 'use claim_pool::Pool;
use rp_base::Pid;
use stmt_codec::{Claim, Statement};
use view_table::View;

fn main(rt: HostRuntime) {
    let Some(view) = View::new(0, &[Pid::default()]) else {
        return;
    };
    let Ok(mut pool) = Pool::new(rt.alloc(), view) else {
        return;
    };
    let claim = Claim {
        signer: Pid::default(),
        statement: Statement::End { view: 0, length: 0 },
        signature: b"",
    };
    if pool.reserve(1, 100).is_ok() {
        pool.hear_own(&claim);
    }
}'

misuse 'a pool that is handed other claims' 'use claim_pool::Pool;
use pool_values::Places;

fn exchanged(pool: &mut Pool, heard: Places) {
    pool.heard = heard;
}

fn main() {}'

use 'an open view that is closed by its End' 'use view_phases::{ClosingView, OpenView};

fn closes(view: OpenView) -> ClosingView {
    view.close(0)
}

fn main() {}'

misuse 'an open view from nothing' 'use view_phases::OpenView;

fn main() {
    let _open = OpenView(());
}' unknown-name

misuse 'a closing view that is handed where an open one is wanted' 'use view_phases::{ClosingView, OpenView};

fn closes(view: OpenView) -> ClosingView {
    view.close(0)
}

fn closes_again(view: ClosingView) -> ClosingView {
    closes(view)
}

fn main() {}' mismatched-types

misuse 'an open view that is used behind its own End' 'use view_phases::OpenView;

fn closes_twice(view: OpenView) {
    let _closing = view.close(0);
    let _again = view.close(0);
}

fn main() {}' borrow-e0382

# ---- turns

misuse 'a synced turn that nobody synced' 'use journal_rp::{Synced, Turn};
use member_events::Outcome;
use std::marker::PhantomData;

fn forged(bytes: Vec<u8>, outcome: Outcome) -> Turn<Synced, ()> {
    Turn {
        bytes,
        outcome,
        process: (),
        state: PhantomData,
    }
}

fn main() {}'

misuse 'a turn that is sent before it is in the journal' 'use hosted_core::Hosted;
use journal_rp::{Turn, Unsynced};
use rp_base::PlainSigner;

fn early(turn: &Turn<Unsynced, Hosted<PlainSigner>>) {
    let _sends = turn.sends();
}

fn main() {}' unknown-method

misuse 'a process that is taken back before its turn is in the journal' 'use hosted_core::Hosted;
use journal_rp::{Turn, Unsynced};
use rp_base::PlainSigner;

fn early(turn: Turn<Unsynced, Hosted<PlainSigner>>) -> Hosted<PlainSigner> {
    turn.into_process()
}

fn main() {}' unknown-method

misuse 'a process that takes another event after its turn was lost' 'use hosted_core::Hosted;
use member_core::Event;
use rp_base::{PlainScheme, PlainSigner};
use std::alloc::Global;

fn goes_on(hosted: Hosted<PlainSigner>, alloc: Global) {
    if hosted.take(alloc, &PlainScheme, &Event::Tick).is_err() {
        let _again = hosted.take(alloc, &PlainScheme, &Event::Tick);
    }
}

fn main() {}' borrow-e0382

misuse 'a process that is stepped without a turn' 'use hosted_core::Hosted;
use member_core::Event;
use rp_base::{PlainScheme, PlainSigner};

fn steps(hosted: &mut Hosted<PlainSigner>) {
    let _outcome = hosted.core.step(&PlainScheme, &Event::Tick);
}

fn main() {}'

misuse 'a turn of a core that was stepped in the hand' 'use journal_rp::{Turn, Unsynced};
use member_core::{Core, Event, Outcome};
use rp_base::{NoMemory, PlainSigner};
use std::alloc::Global;

fn turn(alloc: Global, core: Core<PlainSigner>, outcome: Outcome) -> Result<Turn<Unsynced, Core<PlainSigner>>, NoMemory> {
    Turn::new(alloc, core, &Event::Tick, outcome)
}

fn main() {}' unsatisfied-bound

misuse 'a journal that is appended to after a fault' 'use hosted_core::Hosted;
use journal_rp::{Journal, Turn, Unsynced, Writing};
use rp_base::PlainSigner;
use rp_devices::MemDisk;

type Next = Turn<Unsynced, Hosted<PlainSigner>>;

fn goes_on(journal: Journal<Writing>, disk: &mut MemDisk, turn: Next, next: Next) {
    if journal.append(disk, turn).is_err() {
        let _again = journal.append(disk, next);
    }
}

fn main() {}' borrow-e0382

misuse 'a journal that is appended to before it was read to its end' 'use hosted_core::Hosted;
use journal_rp::{Journal, Reading, Turn, Unsynced};
use rp_base::PlainSigner;
use rp_devices::MemDisk;

fn early(journal: Journal<Reading>, disk: &mut MemDisk, turn: Turn<Unsynced, Hosted<PlainSigner>>) {
    let _turn = journal.append(disk, turn);
}

fn main() {}' unknown-method

misuse 'a turn that is let out by a node before it is in the journal' 'use node_turns::{AnySigner, Hosted, NoService, Speaker, let_out};
use journal_rp::{Turn, Unsynced};
use rp_devices::{MemDisk, MemLink};
use std::alloc::Global;

fn early(
    alloc: Global,
    turn: &Turn<Unsynced, Hosted<AnySigner>>,
    speaker: &Speaker<'"'"'_>,
    disk: &MemDisk,
    link: &mut MemLink,
    room: &mut [u8],
    text: &mut Vec<u8>,
) {
    let _out = let_out(alloc, turn, speaker, disk, link, room, text, &mut NoService);
}

fn main() {}' mismatched-types

misuse 'two turns from one append' 'use hosted_core::Hosted;
use journal_rp::{Journal, Synced, Turn, Unsynced, Writing};
use rp_base::PlainSigner;
use rp_devices::MemDisk;

type Next = Turn<Unsynced, Hosted<PlainSigner>>;
type Kept = Turn<Synced, Hosted<PlainSigner>>;

fn two(journal: Journal<Writing>, disk: &mut MemDisk, turn: Next) -> Option<(Kept, Kept)> {
    match journal.append(disk, turn) {
        Ok((_journal, kept)) => Some((kept, kept)),
        Err(_) => None,
    }
}

fn main() {}' borrow-e0382

misuse 'a turn that is appended twice' 'use hosted_core::Hosted;
use journal_rp::{Journal, Turn, Unsynced, Writing};
use rp_base::PlainSigner;
use rp_devices::MemDisk;

fn again(journal: Journal<Writing>, disk: &mut MemDisk, turn: Turn<Unsynced, Hosted<PlainSigner>>) {
    if let Ok((journal, _kept)) = journal.append(disk, turn) {
        let _again = journal.append(disk, turn);
    }
}

fn main() {}' borrow-e0382

misuse 'a journal that takes in turns, and was not finished' 'use journal_rp::{Journal, Reading, Writing};

fn unfinished(journal: Journal<Reading>) -> Journal<Writing> {
    journal
}

fn main() {}' mismatched-types

misuse 'an event that was refused, and is appended' 'use hosted_core::{Hosted, Taken};
use journal_rp::{Journal, Writing};
use member_core::Event;
use rp_base::{PlainScheme, PlainSigner};
use rp_devices::MemDisk;
use std::alloc::Global;

fn appends(hosted: Hosted<PlainSigner>, alloc: Global, journal: Journal<Writing>, disk: &mut MemDisk) {
    if let Ok(Taken::Refused(refused, _)) = hosted.take(alloc, &PlainScheme, &Event::Tick) {
        let _appended = journal.append(disk, refused);
    }
}

fn main() {}' mismatched-types

use 'a turn that is let out by a node' 'use node_turns::{AnySigner, Hosted, NoService, Speaker, Synced, Turn, let_out};
use rp_devices::{MemDisk, MemLink};
use std::alloc::Global;

fn lets_out(
    alloc: Global,
    turn: &Turn<Synced, Hosted<AnySigner>>,
    speaker: &Speaker<'"'"'_>,
    disk: &MemDisk,
    link: &mut MemLink,
    room: &mut [u8],
    text: &mut Vec<u8>,
) {
    let _out = let_out(alloc, turn, speaker, disk, link, room, text, &mut NoService);
}

fn main() {}'

use 'a turn that is taken, appended, sent and taken back from' 'use hosted_core::{Hosted, Taken};
use journal_rp::{Journal, Writing};
use member_core::Event;
use rp_base::{PlainScheme, PlainSigner};
use rp_devices::MemDisk;
use std::alloc::Global;

fn turn(hosted: Hosted<PlainSigner>, alloc: Global, journal: Journal<Writing>, disk: &mut MemDisk) -> Option<Hosted<PlainSigner>> {
    match hosted.take(alloc, &PlainScheme, &Event::Tick) {
        Ok(Taken::Turn(turn)) => match journal.append(disk, turn) {
            Ok((_journal, turn)) => {
                let _sends = turn.sends();
                Some(turn.into_process())
            }
            Err(_) => None,
        },
        Ok(Taken::Refused(hosted, _) | Taken::Lost(hosted)) => Some(hosted),
        Err(_) => None,
    }
}

fn main() {}'

use 'a chain that begins with a view, and is handed a proof' 'use chain_check::Chain;
use rp_base::{GroupId, Pid, PlainScheme, Roster};
use view_table::View;

fn main(rt: HostRuntime) {
    let Some(genesis) = View::new(0, &[Pid::default()]) else {
        return;
    };
    let Ok(roster) = Roster::new(rt.alloc()) else {
        return;
    };
    let mut chain = Chain::new(genesis);
    let _shown = chain.advance(&PlainScheme, &roster, &GroupId([0; 16]), b"");
}'

misuse 'a chain that is made of its field' 'use chain_check::Chain;
use view_table::View;

fn forged(view: View) -> Chain {
    Chain { view }
}

fn main() {}'

misuse 'a proof for a chain that is lent to be read' 'use chain_check::Chain;
use rp_base::{GroupId, PlainScheme, Roster};

fn on(chain: &Chain, roster: &Roster) {
    let _shown = chain.advance(&PlainScheme, roster, &GroupId([0; 16]), b"");
}

fn main() {}' write-to-immutable

misuse 'a store of pairs that need not rise' 'use kv_service::Store;
use std::collections::BTreeMap;

fn main(rt: HostRuntime) {
    let _forged = Store { pairs: BTreeMap::new(rt.alloc()) };
}' private-field

misuse 'a reply that is kept longer than its bytes' 'use std::alloc::Global;
use store_records::{Reply, read_reply};

fn kept(alloc: Global) -> Option<Reply<'"'"'static>> {
    let bytes = Vec::new(alloc);
    read_reply(&bytes)
}

fn main() {}' borrow-e0515

# ---- audits: what is asked of findings is a matter of proof, so these are checked

unproved 'findings that no audit found' 'use audit_core::Findings;
use rp_base::{Pid, PidSet};

pub fn forged(findings: Findings, grounds: Vec<(Pid, PidSet)>) -> Findings {
    Findings { grounds, ..findings }
}' 'error[private'

unproved 'the grounds of a process that is not known to be listed' 'use audit_core::Findings;
use rp_base::{Pid, PidSet};

pub fn grounds(findings: &Findings, p: Pid) -> PidSet {
    findings.grounds(p)
}' 'it is not proved that what `grounds` requires holds'

proved 'the grounds of a listed process' 'ghost use Rattle.std.specs.Prelude.{Contains};
ghost use Rattle.audit_core.specs.Found.{listed_in};

use audit_core::Findings;
use rp_base::{Pid, PidSet};

pub fn grounds(findings: &Findings, p: Pid) -> PidSet
    requires { Contains (listed_in findings.now) p }
{
    findings.grounds(p)
}'

exit $failed
