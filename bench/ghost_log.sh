#!/usr/bin/env bash
# ghost_log.sh [TRANSACTIONS]: proves the bench of ghost logs and runs its three jobs, ten million transactions each if
# no number is given, over channels whose logs are kept whole and over ghost ones, over both also with each receipt in
# the memory of the one before. If there is a `ghc` with its stm, also runs the jobs by stm with one capability. There
# are five rounds, each run in a process of its own. Prints the nanoseconds of a transaction of all rounds, least first,
# and the memory of a process. Full logs of ten million take 0.6 to 1.3 GB.
set -eu
root=$(cd "$(dirname "${BASH_SOURCE[0]}")/.." && pwd)
count=${1:-10000000}
place=$("$root/bench/place.sh" ghost_log txc_base txc_chan txc_txn_check txc_txn)
trap 'rm -rf "$place"' EXIT
cd "$place/crates/bench_ghost_log"
# That both transactions still fit once one was run, since the kinds of the channels stay.
mkdir -p proofs/Turns/turn
cat >proofs/Turns/turn/Answers.antt <<'END'
use Rattle.std.proofs.Common.{◌≡◌, sym, subst, ℕ, ◌<◌, length, List, Option}
use Rattle.std.specs.List.{Contains}
use Rattle.txc_base.specs.declared.kind.Kind.{Kind}
use Rattle.txc_chan.specs.ChanView.{ChanView}
use Rattle.txc_txn_check.specs.Limits.{CheckedView}
use Rattle.txc_txn_check.specs.Steps.{Fits}
use Rattle.txc_txn.specs.Maps.{kinds_of}
use Rattle.txc_txn.specs.Plain.{chan_in}
use Rattle.bench_ghost_log.proofs.Turns.turn.Goals as goal

-- a transaction fits these channels, and those that it names are there
abbrev Supports : List ChanView → CheckedView → Type 0
Supports held plan = Fits (kinds_of (chan_in held)) plan.steps × ((n : ℕ) → Contains plan.declared n → n < length held)

-- so it does after another was run on them
still : (before after : List ChanView) (plan : CheckedView) → kinds_of (chan_in after) ≡ kinds_of (chan_in before)
    → ((n : ℕ) → n < length before → n < length after) → Supports before plan → Supports after plan
still before after plan same held supports =
    (subst (λ (kinds : ℕ → Option Kind). Fits kinds plan.steps) (sym same) supports.0, λ n is. held n (supports.1 n is))

-- .. and after a second one
still_both : (before between after : List ChanView) (one other : CheckedView)
    → kinds_of (chan_in between) ≡ kinds_of (chan_in before) → ((n : ℕ) → n < length before → n < length between)
    → kinds_of (chan_in after) ≡ kinds_of (chan_in between) → ((n : ℕ) → n < length between → n < length after)
    → Supports before one × Supports before other → Supports after one × Supports after other
still_both before between after one other first held second held' supports =
    (still between after one second held' (still before between one first held supports.0),
    still between after other second held' (still before between other first held supports.1))

pub run-other-requires-clause-fits : goal.run-other-requires-clause-fits
run-other-requires-clause-fits g c = (still c.self.inside.plain c.run-one.new.plain c.self.inside.other
    c.run-one.ensures.kinds c.run-one.ensures.held c.self.invariant.1).0

pub run-other-requires-clause-held : goal.run-other-requires-clause-held
run-other-requires-clause-held g c = (still c.self.inside.plain c.run-one.new.plain c.self.inside.other
    c.run-one.ensures.kinds c.run-one.ensures.held c.self.invariant.1).1

pub invariant_of-self : goal.invariant_of-self
invariant_of-self g c = still_both c.self.inside.plain c.run-one.new.plain c.run-other.new.plain
    c.self.inside.one c.self.inside.other c.run-one.ensures.kinds c.run-one.ensures.held
    c.run-other.ensures.kinds c.run-other.ensures.held c.self.invariant
END
rt run -- ghost through 10 >/dev/null
if command -v ghc >/dev/null; then
  ghc -v0 -O2 -threaded -outputdir "$place" -o "$place/stm" "$root/bench/stm.hs"
fi
# Runs a job $1 by GHC's stm, by its name $2 there, with so many items $3.
run_stm() {
  if [ -x "$place/stm" ]; then "$place/stm" "$2" "$3" | sed "s/.*/$1,stm & ns/"; fi
}
# In turn, since others use the machine as well.
for _ in 1 2 3 4 5; do
  for job in through moved chosen; do
    for logs in kept ghost kept-again ghost-again; do
      out/bench_ghost_log "$logs" "$job" "$count" | paste -sd' ' | sed "s/^/$job,$logs /"
    done
  done
  run_stm through one "$((count / 2))"
  run_stm moved moved "$count"
  run_stm chosen choice "$count"
done | sort -k1,1 -k2,2n | awk '{ times[$1] = times[$1] " " $2; memory[$1] = $5 ? ", " $4 " " $5 : "" }
  END { for (it in times) print it ":" times[it] " ns" memory[it] }' | sort
