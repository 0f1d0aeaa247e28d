#!/bin/sh
# Shows that a plan that is not counted cannot be asked for a scenario: the call does not compile.
#
# In a copy of the crates outside the repository, a function of the library `scenarios` makes the call. On a counted plan it
# has to compile; on a plan it has to be refused, with one error, which is that `Plan` has no such method. The function stands
# inside the library, where even private methods are seen, so the call is not there for users either. Nothing of the library
# is proved for this: `rt names` takes the code through the compiler's front end, types and borrows included, which refuses first.
set -u
root=$(cd "$(dirname "$0")/.." && pwd -P) || exit 2
copy=$(mktemp -d) || exit 2
trap 'rm -rf "$copy"' EXIT
trap 'exit 2' HUP INT TERM

fail() {
    echo "uncounted: $1" >&2
    [ ! -s "$copy/said" ] || sed 's/^/    /' "$copy/said" | cut -c 1-400 | tail -n 20 >&2
    exit 1
}

# the sources alone: what checks keep beside them is large
printf 'refusals:\ntable:\nscenarios: refusals table arrayvec\n' >"$copy/crates.txt" || exit 2
for crate in refusals table scenarios; do
    mkdir -p "$copy/crates/$crate" || exit 2
    for part in src specs proofs; do
        [ ! -d "$root/crates/$crate/$part" ] || cp -r "$root/crates/$crate/$part" "$copy/crates/$crate/" || exit 2
    done
done
library=$copy/crates/scenarios/src
echo 'mod asked;' >>"$library/lib.rt"

# Has the front end read the library with this type asked for a scenario; what it says goes to the file `said`.
ask() { # TYPE-NAME TYPE
    cat >"$library/asked.rt" <<END
// Asks for a scenario.
use crate::$1;
use crate::RoundScenario;

fn asked(plan: &$2, rounds: &mut [RoundScenario]) {
    let _ = plan.scenario(0, rounds);
}
END
    (cd "$copy/crates/scenarios" && rt names "$copy/names") >"$copy/said" 2>&1
}

ask CountedPlan "CountedPlan<'_>" || fail "a counted plan cannot be asked for a scenario"
if ask Plan Plan; then fail "a plan that is not counted was asked for a scenario, and it compiled"; fi

# one error, at the call, for that reason
reason='asked\.rt:6:[0-9]*: error\[unknown-method\]: no method named `scenario` found for type `Plan`'
[ "$(grep -c ': error' "$copy/said")" -eq 1 ] || fail "not just one error"
grep -q "$reason" "$copy/said" || fail "refused for another reason"
echo "uncounted: a plan that is not counted has no method \`scenario\`, says the compiler"
