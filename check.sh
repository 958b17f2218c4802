#!/usr/bin/env bash
# The tests of the repository. First the calls that take memory, with each of their allocations refused in turn,
# and the program on words that it does not answer; then the gate, which proves every crate, tries the edits of
# crates/*/must-fail, which must be refused, and runs the tests and the programs.
#
# Then, where cargo is there and crates/mlu_c was built by rt lib, the tests of the package in bindings/rust.
#
# With --refusals, allocations are refused and nothing else is done.
#
# With --edits NAME.., all edits of those crates are tried and nothing else: those of edits/NAME beside
# those of the gate, over the libraries that earlier checks kept; with --edits alone, those of every crate.
set -euo pipefail
cd "$(dirname "$0")"

places=$(nproc)
# Proofs at a time in the gate, each in one process: a second process of a proof loads all again what the
# first has loaded. More proofs at a time slow each other down, and the largest three take 18 GB. RT_JOBS is
# read by rt.
proofs=${RT_JOBS:-$((places < 4 ? 2 : 3))}
room=$(mktemp -d)
trap 'rm -rf "$room"' EXIT

# In each run of mlu_refusals this allocation fails.
failing=22

# Makes each call of mlu_refusals with each of its allocations refused in turn, in as many processes as there are
# processors: ahead of its call a run makes 0, 1, .. other allocations. Each call that takes memory must be refused
# in some run and served in another, and in those with most allocations ahead one of these must be what fails, so
# that no allocation of a call is left out.
refusals() {
  local folder=crates/mlu_refusals most=$((failing - 1)) ahead line asked part runs ended early
  for ((ahead = 0; ahead <= most; ahead++)); do
    part=$room/cases.$((ahead % places))
    mkdir -p "$part"
    line=0
    while read -r _ asked; do
      echo "$ahead $asked" >"$part/$ahead.$((line += 1))"
    done <"$folder/stdin"
  done
  for part in "$room"/cases.*; do
    (cd "$folder" && rt try --fail-alloc "$failing" --cases "$part") >"$part.out" 2>"$part.log" &
  done
  wait

  sed -n 's/^served //p' "$folder/stdout" | sort >"$room/names"
  cat "$room"/cases.*.out >"$room/out"
  cat "$room"/cases.*.log >"$room/log"
  runs=$(((most + 1) * line))
  ended=$(grep -cE '^case=.* run=ended status=[03] ' "$room/log") || true
  early=$(grep -cE "^case=$most\.[0-9]+ run=ended status=3 " "$room/log") || true
  if [ "$ended" -ne "$runs" ] || [ "$early" -ne "$line" ] ||
    ! diff "$room/names" <(sed -n 's/^served //p' "$room/out" | sort -u) ||
    ! diff "$room/names" <(sed -n 's/^refused //p' "$room/out" | sort -u); then
    grep -vE '^(case=.* run=ended status=[03] .*|allocations: .*|)$' "$room/log" || true
    echo "mlu_refusals: a call is wrong, never refused or never served; $ended of $runs runs ended, $early early"
    exit 1
  fi
  echo "mlu_refusals: $(wc -l <"$room/names") calls, each allocation refused in turn"
}

# Runs the program, and tests that it ends with status $1, with the line $2 on standard error and nothing
# on standard output. The others are arguments of rt try.
faulty() {
  local status=$1 line=$2 ended=0
  shift 2
  (cd crates/mlu && rt try "$@") >"$room/out" 2>"$room/err" || ended=$?
  if [ "$ended" -ne "$status" ] || [ -s "$room/out" ] || ! grep -qx "$line" "$room/err"; then
    cat "$room/out" "$room/err"
    echo "mlu: status $ended, in place of $status and '$line'"
    exit 1
  fi
}

# Tries all edits of the crates $@, on a copy that has those of edits/ beside those of the gate.
edits() {
  local crate tried refused
  mkdir "$room/tree"
  tar -c --exclude=./.git . | tar -x -C "$room/tree"
  cd "$room/tree"
  : >"$room/tried"
  for crate in "$@"; do
    mkdir -p "crates/$crate/must-fail"
    cp "edits/$crate"/*.edit "crates/$crate/must-fail"
    ls "crates/$crate/must-fail" >>"$room/tried"
  done
  rt must-fail "$@" | tee "$room/said" || true
  tried=$(wc -l <"$room/tried")
  refused=$(grep -cE '^rt: must-fail .*: refused, as it must be' "$room/said" || true)
  echo "$refused refused, $((tried - refused)) not"
  [ "$refused" -eq "$tried" ]
}

if [ "${1:-}" = --edits ]; then
  shift
  [ $# -gt 0 ] || set -- $(ls edits)
  edits "$@"
  exit
fi

refusals
if [ "${1:-}" = --refusals ]; then
  exit
fi
faulty 2 'mlu: length' -- eval 1,2,3 2
faulty 2 'mlu: usage' -- sumcheck 3,4 2 5 6
faulty 3 'mlu: memory' --fail-alloc 1 -- eval 1,2,3,4 2,3
status=0
RT_JOBS=$proofs rt ci | tee "$room/said" || status=$?
times >"$room/times"
spent=$(awk -F'[ms ]+' 'END { print int($1 + $3 + ($2 + $4) / 60) }' "$room/times")
echo "all of it took $((SECONDS / 60)) minutes on $places processors, $spent of a processor"

if [ ! -e crates/mlu_c/out/libmlu_c.a ] || ! command -v cargo >/dev/null; then
  echo "there is no cargo, or rt lib has not built crates/mlu_c: the tests of bindings/rust were not run"
elif ! (cd bindings/rust && cargo test && cargo build --examples); then
  status=1
fi
tail -n 1 "$room/said"
exit "$status"
