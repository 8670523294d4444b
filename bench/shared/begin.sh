# What the scripts of the benches share; read with `.` by each. It goes to the top of the repository,
# which is `home`, makes a folder `work` that goes away at the end, and puts into `words` what the
# script was given, with whole paths for files.
set -eu
home=$(readlink -f "$(dirname "${BASH_SOURCE[0]}")/../..")
words=()
for word in "$@"; do
    [ ! -f "$word" ] || word=$(readlink -f "$word")
    words+=("$word")
done
[ -z "${FUTMAX:-}" ] || FUTMAX=$(readlink -f "$FUTMAX")
cd "$home"
work=$(mktemp -d)
trap 'rm -rf "$work"' EXIT
export PYTHONPATH=$home/bench/shared:$home/tools PYTHONDONTWRITEBYTECODE=1
# all that a pool of questions and its search stand on
search=(league_core port_core tie_criteria final_rank fixture_sheet result_log sample_leagues
    flow_net score_box reason_laws flow_bound tie_bound reason_core tree_arena tree_reuse
    example_finish local_search branch_rules branch_pool cert_text answer_rows)

# puts the whole program into `program`: that of FUTMAX, or of this repository
take_whole_program() {
    [ -n "${FUTMAX:-}" ] || ./futmax </dev/null >"$work/first" || true
    program=${FUTMAX:-$home/crates/futmax/out/futmax}
}

# make_program PARTS CRATE..: puts a program made of these into `program`, or that of PROGRAM
make_program() {
    program=${PROGRAM:-$work/crates/bench/out/bench}
    [ -n "${PROGRAM:-}" ] || bench/shared/make_program "$work" "$@"
}

# writes a double round with ten rounds open and the greatest budget into the file `league`
write_league() {
    python3 -c 'from double_round import league
print("\n".join(league(10, budget=50000)[0] + ["ask"]))' >"$work/league"
}

# five_runs NAME COMMAND..: what the command says in five runs, since other work disturbs one; its
# checksum has to be the same in all
five_runs() {
    local name=$1 sum first=
    shift
    for _ in 1 2 3 4 5; do
        sum=$("$@" 2>"$work/times")
        [ "$sum" = "${first:=$sum}" ] || { echo "the checksums differ: $first and $sum"; exit 1; }
        awk -v name="$name" -v sum="$sum" \
            '{ sub(/[, ]+$/, ""); print name " " $0 ", checksum " sum }' "$work/times"
    done
}
