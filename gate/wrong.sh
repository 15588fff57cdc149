# The parts of ./yard that speak of the wrong programs. Each `crates/CRATE/must-fail/LABEL.edit` is one, and its line `for:` says
# what it is wrong about: a user's call, a callee that no call's wrong program reaches or that others may take for themselves, or a crate of theorems.

# A line for each wrong program: what it is for, and its label.
wrong_programs() {
    for edit in crates/*/must-fail/*.edit; do
        subject=$(sed -n 's/^for: //p' "$edit")
        [ -n "$subject" ] || { echo "yard: $edit does not say what it is for" >&2 && return 1; }
        echo "$subject $(basename "$edit" .edit)"
    done
}

# The table of docs/GATE.md, in the order of crates.txt.
wrong_table() {
    wrong_programs >"$room/wrong"
    echo '| what | wrong programs |'
    echo '|---|---|'
    sed -n 's/^\([a-z_]*\)\( staticlib\)\{0,1\}:.*/\1/p' crates.txt | while read -r crate; do
        grep -E "^$crate(::| )" "$room/wrong" | sort
    done | awk '
        $1 != last { if (NR > 1) print row " |"; row = "| `" $1 "` | `" $2 "`"; last = $1; next }
        { row = row ", `" $2 "`" }
        END { print row " |" }'
}

# How many wrong programs each call must have at least: a thin call for C one, a call of the library two.
calls_of_users() {
    sed -n 's/^int64_t \(yard_[a-z_]*\)(.*/1 yard::\1/p' include/yard.h
    for crate in verdict measure offset build join sheet parts report_text totals totals_text; do
        sed -n "s/^pub fn \([a-z_]*\).*/2 $crate::\1/p" "crates/$crate/src/lib.rt"
    done
    echo 2 report::main
    echo 2 box_report::main
    echo 2 cable::main
    echo 2 make_sheet::main
}

enough_wrong_programs() {
    wrong_programs >"$room/wrong"
    calls_of_users | while read -r least call; do
        has=$(grep -c "^$call " "$room/wrong" || true)
        [ "$has" -ge "$least" ] || { echo "yard: $call has $has wrong programs, not $least" >&2 && exit 1; }
    done
}
