# The parts of ./yard that are its tests, in the order in which all_tests runs them.

# What is cheap comes first: the layout, and that the documents' table is that of the wrong programs.
hold_layout() {
    ! cargo fmt --version >/dev/null 2>&1 ||
        { cargo fmt --check --manifest-path reference/Cargo.toml && rustfmt --check --edition 2021 examples/cable.rs; }
    sed -n '/^| what | wrong programs |$/,/^$/p' docs/GATE.md | sed '/^$/d' >"$room/documented"
    wrong_table | diff "$room/documented" -
    enough_wrong_programs
}

# Each theorem that docs/THEOREMS.md names, behind the crate and the file that it is said to be in, is there.
hold_theorems() {
    awk -F'`' '/^\|/ { file = ""; for (i = 2; i <= NF; i += 2) if ($i ~ /^[a-z_]+\/[A-Z]/) file = $i; else if (file != "") print file, $i }' docs/THEOREMS.md >"$room/named"
    [ -s "$room/named" ]
    while read -r file name; do
        grep -Eq "^ *((abbrev )?pub )?$name( |$)" "crates/${file%/*}/proofs/${file#*/}.antt" ||
            { echo "yard: docs/THEOREMS.md: there is no theorem $name in $file" >&2 && return 1; }
    done <"$room/named"
}

# A line for each call that the header declares: what it returns, its name, and the types of its parameters.
declared_calls() {
    awk '!/^static / && /^[a-z].* [*]*yard_[a-z_0-9]*\(/ { text = ""; open = 1 }
        open { text = text $0 }
        open && /;$/ { print text; open = 0 }' include/yard.h |
        sed 's/ *[a-z_0-9]*,/,/g; s/ *[a-z_0-9]*);$/)/; s/  */ /g; s/( /(/' | sort
}

# The same of each function that the library exports, as C sees it: a slice is a pointer and a count.
exported_calls() {
    awk '/^#\[unsafe\(no_mangle\)\]$/ { text = ""; open = 1; next }
        open { text = text $0 }
        open && / -> [a-z0-9]+$/ { print text; open = 0 }' crates/yard/src/lib.rt |
        sed 's/^pub extern "C" fn \(.*\) -> \(.*\)/\2 \1/; s/,)$/)/; s/[a-z_0-9]*: //g
            s/&\[\([a-z0-9]*\)\]/const \1 *, size_t/g; s/&mut \[\([a-z0-9]*\)\]/\1 *, size_t/g
            s/i64/int64_t/g; s/u64/uint64_t/g; s/u16/uint16_t/g; s/u8/uint8_t/g; s/usize/size_t/g; s/  */ /g; s/( /(/' | sort
}

hold_prototypes() {
    declared_calls >"$room/declared"
    exported_calls >"$room/exported"
    [ -s "$room/exported" ]
    diff "$room/declared" "$room/exported" || { echo "yard: include/yard.h (<) declares other calls than crates/yard exports (>)" >&2 && return 1; }
}

# The expected answers are those of the second program, which its own tests hold to the document.
hold_to_second_program() {
    cargo test --quiet --release --offline --manifest-path reference/Cargo.toml
    second_program
    "$second" expect crates/trials/stdin | diff - crates/trials/stdout
    for text in samples/*.txt; do
        "$second" sheet "$text" "$room/made"
        cmp "$room/made" "${text%.txt}.sheet"
        "$second" report "$room/made" >"$room/expected" || [ $? -eq 1 ]
        diff "$room/expected" "${text%.txt}.report"
    done
}

# `rt ci`, with what it says kept: its last line is the last of the tests too.
gate() {
    { status=0 && rt ci || status=$?; echo "$status" >"$room/status"; } 2>&1 | tee "$room/gate"
    read -r status <"$room/status"
    [ "$status" -eq 0 ] && grep -q '^rt: ok' "$room/gate" && ! grep -Eq '^rt: ok.*, [1-9][0-9]* bad' "$room/gate"
}

# The programs that the tests behind `rt ci` run.
prove_programs() {
    for program in report box_report cable make_sheet trials; do
        prove "$program"
    done
}

# Each sample's text and status, by the program that was proved. Among them are an empty sheet, one of 4,096 bytes and one of 4,097.
hold_samples() {
    for sheet in samples/*.sheet; do
        expected=0
        ! grep -q '^refused ' "${sheet%.sheet}.report" || expected=1
        status=0
        report "$sheet" >"$room/answer" || status=$?
        diff "${sheet%.sheet}.report" "$room/answer"
        [ "$status" -eq "$expected" ] || { echo "yard: $sheet: status $status, not $expected" >&2 && exit 1; }
    done
}

# The bench report: each command of the expected text, its lines, those of the error output and its status. Then 1,001 sheets, of which the last is
# one too many.
hold_boxes() {
    sed -n 's/^\$ .\/yard box *//p' examples/box.txt | while read -r files; do
        echo "\$ ./yard box${files:+ $files}"
        status=0
        box $files 2>"$room/said" || status=$?
        sed 's/^/error: /' "$room/said"
        echo "status $status"
    done >"$room/answer"
    diff examples/box.txt "$room/answer"
    status=0
    box $(yes samples/two_ended.sheet | head -n 1001) >"$room/answer" || status=$?
    [ "$status" -eq 1 ] && [ "$(tail -n 1 "$room/answer")" = "refused 20 at 1001" ] && grep -q '^sheets 1000$' "$room/answer" &&
        grep -q '^sum 31000.00$' "$room/answer" || { echo "yard: a box of 1,001 sheets: status $status" >&2 && exit 1; }
}

# A sheet that comes in parts, by a byte, by a few and the rest, is the same sheet.
hold_parts() {
    for sheet in mission too_long; do
        { head -c 1 "samples/$sheet.sheet" && sleep 0.2 && tail -c +2 "samples/$sheet.sheet" | head -c 50 && sleep 0.2 && tail -c +52 "samples/$sheet.sheet"; } |
            report - >"$room/answer" || [ $? -eq 1 ]
        diff "samples/$sheet.report" "$room/answer"
    done
}

# What ./yard check says of its standard input: a line, which the status follows.
hold_check() { # LINE
    expected=0
    case $1 in "refused "*) expected=1 ;; esac
    status=0
    check >"$room/answer" || status=$?
    echo "$1" | diff - "$room/answer"
    [ "$status" -eq "$expected" ] || { echo "yard: the check that says '$1': status $status, not $expected" >&2 && exit 1; }
}

# So many bytes FF.
erased() {
    head -c "$1" /dev/zero | tr '\0' '\377'
}

# Each sample over the cable, as it is, in two parts and byte by byte: a pipe that is written to directly hands each write over by itself. The
# line is the first of the sample's report.
hold_samples_by_cable() {
    for sheet in samples/*.sheet; do
        line=$(head -n 1 "${sheet%.sheet}.report")
        hold_check "$line" <"$sheet"
        { head -c 10 "$sheet" && sleep 0.2 && tail -c +11 "$sheet"; } | hold_check "$line"
        dd if="$sheet" bs=1 oflag=direct status=none | hold_check "$line"
    done
}

# As many bytes as a sheet has, and more; a fault that more bytes follow; and a cable that goes on.
hold_long_cables() {
    erased 4096 | hold_check "mission none sheet 0"
    erased 4097 | hold_check "refused 1 at 0"
    erased 100000 | hold_check "refused 1 at 0"
    { cat samples/leftover.sheet && erased 4038; } | hold_check "refused 3 at 52"
    { cat samples/leftover.sheet && sleep 0.2 && erased 4039; } | hold_check "refused 1 at 0"
    { head -c 6 samples/minus_one.sheet && sleep 0.2 && erased 4090; } | hold_check "mission 65535 sheet 0"
    yes | hold_check "refused 1 at 0"
}

# Where too much has arrived no end is waited for: the cable is still open behind the answer. An input that cannot be read has no answer.
hold_ends_of_cables() {
    mkfifo "$room/cable"
    { erased 4097 && exec sleep 30; } >"$room/cable" &
    hold_check "refused 1 at 0" <"$room/cable"
    kill $! || { echo "yard: the check has waited for the end of what is too long" >&2 && exit 1; }
    status=0
    check <samples >"$room/answer" 2>"$room/said" || status=$?
    [ "$status" -eq 2 ] && [ ! -s "$room/answer" ] && grep -q '^standard input: ' "$room/said" ||
        { echo "yard: the check of an input that cannot be read: status $status" >&2 && exit 1; }
}

# What ./yard make says of a text, with its status. A sheet that stood there stays where none is made.
try_text() { # TEXT
    echo before >"$room/made"
    status=0
    make "$1" "$room/made" 2>&1 || status=$?
    echo "status $status"
    [ "$status" -eq 0 ] || echo before | diff - "$room/made"
}

# What is said of the text in its room must be these lines.
hold_said() { # LINES...
    try_text "$room/lines" >"$room/answer"
    printf '%s\n' "$@" | diff - "$room/answer"
}

# A text that makes this sheet.
hold_made() { # TEXT SHEET
    try_text "$1" | diff - "$room/sound" && cmp "$2" "$room/made" || { echo "yard: $1 does not make $2" >&2 && exit 1; }
}

# Each sample but those of sheets that the library does not make, and each text of the expected ones, with its message.
hold_texts() {
    echo "status 0" >"$room/sound"
    for text in samples/*.txt; do
        case $text in */headerless.txt | */leftover.txt | */second_header.txt | */too_long.txt) continue ;; esac
        hold_made "$text" "${text%.txt}.sheet"
    done
    sed -n "s/^\$ printf '\(.*\)' >TEXT; .\/yard make TEXT SHEET$/\1/p" examples/make.txt | while read -r lines; do
        printf '%s\n' "\$ printf '$lines' >TEXT; ./yard make TEXT SHEET"
        printf "$lines" >"$room/lines"
        try_text "$room/lines"
    done >"$room/answer"
    diff examples/make.txt "$room/answer"
}

# The fullest sheet that there is, by the second program too; one erased byte and one curve too many; a text that is too long, and one that is not there.
hold_full_texts() {
    { echo mission 65535 && yes 'C3 (-20000,20000) (1,2) (3,4) (5,6)' | head -n 113; } >"$room/full"
    { cat "$room/full" && echo erased 22; } >"$room/lines"
    "$second" sheet "$room/lines" "$room/expected"
    hold_made "$room/lines" "$room/expected"
    { cat "$room/full" && echo erased 23; } >"$room/lines"
    hold_said "line 115: refused 1 TOO LONG" "status 1"
    { cat "$room/full" && echo 'C3 (0,0) (0,0) (0,0) (0,0)'; } >"$room/lines"
    hold_said "line 115: refused 12 ROOM" "status 1"
    yes | head -c 65536 >"$room/lines"
    hold_said "error: the text has more than 65,535 bytes" "status 2"
    rm "$room/made"
    ! make samples/headerless.txt "$room/made" 2>/dev/null && ! make "$room/none" "$room/made" 2>/dev/null && [ ! -e "$room/made" ] ||
        { echo "yard: a sheet is left behind where none was made" >&2 && exit 1; }
}

hold_make() {
    hold_texts
    hold_full_texts
}

# Boxes made by chance: the text and the status are those of the second program.
hold_boxes_by_chance() {
    "$second" boxes "$room/boxes" 1
    for folder in "$room"/boxes/*; do
        set -- "$folder"/*.sheet
        [ -e "$1" ] || set --
        expected=0
        "$second" box "$@" >"$room/expected" || expected=$?
        status=0
        box "$@" >"$room/answer" || status=$?
        cmp "$room/expected" "$room/answer"
        [ "$status" -eq "$expected" ] || { echo "yard: $folder: status $status, not $expected" >&2 && exit 1; }
    done
}

# What ./yard ask says: each command of the expected text, its lines and its status.
hold_questions() {
    sed -n "s/^\$ .\/yard ask '\(.*\)'$/\1/p" examples/ask.txt | while read -r call; do
        echo "\$ ./yard ask '$call'"
        printf '%s\n' "$call" | ask || echo "status $?"
    done >"$room/answer"
    diff examples/ask.txt "$room/answer"
}

# What an archive is for, which functions it has, what it needs from elsewhere, and what in it is written to, a line each.
contents() { # ARCHIVE
    readelf -h "$1" | sed -n 's/^ *Machine: */is for /p'
    readelf -sW "$1" | awk '$5 == "GLOBAL" || $5 == "WEAK" { print (/ UND / ? "needs" : "has"), $NF }' | sort
    readelf -SW "$1" | sed -n 's/^ *\[ *[0-9]*\] *//p' | awk '$5 !~ /^0*$/ && $7 ~ /W/ { print "writes", $1 }'
}

# Such an archive holds the calls of the header alone and no state, and needs so much of a C library.
hold_archive() { # ARCHIVE PROCESSOR NEEDED...
    contents "$1" >"$room/contents"
    {
        echo "is for $2"
        declared_calls | sed 's/.*\(yard_[a-z_0-9]*\)(.*/has \1/' | sort
        shift 2
        printf 'needs %s\n' "$@"
    } | diff - "$room/contents"
}

# The library for each target.
hold_archives() {
    for target in $targets; do
        case $target in
        x86_64-*) processor="Advanced Micro Devices X86-64" ;;
        aarch64-*) processor=AArch64 ;;
        riscv64-*) processor=RISC-V ;;
        esac
        needed=memset
        case $target in *-linux-gnu) needed="memcpy memset" ;; esac
        make_library "$target" "$room/libyard.a"
        hold_archive "$room/libyard.a" "$processor" $needed ||
            { echo "yard: the library for $target is not (>) what include/yard.h says (<)" >&2 && return 1; }
    done
}

# What pkg-config says of the installed library.
flags() { # WORDS...
    if command -v pkg-config >/dev/null; then
        PKG_CONFIG_PATH=$room/installed/lib/pkgconfig pkg-config "$@" yard
    else
        echo "yard: pkg-config is not installed: the examples are built without it, and yard.pc is not tried" >&2
        echo "$*" | sed "s,--cflags,-I$room/installed/include,; s,--libs,-L$room/installed/lib -lyard,"
    fi
}

# An example: each command of its expected text, and what it says.
hold_example() { # NAME
    sed -n "s/^\$ $1 //p" "examples/$1.txt" | while read -r words; do
        echo "\$ $1 $words"
        "$room/installed/$1" $words || echo "status $?"
    done >"$room/answer"
    diff "examples/$1.txt" "$room/answer"
}

# The examples, by the README's commands, with an installed library whose folder was moved.
hold_examples() {
    install_library "$room/new" "$(own_target)"
    mv "$room/new" "$room/installed"
    gcc -Wall -Wextra examples/rover.c $(flags --cflags --libs) -o "$room/installed/rover"
    g++ -Wall -Wextra examples/joins.cpp $(flags --cflags --libs) -o "$room/installed/joins"
    rustc --edition 2021 examples/cable.rs $(flags --libs) -o "$room/installed/cable"
    hold_example rover
    hold_example joins
    hold_example cable
}

all_tests() {
    hold_layout
    hold_theorems
    hold_prototypes
    hold_to_second_program
    gate
    prove_programs
    hold_samples
    hold_boxes
    hold_boxes_by_chance
    hold_parts
    hold_samples_by_cable
    hold_long_cables
    hold_ends_of_cables
    hold_make
    hold_questions
    prove_library
    hold_archives
    compare_library 20000 1
    hold_examples
    tail -n 1 "$room/gate"
}
