#!/usr/bin/env bash
# Compares `vmtables boot` and `vmtables build` for each description of examples/ and for great ones, `vmtables load` for large
# containers and for one of a machine of QEMU, `vmtables decode` and `decode --list` for the dumps of descriptions and for a long one, and
# `vmtables gen` for two numbers of processors, with other programs or one another, run side by side in one run; and so `aml_again`, which reads
# AML terms and writes them again. It prints ratios, what ours takes over what the other program takes, for `gen`, and for a guest of QEMU that is
# listed with `--legacy` and without it, the instructions too where perf or valgrind counts them, and for some inputs the peak of memory in MiB.
# Then it prints what `decode` and `decode --list` take of dumps that make much work, by many rows or tables, or by a great DSDT. Nothing is proved
# or judged here.
#
# usage: bench/run.sh [ROUNDS]     each program is run ROUNDS times, 11 if nothing is said; medians are compared
#
# A program that isn't there is named as skipped. Status 0: all was run; 2: ROUNDS is no number; any other: something can't be run or made.
set -u
shopt -s nullglob
root=$(dirname "$(dirname "$(readlink -f "$0")")")
rounds=${1:-11}
[[ $# -le 1 && $rounds =~ ^[1-9][0-9]*$ ]] || { echo "usage: bench/run.sh [ROUNDS]" >&2; exit 2; }
PATH=$PATH:/usr/sbin # where Debian has dmidecode
work=$(mktemp -d)
trap 'rm -rf "$work"' EXIT
program=$root/crates/vmtables_cli/out/vmtables_cli
guest_memory=$((33 << 20)) # bytes
long_dump=62000000         # bytes of the dump that is compared with
again=$root/crates/aml_again/out/aml_again
long_terms=$((4 << 20))    # bytes of AML terms, and of those that iasl reads too, whose time grows as the square of their names
few_terms=$((64 << 10))
most_input=$((64 << 20))   # bytes of the longest dumps that make much work, and parts of it
parts=(1 10 100)
terms=(names packages) # kinds of bench/aml.py
hostile=(random unbroken rows reverse structures entries fill tables) # kinds of bench/dumps.py
legacy=legacy                                                         # one of them that is read with --legacy
devices=(bridge processors)            # descriptions of bench/descriptions.py, of devices of which a DSDT tells
dsdts=(names zeros scopes)             # kinds of bench/dsdts.py, and how many bytes the DSDT of each has
dsdt_sizes=($((4 << 20)) $((1 << 20)))
short_sizes=($((24 << 20)) $((12 << 20)) $((3 << 20))) # bytes of a DSDT of shortest names: the first is as many as a dump has room for
buffer_sizes=($((32 << 20)) $((4 << 20)))              # of one of a buffer of fill bytes, which has no rows: the first is all of RAM above 1 MiB
described=server                       # the example whose dump is decoded beside the readers of its tables
processors=(4096 1024)                 # of the machines of gen
cases=$root/crates/run_cases/out/run_cases
resets=(1000 500)                      # how often a guest is reset
reset_often=(many few written)         # the containers of bench/containers.py whose loads are
whole_load=16                          # events behind which the file of random.container is read, and a load of it lacks but its last step
repeated=10                            # how often it is loaded, so that the text of its cases counts for little
seeds=(9223372036854775808 9223372036854775807) # the least seed whose events reset the guest, twice, and the greatest one of the others

# against WHAT INPUT WORD..: one more program to compare with, what it reads from standard input, and its words.
against() {
    local what=$1 input=$2
    shift 2
    if command -v "$1" >/dev/null; then
        printf '%s\t%s\t%s\t%s\n' "$name" "$what" "$input" "$*" >>"$work/programs"
    else
        echo "skipped: $1"
    fi
}

# The program and what it is compared with, for one description.
add_description() {
    local name folder tables
    name="boot $(basename "$1" .toml)"
    folder=$work/$(basename "$1" .toml)
    mkdir "$folder"
    "$program" boot <"$1" >"$folder/dump" && python3 "$root/tools/dump_tables.py" "$folder/dump" "$folder" || exit 1
    against "boot" "$1" "$program" boot
    against "the program's --version" /dev/null "$program" --version
    against "cat of as many bytes as the dump has" "$folder/dump" cat
    against "xxd of as many bytes as the dump has" "$folder/dump" xxd
    against "cat of as many bytes as guest memory has" "$work/memory" cat
    against "xxd of as many bytes as guest memory has" "$work/memory" xxd
    against "dmidecode on its SMBIOS structures" /dev/null dmidecode --from-dump "$folder/smbios.bin"
    tables=("$folder"/*.aml)
    [ "${#tables[@]}" -eq 0 ] || against "iasl -d on its ACPI tables" /dev/null iasl -d "${tables[@]}"
    against_compiler "$folder"
    name="build $(basename "$1" .toml)"
    against "build" "$1" "$program" build
    against "the program's --version" /dev/null "$program" --version
    against "cat of as many bytes as the description has" "$1" cat
    against_compiler "$folder"
}

# against_compiler FOLDER: where the tables there have a DSDT, iasl, which makes one again of the text that it made of it. It is told to take an id
# that doesn't end in hexadecimal digits, as the one that QEMU's device has.
against_compiler() {
    [ -e "$1/DSDT.aml" ] && command -v iasl >/dev/null || return 0
    [ -e "$1/text.dsl" ] || iasl -d -p "$1/text" "$1/DSDT.aml" >/dev/null 2>&1 </dev/null || exit 1
    against "iasl on the text of its DSDT" /dev/null iasl -vw 6035 -p "$1/made" "$1/text.dsl"
}

# make_script FILE LINE: makes a program of a line of shell.
make_script() {
    printf '#!/usr/bin/env bash\n%s\n' "$2" >"$1"
    chmod +x "$1"
}

# The list of the dump of a description, and what it is compared with.
add_list() {
    local name folder tables
    name="list $(basename "$1" .toml)"
    folder=$work/$(basename "$1" .toml)
    against "decode --list" "$folder/dump" "$program" decode --list
    against "the program's --version" /dev/null "$program" --version
    against "cat of as many bytes as the dump has" "$folder/dump" cat
    tables=("$folder"/*.aml)
    if [ "${#tables[@]}" -gt 0 ] && command -v dmidecode >/dev/null && command -v iasl >/dev/null; then
        make_script "$folder/readers" "dmidecode --from-dump '$folder/smbios.bin' && iasl -d ${tables[*]}"
        against "dmidecode and iasl -d on its tables" /dev/null "$folder/readers"
    fi
    name="boot|list $(basename "$1" .toml)"
    make_script "$folder/pipeline" "'$program' boot | '$program' decode --list"
    make_script "$folder/copied" "'$program' boot | cat"
    against "boot | decode --list" "$1" "$folder/pipeline"
    against "boot" "$1" "$program" boot
    against "boot | cat" "$1" "$folder/copied"
}

# The description of the machine of a dump, once add_list has made what it is compared with.
add_decode() {
    local name folder=$work/$described
    name="decode $described"
    against "decode" "$folder/dump" "$program" decode
    against "the program's --version" /dev/null "$program" --version
    against "decode --list" "$folder/dump" "$program" decode --list
    [ ! -x "$folder/readers" ] || against "dmidecode and iasl -d on its tables" /dev/null "$folder/readers"
    name="boot|decode $described"
    make_script "$folder/there_and_back" "'$program' boot | '$program' decode"
    against "boot | decode" "$root/examples/$described.toml" "$folder/there_and_back"
    against "boot" "$root/examples/$described.toml" "$program" boot
}

# The machines of gen, the greatest one beside one of a fourth of its processors.
add_gen() {
    local name="gen ${processors[0]}"
    against "gen" /dev/null "$program" gen "${processors[0]}"
    against "gen ${processors[1]}" /dev/null "$program" gen "${processors[1]}"
    against "the program's --version" /dev/null "$program" --version
}

# instructions INPUT WORD..: how many instructions the program runs in user mode, told by perf or else by valgrind; nothing where neither tells it.
instructions() {
    local told input=$1
    shift
    told=
    if command -v perf >/dev/null; then
        perf stat -x, -e instructions:u -o "$work/counted" "$program" "$@" >/dev/null 2>&1 <"$input"
        told=$(awk -F, '$3 ~ /^instructions/ && $1 ~ /^[0-9]+$/ { print $1 }' "$work/counted")
    fi
    if [ -z "$told" ] && command -v valgrind >/dev/null; then
        told=$(valgrind --tool=callgrind --callgrind-out-file=/dev/null "$program" "$@" 2>&1 >/dev/null <"$input" |
            sed -n 's/.*Collected : \([0-9]*\).*/\1/p')
    fi
    echo "$told"
}

# compare_instructions INPUT WORDS WORDS: those with the first words beside those with the others, of which blanks stand between.
compare_instructions() {
    local first second words
    read -ra words <<<"$2"
    first=$(instructions "$1" "${words[@]}")
    read -ra words <<<"$3"
    second=$(instructions "$1" "${words[@]}")
    if [ -z "$first" ] || [ -z "$second" ]; then
        echo "skipped: instructions, which neither perf nor valgrind tells"
        return
    fi
    awk -v first="$first" -v second="$second" -v what="$2 over $3" \
        'BEGIN { printf "instructions of %s: %d over %d, %.3f\n", what, first, second, first / second }'
}

# A guest of QEMU, whose ACPI tables have an RSDP of revision 0, listed with them and without.
compare_guest() {
    python3 "$root/bench/guests.py" pc "$work/guest.dump" >/dev/null 2>&1 || { echo "skipped: a guest of QEMU"; return; }
    compare_instructions "$work/guest.dump" "decode --list --legacy" "decode --list"
}

# The tables of an RSDT, as many as are read, beside the same of an XSDT.
add_roots() {
    local name="list legacy" kind
    for kind in tables "$legacy"; do
        python3 "$root/bench/dumps.py" "$kind" "$most_input" "$work/$kind.dump" || exit 1
    done
    against "decode --list --legacy" "$work/$legacy.dump" "$program" decode --list --legacy
    against "decode --list of the tables of an XSDT" "$work/tables.dump" "$program" decode --list
}

# add_devices NAME: a description of devices, of whose DSDT iasl makes a text, and a DSDT again of that.
add_devices() {
    local name folder=$work/$1 description=$work/$1.toml command
    mkdir "$folder"
    "$program" boot <"$description" >"$folder/dump" && python3 "$root/tools/dump_tables.py" "$folder/dump" "$folder" || exit 1
    for command in boot build; do
        name="$command $1"
        against "$command" "$description" "$program" "$command"
        against "the program's --version" /dev/null "$program" --version
        against "iasl -d on its DSDT" /dev/null iasl -d "$folder/DSDT.aml"
        against_compiler "$folder"
    done
    name="list $1"
    against "decode --list" "$folder/dump" "$program" decode --list
    against "the program's --version" /dev/null "$program" --version
    against "iasl -d on its DSDT" /dev/null iasl -d "$folder/DSDT.aml"
}

# The list of a long dump, in which each row of RAM is another one.
add_long_list() {
    local name="list rows"
    python3 "$root/bench/dumps.py" rows "$long_dump" "$work/rows.dump" || exit 1
    against "decode --list" "$work/rows.dump" "$program" decode --list
    against "cat of as many bytes as the dump has" "$work/rows.dump" cat
    against "xxd -r -p of as many bytes as the dump has" "$work/rows.dump" xxd -r -p
    against "cat of as many bytes as guest memory has" "$work/memory" cat
}

# The program and what it is compared with, for one container.
add_container() {
    local name
    name="load $(basename "$1" .container)"
    against "load" "$1" "$program" load
    against "the program's --version" /dev/null "$program" --version
    against "load of a script alone" "$work/alone.container" "$program" load
    against "cat of as many bytes as the container has" "$1" cat
    against "cksum of as many bytes as the container has" "$1" cksum
    against "cat of as many bytes as guest memory has" "$work/memory" cat
}

# A script whose commands write places to fw_cfg, beside one of as many that add places to numbers in memory.
add_writes() {
    local name="load writes"
    against "load" "$work/writes.container" "$program" load
    against "load of as many commands that add a place" "$work/pointers.container" "$program" load
    against "the program's --version" /dev/null "$program" --version
}

# A file that a guest may write, of which a load keeps a copy, beside the same file that it may not.
add_writable() {
    local name="load writable"
    against "load" "$work/writable.container" "$program" load
    against "load of the same file, read-only" "$work/full.container" "$program" load
    against "cat of as many bytes as the container has" "$work/writable.container" cat
}

# SMBIOS files that `load` installs by itself, beside the same with a script that does so.
add_install() {
    local name="load install"
    against "load --install" "$work/install.container" "$program" load --install
    against "load of the same files with such a script" "$work/scripted.container" "$program" load
    against "cat of as many bytes as the container has" "$work/install.container" cat
}

# add_resets NAME: a load of a container whose guest is reset so often before it begins, by the program of cases, which makes such a plan.
add_resets() {
    local name="resets $1" count
    for count in "${resets[@]}" 0; do
        python3 "$root/bench/resets.py" "$work/$1.container" "$count" >"$work/$1-$count.cases" || exit 1
    done
    against "${resets[0]} resets" /dev/null "$cases" "$work/$1-${resets[0]}.cases"
    against "${resets[1]} resets" /dev/null "$cases" "$work/$1-${resets[1]}.cases"
    against "no reset" /dev/null "$cases" "$work/$1-0.cases"
}

# A load that is made four times, since its guest is reset each time that its file is read, beside one that is made once.
add_broken_off() {
    local name="resets random" count
    for count in 3 0; do
        python3 "$root/bench/resets.py" "$work/random.container" "$count" "$whole_load" "$repeated" >"$work/random-$count.cases" || exit 1
    done
    against "a load with 3 resets" /dev/null "$cases" "$work/random-3.cases"
    against "a load without a reset" /dev/null "$cases" "$work/random-0.cases"
}

# A boot over the events of a seed that resets the guest, beside one without resets.
add_seeds() {
    local name="boot seeds" seed
    for seed in "${seeds[@]}"; do
        against "boot --seed $seed" "$root/examples/$described.toml" "$program" boot --seed "$seed"
    done
}

# What is compared beside that for the container of many files and commands.
add_many() {
    local name="load many"
    against "load of a sixteenth of its files and commands" "$work/few.container" "$program" load
}

# What is compared beside that for the container whose dump is long.
add_long_dump() {
    local name="load random"
    "$program" load <"$work/random.container" >"$work/random.dump" || exit 1
    against "cat of as many bytes as the dump has" "$work/random.dump" cat
    against "xxd of as many bytes as the file has" "$work/random.container" xxd
    against "xxd -p of as many bytes as the file has" "$work/random.container" xxd -p
}

# A machine of QEMU, whose description of devices in AML iasl reads.
add_machine() {
    local name="load q35"
    if ! python3 "$root/tools/qemu_files.py" q35 "$work/q35.container" >/dev/null 2>&1; then
        echo "skipped: the machine q35 of QEMU"
        return
    fi
    add_container "$work/q35.container"
    python3 "$root/bench/cut_table.py" DSDT "$work/q35.container" "$work/dsdt.aml" || exit 1
    against "iasl -d on its DSDT" /dev/null iasl -d "$work/dsdt.aml"
}

# add_terms KIND: AML terms of a kind, read and written again, and what that is compared with.
add_terms() {
    local name="aml $1"
    python3 "$root/bench/aml.py" "$1" "$few_terms" "$work/$1.terms" "$work/$1.aml" || exit 1
    against "aml_again" "$work/$1.terms" "$again"
    against "iasl -d of the same, as a DSDT" /dev/null iasl -d "$work/$1.aml"
    name="long aml $1"
    python3 "$root/bench/aml.py" "$1" "$long_terms" "$work/$1.long" "$work/long.aml" || exit 1
    against "aml_again" "$work/$1.long" "$again"
    against "cat of as many bytes" "$work/$1.long" cat
}

# compare_terms_memory KIND: the peak of the resident memory of aml_again, beside the bytes that it reads, in MiB.
compare_terms_memory() {
    /usr/bin/time -f %M -o "$work/peak" "$again" <"$work/$1.long" >"$work/output" || return
    awk -v given="$(stat -c %s "$work/$1.long")" -v what="$1" \
        '{ printf "peak memory of aml_again of %s: %.1f MiB, with an input of %.1f\n", what, $1 / 1024, given / 2 ^ 20 }' "$work/peak"
}

# compare_memory INPUT WORD..: the peak of the program's resident memory, beside guest memory and the input, in MiB.
compare_memory() {
    local input=$1 what
    shift
    /usr/bin/time -f %M -o "$work/peak" "$program" "$@" <"$input" >"$work/output" || return
    what=${input#"$work"/}
    what="$* ${what#"$root"/examples/}"
    [ "$input" != /dev/null ] || what=$*
    awk -v held="$guest_memory" -v given="$(stat -c %s "$input")" -v what="$what" \
        '{ printf "peak memory of %s: %.1f MiB, with an input of %.1f and guest memory of %.1f\n", what, $1 / 1024, given / 2 ^ 20, held / 2 ^ 20 }' \
        "$work/peak"
}

# compare_pages INPUT WORD..: how many pages the program touches, beside those that it touches to begin and to end.
compare_pages() {
    local input=$1 least
    shift
    /usr/bin/time -f %R -o "$work/peak" "$program" --version </dev/null >"$work/output" || return
    least=$(<"$work/peak")
    /usr/bin/time -f %R -o "$work/peak" "$program" "$@" <"$input" >"$work/output" || return
    echo "page faults of $* $(basename "$input"): $(<"$work/peak"), of --version $least"
}

compare_all_memory() {
    local input
    compare_pages "$root/examples/minimal.toml" boot
    for input in "$root/examples/server.toml" "$work/greatest.toml" "$work/processors.toml"; do
        compare_memory "$input" boot
        compare_memory "$input" build
    done
    for input in large many full writable random writes scripted; do
        compare_memory "$work/$input.container" load
    done
    compare_memory "$work/install.container" load --install
    compare_memory /dev/null gen "${processors[0]}"
    compare_memory "$work/server/dump" decode
    compare_memory "$work/processors/dump" decode
    compare_memory "$work/server/dump" decode --list
    compare_memory "$work/rows.dump" decode --list
    compare_memory "$work/processors/dump" decode --list
    for input in "${terms[@]}"; do
        compare_terms_memory "$input"
    done
}

# measure_dump WRITER KIND BYTES WHAT [OPTION]: what both commands take of a dump that makes much work, of the kind that a program of this folder
# writes for so many bytes, and what they say.
measure_dump() {
    python3 "$root/bench/$1" "$2" "$3" "$work/hostile.dump" || exit 1
    measure_command "$4" decode "${@:5}"
    measure_command "$4" decode --list "${@:5}"
    rm -f "$work/hostile.dump"
}

# measure_command WHAT WORD..: what the program takes of that dump with the words.
measure_command() {
    local status says what=$1
    shift
    /usr/bin/time -q -f '%e %M' -o "$work/peak" "$program" "$@" <"$work/hostile.dump" >"$work/output" 2>"$work/said"
    status=$?
    says=$(head -1 "$work/said")
    awk -v kind="$what" -v words="$*" -v given="$(stat -c %s "$work/hostile.dump")" -v held="$guest_memory" -v status="$status" \
        -v says="${says:-$(wc -l <"$work/output") lines, $(stat -c %s "$work/output") bytes}" '{
            printf "%-11s %-22s %10.2f %10.1f %8.2f %10.1f %6d  %s\n", kind, words, given / 2 ^ 20, held / 2 ^ 20, $1, $2 / 1024, status, says
        }' "$work/peak"
    rm -f "$work/output"
}

measure_dumps() {
    local kind part size
    echo "decode and decode --list of dumps that make much work, run once; sizes in MiB"
    printf '%-11s %-22s %10s %10s %8s %10s %6s  %s\n' dump command input "guest RAM" seconds peak status says
    for kind in "${hostile[@]}"; do
        for part in "${parts[@]}"; do
            measure_dump dumps.py "$kind" $((most_input / part)) "$kind"
        done
    done
    for part in "${parts[@]}"; do
        measure_dump dumps.py "$legacy" $((most_input / part)) "$legacy" --legacy
    done
    for kind in "${dsdts[@]}"; do
        for size in "${dsdt_sizes[@]}"; do
            measure_dump dsdts.py "$kind" "$size" "DSDT $kind"
        done
    done
    for size in "${short_sizes[@]}"; do
        measure_dump dsdts.py short "$size" "DSDT short"
    done
    for size in "${buffer_sizes[@]}"; do
        measure_dump dsdts.py buffer "$size" "DSDT buffer"
    done
}

"$root/vmtables" --version || exit 1 # builds the program where it isn't built, in sight
for at in aml_again run_cases; do
    (cd "$root/crates/$at" && rt run </dev/null >/dev/null) || exit 1
done
head -c "$guest_memory" /dev/zero >"$work/memory"
python3 "$root/bench/descriptions.py" "$work" || exit 1
for description in "$root"/examples/*.toml "$work/greatest.toml"; do
    add_description "$description"
    add_list "$description"
done
for description in "${devices[@]}"; do
    add_devices "$description"
done
add_decode
add_gen
add_long_list
add_roots
python3 "$root/bench/containers.py" "$work" || exit 1
for container in large full many random; do
    add_container "$work/$container.container"
    case $container in
    many) add_many ;;
    random) add_long_dump ;;
    esac
done
add_writes
add_writable
add_install
for container in "${reset_often[@]}"; do
    add_resets "$container"
done
add_broken_off
add_seeds
add_machine
for kind in "${terms[@]}"; do
    add_terms "$kind"
done
python3 "$root/bench/compare.py" "$rounds" "$work/programs" "$work/output"
compare_instructions /dev/null "gen ${processors[0]}" "gen ${processors[1]}"
compare_guest
if [ -x /usr/bin/time ]; then
    compare_all_memory
    measure_dumps
else
    echo "skipped: /usr/bin/time"
fi
