#!/usr/bin/env bash
# Has programs that others wrote read the memory that `vmtables boot` leaves for each description of examples/: dmidecode reads
# the SMBIOS structures, and iasl the ACPI tables. Each must print what is described and find no fault; and each must find one
# where a bit of a checksum is flipped, or of the length of a FACS, which has no checksum, or it would be no judge. They judge
# boots of each policy of places and of some seeds of events too, and the boot of the greatest description, which bench/descriptions.py
# writes. The devices that a DSDT tells of are judged by iasl's text of it, by that text compiled again, and by acpiexec, which loads and decodes
# it (judge_dsdt.py). Then `vmtables load` is given files that QEMU made for machines of its own, and what `vmtables build` makes for each
# description, and judge_load.py judges the memory that it leaves of them; of a description it must be the memory that `boot` leaves,
# and of a machine what SeaBIOS leaves in its guest, as judge_guest.py compares them; and `load --install` is given files that QEMU made for
# five machines, which are kept beside the repository where they are there (judge_install.py). What `vmtables decode --list` prints of the dumps of
# the descriptions, of the memory of QEMU's machines, with SeaBIOS, qboot and OVMF, and of tables that others made is judged by what dmidecode and iasl
# tell of the same bytes (judge_list.py), and what it tells of bad dumps and of memories with a fault by judge_bad_dumps.py. What `vmtables decode` prints of
# the dumps of descriptions, of drawn ones too, must be what is described, and boot to the same dump; `vmtables gen` must count what the
# machine has that it generates (judge_round_trips.py); and of memories that are no machine's `decode` must tell the first item that fails
# (judge_items.py). AML terms that iasl compiles must come back as they are from `aml_again`, which reads terms and writes them again. Debian's
# kernel of Linux boots on the memory of two descriptions, and what it finds there must be what is described (linux_guest.py). Containers must
# come back as they are from the folders that tools/container.py makes of them (judge_container.py). Second readers and writers, which are made of
# docs/FORMATS.md alone (judges/plain), work out what `decode --list`, `build`, `load` and `aml_again` have to say of a great many inputs, hostile
# ones among them (judge_read_dumps.py, judge_read_tables.py, judge_read_legacy.py, judge_read_structures.py, judge_builds.py, judge_loads.py,
# judge_install.py, judge_terms.py); and the dumps of some seeds, with resets and without, have hashes that one more program worked out (judge_seeds.py). Last, the
# commands that README.md and docs/USES.md show must print what these say. Beside these stand two judges of what the program says of itself:
# tools/explain.py has to say each line that docs/FORMATS.md lists (judge_explain.py), and docs/vmtables.1, which mandoc reads, what `--help` says
# (judge_help.py). Nothing is proved here.
#
# And each allocation of some commands is refused, and each of their reads and writes fails, one at a time, which they must say (judge_memory.py).
#
# usage: judges/run.sh [PROGRAM]     PROGRAM stands for ./vmtables
#
# Status 0: no fault was found; 1: one was; 2: PROGRAM can't be run. A judge that isn't there and can't be installed is skipped. The last
# lines say how many faults were found, and which judges were asked and which were skipped.
set -u
shopt -s nullglob
here=$(dirname "$(readlink -f "$0")")
root=$(dirname "$here")
tools=$root/tools
built=$root/crates/vmtables_cli/out/vmtables_cli
program=$(readlink -f "${1:-$root/vmtables}")
[ -f "$program" ] && [ -x "$program" ] || { echo "judges/run.sh: ${1:-$root/vmtables}: there is no such program" >&2; exit 2; }
PATH=$PATH:/usr/sbin # where Debian has dmidecode
export PYTHONDONTWRITEBYTECODE=1
work=$(mktemp -d)
trap 'rm -rf "$work"' EXIT
judges=(dmidecode iasl acpiexec qemu-system-x86_64 mandoc)
packages=(dmidecode acpica-tools acpica-tools qemu-system-x86 mandoc) # the package of each judge in Debian
firmware=SeaBIOS                                               # a judge that comes with QEMU
guest=Linux                                                    # a judge whose kernel is unpacked, and not installed
kernels=(linux-image-cloud-amd64 linux-image-amd64)            # the packages that depend on one with a kernel, the smaller one first
asked=()                                                       # the judges that were asked
checksum=9                                                     # the byte of an ACPI table that is its checksum
machines=(pc q35)                                              # the machines of QEMU whose files are loaded
others=(isapc microvm)                                         # those whose memory alone is listed
cases=$(dirname "$root")/shared/cases                          # files and guests of real machines, which are no part of the repository
of_machine=                                                    # the one whose files are loaded, where they are of one
guest_top=2048                                                 # the top of memory of those whose firmware runs, in MiB
wrong_lines=(2 4)                                              # lines of a dump that a program gets wrong: of the RSDP, and of another file
policies=(low top scatter)                                     # the policies of places, and the seeds of events, with which descriptions boot
seeds=(1 7 18446744073709551615)
fills=(00 ff a5) # the fill bytes, and the seeds, with which they boot for a list that is to be the same
list_seeds=(0 1 2 3 5 7 11 13 4294967296 9223372036854775807 9223372036854775808 9223372036854775809 18446744073709551614 18446744073709551615)
faults=0

has() {
    command -v "$1" >/dev/null
}

# Installs the package of each judge that isn't there, and of each tool that a judge needs.
install_packages() {
    local at
    for at in "${!judges[@]}"; do
        has "${judges[at]}" || install_package "${packages[at]}"
    done
    has busybox || install_package busybox-static
    has_ovmf || install_package ovmf
}

install_package() {
    DEBIAN_FRONTEND=noninteractive timeout 300 apt-get install -y -qq --no-install-recommends "$1" >/dev/null 2>&1 </dev/null
}

# Whether OVMF is there, the firmware of a guest that docs/USES.md shows.
has_ovmf() {
    [ -e /usr/share/ovmf/OVMF.fd ]
}

has_all_judges() {
    local judge
    for judge in "${judges[@]}" busybox; do
        has "$judge" || return 1
    done
    has_ovmf
}

install_missing_judges() {
    has_all_judges && return
    has apt-get && [ "$(id -u)" -eq 0 ] || return
    install_packages
    has_all_judges && return
    timeout 300 apt-get update -qq >/dev/null 2>&1 </dev/null
    install_packages
}

# fault TOOL FILE TEXT: counts and prints a fault with what the tool said.
fault() {
    faults=$((faults + 1))
    printf '  FAULT: %s, %s of %s:\n' "$1" "$2" "$description"
    sed 's/^/    /' <<<"$3"
}

# reads_as EXPECTED TEXT WORDS: whether a text has the lines of a file in their order, white space and iasl's offsets aside, and
# no other line with one of the words; prints where it isn't so.
reads_as() {
    local lines missing complaints
    lines=$(sed 's/^[[:space:]]*\(\[[^]]*\]\)\{0,1\}[[:space:]]*//' <<<"$2")
    missing=$(awk 'FILENAME == ARGV[1] { wanted[++count] = $0; next } at < count && $0 == wanted[at + 1] { at++ }
        END { if (at < count) print wanted[at + 1] }' "$1" <(echo "$lines"))
    complaints=$(grep -Fxv -f "$1" <<<"$lines" | grep -iE "$3")
    [ -z "$missing" ] || echo "expected, and not printed there: $missing"
    [ -z "$complaints" ] || sed 's/^/a complaint: /' <<<"$complaints"
    [ -z "$missing$complaints" ]
}

# Each judge_ takes the folder of a machine's tables and one of its files, prints what the tool says and what is wrong with that,
# and has status 0 where nothing is wrong.

judge_structures() {
    local said
    said=$(cd "$1" && dmidecode --from-dump "$2" 2>&1 </dev/null) || { echo "$said"; return 1; }
    echo "$said"
    reads_as "$1/smbios.expected" "$said" \
        'invalid|truncated|warning|error|wrong|broken|bad index|out of spec|unreachable|unsupported|not fully|sorry'
}

judge_table() {
    local said table=${2%.aml} expected=/dev/null
    said=$(cd "$1" && iasl -d "$2" 2>&1 </dev/null) || { echo "$said"; return 1; }
    echo "$said"
    [ -e "$1/$table.expected" ] && expected=$1/$table.expected
    reads_as /dev/null "$said" 'warning|error|incorrect|invalid' &&
        reads_as "$expected" "$(sed '/^Raw Table Data/,$d' "$1/$table.dsl")" 'incorrect|invalid|\*\*\*\*'
}

# iasl reads no RSDP, but makes one: it must be the same.
judge_pointer() {
    (cd "$1" && iasl RSDP.asl 2>&1 </dev/null && cmp RSDP.aml "$2" 2>&1)
}

# byte_at FILE OFFSET: a byte as a number.
byte_at() {
    od -An -tu1 -j "$2" -N 1 "$1"
}

# put_byte FILE OFFSET NUMBER: has a byte stand there.
put_byte() {
    printf '%b' "\\x$(printf %02x "$3")" | dd of="$1" bs=1 seek="$2" conv=notrunc status=none
}

# flip FILE OFFSET: flips the lowest bit of a byte. Behind the checksum of a table it changes that too, so that the table still sums to zero.
flip() {
    local byte sum
    byte=$(byte_at "$1" "$2")
    put_byte "$1" "$2" $((byte ^ 1))
    [ "$2" -gt "$checksum" ] || return 0
    sum=$(byte_at "$1" "$checksum")
    put_byte "$1" "$checksum" $(((sum + byte - (byte ^ 1)) & 255))
}

# was_asked TOOL: whether the tool has judged a file.
was_asked() {
    [[ " ${asked[*]} " == *" $1 "* ]]
}

# note_asked TOOL: has the tool among those that were asked.
note_asked() {
    was_asked "$1" || asked+=("$1")
}

# ask TOOL JUDGE FILE BYTE..: has the tool judge a file, and then for each BYTE a copy with a bit flipped there: in a checksum or a length,
# which the file's other bytes decide, or in a number that is described.
ask() {
    local said tool=$1 judge=$2 file=$3 byte bytes
    shift 3
    bytes=$*
    note_asked "$tool"
    said=$("$judge" "$folder" "$file" 2>&1) || { fault "$tool" "$file" "$said"; return; }
    for byte in "$@"; do
        rm -rf "$folder.flipped"
        cp -r "$folder" "$folder.flipped"
        flip "$folder.flipped/$file" "$byte"
        said=$("$judge" "$folder.flipped" "$file" 2>&1) || continue
        fault "$tool" "$file" "no judge: it finds nothing wrong with a bit flipped in byte $byte
$said"
        return
    done
    echo "  $tool: $file: as described, and no fault; a bit flipped in byte ${bytes// /, or } is found"
}

# make_files [WORD..]: boots the description with the words into a dump and makes files of that, or counts a fault.
make_files() {
    local said words="boot $*"
    words=${words% }
    mkdir "$folder"
    said=$("$program" boot "$@" 2>&1 >"$folder/dump" <"$description") || { fault vmtables "$words" "$said"; return 1; }
    said=$(python3 "$tools/dump_tables.py" "$folder/dump" "$folder" 2>&1) || { fault dump_tables.py "the dump" "$said"; return 1; }
    said=$(python3 "$here/described.py" "$description" "$folder" 2>&1) || { fault described.py "the text" "$said"; return 1; }
}

# telling_bytes TABLE: which byte of a table's file its other bytes decide: the checksum, or of a FACS, which has none, the length; and of
# an MCFG a byte of the address that it tells, and the last bus.
telling_bytes() {
    case $1 in
    FACS.aml) echo 4 ;;
    MCFG.aml) echo "$checksum" 47 55 ;;
    *) echo "$checksum" ;;
    esac
}

ask_iasl() {
    local table bytes
    if [ ! -e "$folder/RSDP.bin" ]; then
        echo "  iasl: the memory has no ACPI tables"
        return
    fi
    for table in "$folder"/*.aml; do
        table=$(basename "$table")
        read -ra bytes < <(telling_bytes "$table")
        ask iasl judge_table "$table" "${bytes[@]}"
    done
    ask iasl judge_pointer RSDP.bin 8
}

find_described_tables() {
    local lines table
    for lines in "$folder"/[A-Z]*.expected; do
        table=$(basename "$lines" .expected)
        [ -e "$folder/$table.aml" ] || fault dump_tables.py "the dump" "no $table, which is described"
    done
}

# Has the devices of the DSDT judged, where the description has power management.
judge_devices() {
    local said
    [ -e "$folder/DSDT.expected" ] || return
    said=$(python3 "$here/judge_dsdt.py" "$description" "$folder" 2>&1)
    case $? in
    0)
        note_asked iasl
        note_asked acpiexec
        echo "  iasl and acpiexec: DSDT.aml: $said"
        ;;
    3) echo "  skipped: $said" ;;
    *) fault judge_dsdt.py DSDT.aml "$said" ;;
    esac
}

# judge_load TOP FILL [WORD..]: has the program load the folder's container with the words, and judges the dump, which must be one
# of that top, in MiB, and that fill byte. The container is of the machine of QEMU that of_machine names, if it names one.
judge_load() {
    local said top=$1 fill=$2 words="load ${*:3}"
    words=${words% }
    said=$("$program" load "${@:3}" 2>&1 >"$folder/loaded" <"$folder/container") || { fault vmtables "$words" "$said"; return 1; }
    said=$(python3 "$here/judge_load.py" "$folder/container" "$folder/loaded" "$top" "$fill" ${of_machine:+"$of_machine"} 2>&1) ||
        { fault judge_load.py "$words" "$said"; return 1; }
    echo "  $words: $said"
}

# Builds the description's container, which must load into the memory that boot leaves.
judge_container() {
    local said top
    said=$("$program" build 2>&1 >"$folder/container" <"$description") || { fault vmtables build "$said"; return; }
    top=$(python3 -c 'import sys, tomllib; print(tomllib.load(sys.stdin.buffer)["top_mib"])' <"$description")
    judge_load "$top" 00 --top "$top" || return
    if said=$(cmp "$folder/dump" "$folder/loaded" 2>&1); then
        echo "  build, then load: the dump that boot gives"
    else
        fault cmp "the dumps of boot and load" "$said"
    fi
}

# judge_list KIND [WORD]: has the program list memories of a kind, and judges what it prints by what other programs tell of them.
judge_list() {
    local said
    said=$(python3 "$here/judge_list.py" "$program" "$@" 2>&1)
    case $? in
    0) echo "  decode --list: $said" ;;
    3) echo "  skipped: $said" ;;
    *) fault judge_list.py "the list, $1" "$said" ;;
    esac
}

# Has the program list tables that iasl makes of its own templates.
judge_templates() {
    description="iasl's templates"
    echo "$description"
    judge_list templates
}

# Has descriptions, those of the machines of gen and drawn ones among them, go to their dumps and back. Those that bench/descriptions.py writes
# are there once the greatest one was judged.
judge_round_trips() {
    local said
    description="round trips"
    echo "$description"
    said=$(python3 "$here/judge_round_trips.py" "$program" examples/*.toml "$here/linux_server.toml" \
        "$work"/{greatest,bridge,processors}.toml 2>&1) || { fault judge_round_trips.py "the descriptions" "$said"; return; }
    echo "  decode and gen: $said"
}

# Has the program refuse to describe memories without a fault that are no machine's: the one that boot left of the description with every key,
# with a change.
judge_items() {
    local said
    description="memories that are no machine's"
    echo "$description"
    said=$(python3 "$here/judge_items.py" "$program" "$work/every-key/dump" 2>&1) || { fault judge_items.py "the items" "$said"; return; }
    echo "  decode: $said"
}

# Has the program refuse dumps that are none, and memories with a fault, listed and decoded.
judge_bad_dumps() {
    local said
    description="bad dumps"
    folder=$work/bad
    echo "$description"
    mkdir "$folder"
    "$program" boot <examples/minimal.toml >"$folder/minimal" 2>"$folder/said" &&
        (cat examples/minimal.toml && printf '[acpi]\n[hpet]\n') | "$program" boot >"$folder/hpet" 2>"$folder/said" ||
        { fault vmtables boot "$(cat "$folder/said")"; return; }
    said=$(python3 "$here/judge_bad_dumps.py" "$program" "$folder/minimal" "$folder/hpet" 2>&1)
    case $? in
    0) echo "  decode and decode --list: $said" ;;
    3) echo "  skipped: $said" ;;
    *) fault judge_bad_dumps.py "the lines" "$said" ;;
    esac
}

# judge_machine NAME: has the program load the files of a machine of QEMU, with the default words and with others.
judge_machine() {
    local said of_machine=$1
    description="the machine $1 of QEMU"
    folder=$work/qemu-$1
    echo "$description"
    mkdir "$folder"
    said=$(python3 "$tools/qemu_files.py" "$1" "$folder/container" 2>&1)
    case $? in
    0) ;;
    3) echo "  skipped: $said"; return ;;
    *) fault qemu_files.py "the container" "$said"; return ;;
    esac
    note_asked qemu-system-x86_64
    judge_load 64 00
    judge_load 3072 a5 --fill a5 --top 3072
    judge_guest "$1"
    judge_list machine "$1"
    judge_list loaded "$folder/container"
}

# judge_plainly JUDGE WORD..: has a second reader judge what a program makes of a great many inputs.
judge_plainly() {
    local said
    said=$(python3 "$here/$1" "${@:2}" 2>&1) || { fault "$1" "the inputs" "$said"; return; }
    echo "  $1: $said"
}

# Has second readers and writers judge lists, containers and loads.
judge_all_plainly() {
    description="second readers"
    echo "$description"
    judge_plainly judge_read_dumps.py "$program" examples/*.toml
    judge_plainly judge_read_tables.py "$program"
    judge_plainly judge_read_legacy.py "$program"
    judge_plainly judge_read_structures.py "$program"
    judge_plainly judge_builds.py "$program" examples/*.toml "$work"/{greatest,bridge,processors}.toml
    judge_plainly judge_loads.py "$program" examples/*.toml
    judge_plainly judge_install.py "$program" drawn
    judge_plainly judge_seeds.py "$program"
}

# Whether a program is there, and nothing that crates are built of is newer.
is_built() {
    [ -x "$1" ] && [ -z "$(find crates \( -name out -o -name must-fail -o -name planted \) -prune -o -type f -newer "$1" -print -quit)" ]
}

# Has a second reader and what iasl compiles judge AML terms that are read, and written again.
judge_terms() {
    local said again=$root/crates/aml_again/out/aml_again
    description="AML terms"
    echo "$description"
    if ! is_built "$again"; then
        said=$(cd crates/aml_again && rt run </dev/null 2>&1) || { fault aml_again "the program" "$said"; return; }
    fi
    judge_plainly judge_terms.py "$again"
    said=$(python3 "$here/judge_aml.py" "$again" 2>&1)
    case $? in
    0) note_asked iasl && echo "  aml_again: $said" ;;
    3) echo "  skipped: $said" ;;
    *) fault judge_aml.py "the terms" "$said" ;;
    esac
}

# Has each allocation of some commands refused, and each read and write fail, one at a time.
judge_memory() {
    local said
    description="refused memory and failing streams"
    echo "$description"
    said=$(python3 "$here/judge_memory.py" "$program" examples/server.toml examples/every-key.toml 2>&1)
    case $? in
    0) sed 's/^/  /' <<<"$said" ;;
    3) echo "  skipped: $said" ;;
    *) fault judge_memory.py "the runs" "$said" ;;
    esac
}

# make_wrong_program LINE: makes a program that is as ours, but changes the last digit of a line of what it writes.
make_wrong_program() {
    cat >"$folder/wrong" <<END
#!/usr/bin/env bash
"$program" "\$@" | sed '$1 { s/[1-9a-f]$/0/; t; s/0$/1/ }'
END
    chmod +x "$folder/wrong"
}

# finds_wrong NAME LINE: whether the judge of a guest's memory tells of a file that a program gets wrong in a line of its dump.
finds_wrong() {
    local said
    make_wrong_program "$2"
    said=$(python3 "$here/judge_guest.py" "$1" "$guest_top" "$folder/wrong" 2>&1)
    [ $? -eq 1 ] && [[ $said == etc/* ]] && return
    fault judge_guest.py "the memory" "no judge: it finds nothing wrong with a wrong line $2
$said"
    return 1
}

# judge_guest NAME: has the program load the files of a machine of QEMU as its firmware does, and judges the memory by what the firmware
# leaves.
judge_guest() {
    local said line
    said=$(python3 "$here/judge_guest.py" "$1" "$guest_top" "$program" 2>&1)
    case $? in
    0) ;;
    3) echo "  skipped: $said"; return ;;
    *) fault judge_guest.py "the memory" "$said"; return ;;
    esac
    note_asked "$firmware"
    for line in "${wrong_lines[@]}"; do
        finds_wrong "$1" "$line" || return
    done
    echo "  $firmware: load --policy top --top $guest_top: $said; a wrong row is found"
}

judge_machines() {
    local machine
    for machine in "${machines[@]}"; do
        judge_machine "$machine"
    done
    for machine in "${others[@]}"; do
        description="the machine $machine of QEMU"
        echo "$description"
        judge_list machine "$machine"
    done
    description="OVMF"
    echo "$description"
    judge_list ovmf
}

# Has the files of real machines installed, and their guests listed, where they are there.
judge_real_machines() {
    local said
    description="files of real machines"
    echo "$description"
    said=$(python3 "$here/judge_install.py" "$program" files "$cases" 2>&1)
    case $? in
    0)
        note_asked dmidecode
        echo "  load --install: $said"
        ;;
    3) echo "  skipped: $said"; return ;;
    *) fault judge_install.py "the files" "$said" ;;
    esac
    judge_list expected "$cases/guests"
}

# Has the tables of the folder judged.
judge_tables() {
    find_described_tables
    ! has dmidecode || ask dmidecode judge_structures smbios.bin 5
    ! has iasl || ask_iasl
}

# Boots the description over the events of seeds, with each policy, and has the tables judged.
judge_events() {
    local policy seed
    for policy in "${policies[@]}"; do
        for seed in "${seeds[@]}"; do
            folder=$work/$(basename "$description" .toml)-$policy-$seed
            echo "$description: boot --policy $policy --seed $seed"
            ! make_files --policy "$policy" --seed "$seed" || judge_tables
        done
    done
}

# Boots the description with each policy, fill byte and seed, and has the list of each memory be that of the first one.
judge_same_list() {
    local policy fill seed said count=0
    "$program" decode --list <"$folder/dump" >"$folder/list"
    for policy in "${policies[@]}"; do
        for fill in "${fills[@]}"; do
            for seed in "${list_seeds[@]}"; do
                said=$("$program" boot --policy "$policy" --fill "$fill" --seed "$seed" <"$description" | "$program" decode --list |
                    cmp - "$folder/list" 2>&1) || fault cmp "the list with $policy, $fill and $seed" "$said"
                count=$((count + 1))
            done
        done
    done
    echo "  decode --list: $count memories are listed as one"
}

judge_description() {
    description=$1
    folder=$work/$(basename "$1" .toml)
    echo "$description"
    if make_files; then
        judge_tables
        judge_devices
        judge_container
        judge_list dump "$folder/dump"
        judge_same_list
    fi
    judge_events
}

# Whether there is what makes files for the judges.
can_make_files() {
    python3 -c 'import tomllib' 2>/dev/null && return
    echo "no judge can be asked: python3 of 3.11 or later isn't there to make files for them"
    return 1
}

judge_examples() {
    local at
    for at in examples/*.toml; do
        judge_description "$at"
    done
}

# Boots the description with the most of everything, and has the tables and the container judged.
judge_greatest() {
    description=$work/greatest.toml
    folder=$work/greatest
    echo "the greatest description"
    python3 bench/descriptions.py "$work" || { fault descriptions.py "the text" "not written"; return; }
    make_files || return
    judge_tables
    judge_devices
    judge_container
    judge_list dump "$folder/dump"
}

# judge_more NAME LINE..: boots the minimal description with power management and lines more, and has the tables judged.
judge_more() {
    description=$work/$1.toml
    folder=$work/$1
    echo "examples/minimal.toml with power management and more: $1"
    (cat examples/minimal.toml && printf '%s\n' '[acpi]' '[power]' 'event = 0x600' 'control = 0x604' 'timer = 0x608' "${@:2}") >"$description"
    make_files || return
    judge_tables
    judge_devices
    judge_list dump "$folder/dump"
}

# Judges devices that no example has: none at all, and a bridge that tells of nothing but its buses.
judge_few_devices() {
    judge_more no_devices 'rtc = false' 'keyboard = false'
    judge_more bare_bridge '[bridge]'
}

# Has the package of Debian's kernel fetched, and the kernel unpacked from it into a file: $work/kernel. Nothing is installed.
fetch_kernel() {
    local package
    has apt-get && has dpkg-deb || return
    package=$(apt-cache depends "${kernels[@]}" 2>/dev/null | sed -n 's/^ *Depends: \(linux-image-[0-9].*\)$/\1/p' | head -1)
    [ -n "$package" ] || return
    mkdir "$work/package"
    (cd "$work/package" && timeout 300 apt-get download -qq "$package" >/dev/null 2>&1 </dev/null &&
        dpkg-deb --fsys-tarfile ./*.deb | tar -xO --wildcards './boot/vmlinuz-*' >"$work/kernel") && [ -s "$work/kernel" ]
}

# linux_says WORD..: has linux_guest.py boot the kernel, and counts what it finds wrong.
linux_says() {
    local said
    said=$(python3 "$here/linux_guest.py" "$@" 2>&1)
    case $? in
    0)
        note_asked "$guest"
        echo "  $guest: $said"
        ;;
    3) echo "  skipped: $said" ;;
    *) fault linux_guest.py "the guest" "$said" ;;
    esac
}

# Writes a description of 300 processors on two nodes, of which 45 have ids that only an x2APIC has.
write_processors() {
    local at
    sed 's/^top_mib = .*/top_mib = 512/' examples/minimal.toml
    printf '%s\n' '[acpi]' '[power]' 'event = 0x600' 'control = 0x604' 'timer = 0x608' '[hpet]' '[[uart]]' 'port = 0x3F8' 'irq = 4' \
        '[[dimm]]' 'size_mib = 640' '[[range]]' 'base_mib = 0' 'size_mib = 512' '[[range]]' 'base_mib = 4096' 'size_mib = 128' 'node = 1' \
        '[numa]' 'nodes = 2' 'distance = [10, 21, 31, 10]' '[apic]' '[[ioapic]]' 'id = 0' 'address = 0xFEC00000' \
        '[[override]]' 'irq = 0' 'gsi = 2' '[[nmi]]' 'cpu = 254' 'flags = 5' '[[nmi]]' 'cpu = 299' 'lint = 0'
    for at in {0..299}; do
        printf '[[cpu]]\napic = %d\nnode = %d\n' "$at" $((at % 2))
    done
}

# Has a kernel of Linux find what is described in the memory of a server, with two policies, and of many processors.
judge_linux() {
    description=$here/linux_server.toml
    echo "a guest of Linux"
    fetch_kernel || { echo "  skipped: Debian's kernel can't be had"; return; }
    linux_says "$work/kernel" "$program" "$description"
    linux_says --turn "$work/kernel" "$program" "$description"
    linux_says "$work/kernel" "$program" "$description" --policy scatter --seed 1
    description=$work/processors.toml
    write_processors >"$description"
    linux_says "$work/kernel" "$program" "$description"
}

# Has tools/explain.py and docs/FORMATS.md say the same of each line, and of those that the program ends with.
judge_lines() {
    local said
    description=docs/FORMATS.md
    echo "$description"
    said=$(python3 "$here/judge_explain.py" "$program" 2>&1) || { fault judge_explain.py "the lines" "$said"; return; }
    echo "  $said"
}

# Has the manual page say what `--help` says, and mandoc find nothing wrong with it, and with a wrong one something.
judge_manual() {
    local said
    description=docs/vmtables.1
    echo "$description"
    said=$(python3 "$here/judge_help.py" "$program" 2>&1) || { fault judge_help.py "the page" "$said"; return; }
    echo "  $said"
    has mandoc || { echo "  skipped: mandoc isn't there"; return; }
    note_asked mandoc
    said=$(mandoc -T lint "$description" 2>&1)
    [ -z "$said" ] || { fault mandoc "the page" "$said"; return; }
    sed 's/^\.Sh EXAMPLES/.SH EXAMPLES/' "$description" >"$work/wrong.1"
    [ -n "$(mandoc -T lint "$work/wrong.1" 2>&1)" ] || { fault mandoc "the page" "no judge: it finds nothing wrong with a wrong macro"; return; }
    echo "  mandoc: no fault; a wrong macro is found"
}

# Has containers made folders, and folders containers.
judge_folders() {
    local said
    description="containers as folders"
    echo "$description"
    said=$(python3 "$here/judge_container.py" 2>&1) || { fault judge_container.py "the folders" "$said"; return; }
    echo "  container.py: $said"
}

# Has each command that a document shows print what the document says.
judge_document() {
    local said
    description=$1
    echo "$description"
    said=$(python3 "$here/shown_commands.py" "$1" "$program" 2>&1) || { fault shown_commands.py "the commands" "$said"; return; }
    echo "$said"
}

judge_all() {
    "$program" --version || exit 1 # builds ./vmtables where it isn't built, in sight
    [ "$program" != "$root/vmtables" ] || program=$built # which spares a look at all files with each call
    cd "$root" || exit 1
    judge_lines
    judge_manual
    judge_examples
    judge_greatest
    judge_few_devices
    judge_round_trips
    judge_items
    judge_templates
    judge_real_machines
    judge_bad_dumps
    judge_all_plainly
    judge_memory
    judge_terms
    if has qemu-system-x86_64; then
        judge_machines
        judge_linux
    fi
    judge_folders
    judge_document README.md
    judge_document docs/USES.md
}

# listed NAME..: the names with commas between them, after how many they are.
listed() {
    local names="$*"
    echo "$#${names:+: ${names// /, }}"
}

report() {
    local judge skipped=()
    for judge in "${judges[@]}" "$firmware" "$guest"; do
        was_asked "$judge" || skipped+=("$judge")
    done
    echo "judges: faults found: $faults"
    echo "judges: asked $(listed "${asked[@]}")"
    echo "judges: skipped $(listed "${skipped[@]}")"
    [ "${#asked[@]}" -gt 0 ] || echo "judges: ALL WERE SKIPPED, so no program that others wrote judged anything"
}

main() {
    install_missing_judges
    ! can_make_files || judge_all
    report
    [ "$faults" -eq 0 ]
}

main
