"""Boots a kernel of Linux on the memory of a dump, in a machine of QEMU without firmware of others, and reads what its guest prints: what
linux_guest.py compares with a description.

The machine is a q35 whose firmware is the dump's 0xE0000 to 0xFFFFF. In fill bytes at its end stands a stub, which the processor begins with.
It has the chipset's configuration space and its ports of power management stand where they are described, and enters the kernel by its 32-bit
boot protocol (Linux, Documentation/x86/boot.rst). QEMU puts the dump's other bytes, the kernel, its parameters and its first files into
memory. Which ranges are memory the kernel learns from the parameters; all else it finds by itself, as from a PC's firmware.

The guest's first program is a script. It prints sections, each a line `@@ NAME` and lines behind it, and last `@@ end`.
"""

import os
import pathlib
import selectors
import shutil
import struct
import subprocess
import sys
import time

sys.path.append(str(pathlib.Path(__file__).resolve().parent.parent / "tools"))  # whose modules the judges share

from memory_dump import UPPER_WINDOW_SIZE, number_at

PROGRAM = "qemu-system-x86_64"
SECONDS = int(os.environ.get("LINUX_GUEST_SECONDS", "120"))  # after which a boot is ended, whatever it does
MIB = 1 << 20

# Ranges of the dump, and where the other bytes are put: in memory of which a dump holds nothing.
LOW_END, BIOS, BIOS_END = 0xA0000, 0xE0000, 0x100000
PARAMETERS, COMMAND_LINE, KERNEL, FILES = 2 * MIB, 2 * MIB + 0x1000, 16 * MIB, 256 * MIB
LEAST_TOP, MOST_TOP = 512 * MIB, 2048 * MIB
ACPI_SIZE = 16 * MIB  # below the top, where files are placed
ABOVE = 4 << 30

# What the kernel is told: that it verifies tables at once, stays where it is put, starts one processor, and keeps its whole log; and that it
# doesn't try out the timer, which it takes for broken where the machine around it is too busy to let it tick.
WORDS = "console=ttyS0 acpi_force_table_verification nokaslr maxcpus=1 log_buf_len=1M panic=-1 no_timer_check tsc=unstable mitigations=off"

# The stub, which has the last bytes of the image: from here on code, and a jump to it where the processor begins (0xFFFFFFF0).
STUB_SIZE, JUMP_SIZE = 256, 16
CODE, DATA = 0x10, 0x18  # the segments that the boot protocol asks for
FLAT = struct.pack("<QQQQ", 0, 0, 0x00CF9B000000FFFF, 0x00CF93000000FFFF)

# Registers of a q35's chipset (Intel, ICH9 and 3-series datasheets): of the host bridge, and of the bridge to ISA.
PCIEXBAR, PMBASE, ACPI_CNTL = 0x80000060, 0x8000F840, 0x8000F844
ECAM_SIZES = {256: 0, 128: 2, 64: 4}  # by how many buses it has
ACPI_ENABLED = 0x80

INTERPRETER = 3  # the type of the part of a program that names what links it (ELF, PT_INTERP)

# Types of ranges in the kernel's memory map.
RAM, RESERVED, ACPI = 1, 2, 3

# The script. It brings nothing with it but busybox, and reads small files without a process for each.
SCRIPT = r"""#!/bin/busybox sh
busybox=/bin/busybox
$busybox mkdir -p /proc /sys
$busybox mount -t proc proc /proc
$busybox mount -t sysfs sysfs /sys
$busybox dmesg -n 1
told() { echo "@@ $1"; read -r line 2>/dev/null <"$2" && echo "$line"; }
for file in /sys/firmware/acpi/tables/* /sys/firmware/dmi/tables/*; do
    [ -f "$file" ] || continue
    echo "@@ file ${file##*/}"
    $busybox base64 <"$file"
done
told present /sys/devices/system/cpu/present
for node in /sys/devices/system/node/node*; do told "distance ${node##*node}" "$node/distance"; done
for device in /sys/bus/pnp/devices/*; do
    told "pnp ${device##*/}" "$device/id"
    while read -r line; do echo "$line"; done <"$device/resources"
done
echo "@@ memory"
$busybox cat /proc/iomem
echo "@@ devices"
for device in /sys/bus/acpi/devices/*; do
    hid= path= uid=
    read -r hid 2>/dev/null <"$device/hid"
    read -r path 2>/dev/null <"$device/path"
    read -r uid 2>/dev/null <"$device/uid"
    echo "$hid $path $uid"
done
for device in /sys/bus/pci/devices/*; do
    case $device in *:00.? | *:1f.?) continue ;; esac # the chipset's own
    echo 1 2>/dev/null >"$device/enable"
    told "pci ${device##*/}" "$device/irq"
done
echo "@@ log"
$busybox dmesg
echo "@@ end"
while :; do $busybox sleep 60; done
"""


class CantBoot(Exception):
    """The dump or the description is none that a machine can be made of."""


class NoBoot(Exception):
    """The kernel didn't come to the end of the script."""


def busybox_bytes():
    """The program busybox, or None where there is none that needs no library, as Debian's busybox-static has one."""
    found = shutil.which("busybox")
    program = pathlib.Path(found).read_bytes() if found else b""
    return program if program and not needs_libraries(program) else None


def needs_libraries(program):
    """Whether a program of ELF names another one that links it to libraries."""
    start, size, count = number_at(program, 32, 8), number_at(program, 54, 2), number_at(program, 56, 2)
    return any(number_at(program, start + size * place, 4) == INTERPRETER for place in range(count))


def missing_tools():
    missing = [] if shutil.which(PROGRAM) else [PROGRAM]
    return missing if busybox_bytes() else [*missing, "busybox, without libraries,"]


# What is put into memory.

def stub(writes, parameters, entry):
    """The stub: it makes writes to configuration space, and enters the kernel. It begins where the processor is in 16-bit mode."""
    start = 0x100000000 - STUB_SIZE
    pointer = start + len(FLAT)
    real = pointer + 6
    lgdt = b"\xfa\x2e\x66\x0f\x01\x16" + (pointer & 0xFFFF).to_bytes(2, "little")
    protect = b"\x66\xb8\x11\x00\x00\x00\x0f\x22\xc0"  # CR0
    wide = real + len(lgdt) + len(protect) + 8
    far = b"\x66\xea" + struct.pack("<IH", wide, CODE)
    segments = b"\x66\xb8" + DATA.to_bytes(2, "little") + b"\x8e\xd8\x8e\xc0\x8e\xd0"
    configured = b"".join(configured_by(register, number) for register, number in writes)
    entered = b"\xbe" + parameters.to_bytes(4, "little") + b"\x31\xdb\x31\xed\x31\xff" + b"\xb8" + entry.to_bytes(4, "little") + b"\xff\xe0"
    code = FLAT + struct.pack("<HI", len(FLAT) - 1, start) + lgdt + protect + far + segments + configured + entered
    jump = b"\xe9" + struct.pack("<h", (real & 0xFFFF) - 0xFFF3)
    return code.ljust(STUB_SIZE - JUMP_SIZE, b"\0") + jump.ljust(JUMP_SIZE, b"\0")


def configured_by(register, number):
    """Has 0xCF8 select a register of configuration space, and 0xCFC take a number."""
    return b"\xb8" + struct.pack("<I", register) + b"\xba\xf8\x0c\x00\x00\xef\xb8" + struct.pack("<I", number) + b"\xba\xfc\x0c\x00\x00\xef"


def chipset_writes(machine):
    bridge, power = machine.get("bridge", {}), machine["power"]
    ecam = bridge.get("ecam", 0)
    if ecam:
        buses = bridge.get("last_bus", 255) + 1
        if buses not in ECAM_SIZES or ecam >= ABOVE:
            raise CantBoot(f"a q35 has no configuration space of {buses} buses at {ecam:#x}")
        yield PCIEXBAR, ecam | ECAM_SIZES[buses] | 1
    yield PMBASE, power["event"] | 1
    yield ACPI_CNTL, ACPI_ENABLED


def bios_image(memory, machine):
    """The dump's bytes from 0xE0000 on, with the stub in fill bytes at their end."""
    image = bytes_of(memory, BIOS, BIOS_END)
    if image[-STUB_SIZE:] != memory.fill[:1] * STUB_SIZE:
        raise CantBoot(f"a file stands in the last {STUB_SIZE} bytes below 1 MiB, where the stub has to be")
    return image[:-STUB_SIZE] + stub([*chipset_writes(machine)], PARAMETERS, KERNEL)


def above_of(machine):
    """Where memory above 4 GiB ends, by the description."""
    ends = [(memory["base_mib"] + memory["size_mib"]) * MIB for memory in machine.get("range", [])]
    return max([ABOVE, *ends])


def memory_map(memory, machine):
    """The ranges of addresses that a PC's firmware would tell, of which the description's tables say nothing."""
    bridge = machine.get("bridge", {})
    ecam, buses = bridge.get("ecam", 0), bridge.get("last_bus", 255) + 1
    yield 0, LOW_END, RAM
    yield BIOS, BIOS_END, RESERVED
    yield BIOS_END, memory.top - ACPI_SIZE, RAM
    yield memory.top - ACPI_SIZE, memory.top, ACPI
    if ecam:
        yield ecam, ecam + buses * MIB, RESERVED
    if above_of(machine) > ABOVE:
        yield ABOVE, above_of(machine), RAM


def bytes_of(memory, start, end):
    """The memory's bytes in a range of multiples of 16."""
    content = bytearray(memory.fill * ((end - start) // 16))
    for address, row in memory.rows.items():
        if start <= address < end:
            content[address - start : address - start + 16] = row
    return bytes(content)


def version_of(kernel):
    """The version that a kernel's image tells."""
    if kernel[0x202:0x206] != b"HdrS":
        raise CantBoot("the kernel is no image of the boot protocol")
    start = 0x200 + number_at(kernel, 0x20E, 2)
    return kernel[start : kernel.index(b"\0", start)].decode("latin-1").partition(" ")[0]


def kernel_parts(kernel):
    """The head of a kernel's image, whose fields go into the parameters, and its part for 32-bit mode."""
    sectors = kernel[0x1F1] or 4
    return kernel[0x1F1 : 0x202 + kernel[0x201]], kernel[512 * (sectors + 1) :]


def parameters(head, ranges, files_size):
    """The kernel's parameters (Linux, Documentation/x86/zero-page.rst)."""
    page = bytearray(0x1000)
    page[0x1F1 : 0x1F1 + len(head)] = head
    page[0x210] = 0xFF  # the kind of the loader: none that has a number
    struct.pack_into("<I", page, 0x214, KERNEL)
    struct.pack_into("<II", page, 0x218, FILES, files_size)
    struct.pack_into("<I", page, 0x228, COMMAND_LINE)
    page[0x1E8] = len(ranges)
    for place, (start, end, kind) in enumerate(ranges):
        struct.pack_into("<QQI", page, 0x2D0 + 20 * place, start, end - start, kind)
    return bytes(page)


def archive(files):
    """The first files as an archive of the kind newc (Linux, Documentation/driver-api/early-userspace/buffer-format.rst)."""
    return b"".join(archived(name, mode, content) for name, mode, content in [*files, ("TRAILER!!!", 0, b"")])


def archived(name, mode, content):
    name = name.encode() + b"\0"
    numbers = [0, mode, 0, 0, 1, 0, len(content), 0, 0, 0, 0, len(name), 0]
    head = b"070701" + b"".join(b"%08X" % number for number in numbers) + name
    return head + bytes(-len(head) % 4) + content + bytes(-len(content) % 4)


def first_files(busybox):
    return archive([("bin", 0o040755, b""), ("bin/busybox", 0o100755, busybox), ("init", 0o100755, SCRIPT.encode())])


def pieces_of(memory, machine, kernel):
    """All that QEMU puts into memory: addresses and bytes."""
    head, code = kernel_parts(kernel)
    files = first_files(busybox_bytes())
    upper = memory.top - UPPER_WINDOW_SIZE
    yield 0, bytes_of(memory, 0, LOW_END)
    yield PARAMETERS, parameters(head, [*memory_map(memory, machine)], len(files))
    yield COMMAND_LINE, WORDS.encode() + b"\0"
    yield KERNEL, code
    yield FILES, files
    yield upper, bytes_of(memory, upper, memory.top)


# The machine.

def options_of(memory, machine, devices, folder):
    """The words of QEMU for a machine of so much memory, with these devices."""
    size = memory.top + above_of(machine) - ABOVE
    ports = ["-serial", "stdio", *(["-serial", "null"] * (len(machine.get("uart", [])) - 1))]
    loaded = [word for file in sorted(folder.glob("0x*")) for word in ("-device", f"loader,file={file},addr={file.name},force-raw=on")]
    return [
        *["-machine", f"q35,acpi=off,max-ram-below-4g={memory.top}", "-accel", "tcg,thread=single", "-m", f"{size // MIB}M"],
        *["-nodefaults", "-no-user-config", "-display", "none", "-monitor", "none", "-no-reboot"],
        *["-bios", str(folder / "bios"), *ports, *loaded],
        *(word for device in devices for word in ("-device", device)),
    ]


def put_files(memory, machine, kernel, folder):
    """Has the firmware's image and all else that is put into memory stand in files of a folder."""
    if not LEAST_TOP <= memory.top <= MOST_TOP:
        raise CantBoot(f"the top of memory isn't {LEAST_TOP // MIB} to {MOST_TOP // MIB} MiB")
    (folder / "bios").write_bytes(bios_image(memory, machine))
    for address, content in pieces_of(memory, machine, kernel):
        (folder / f"{address:#x}").write_bytes(content)


def printed_by(command):
    """What a machine prints until the script ends. The machine is ended then, or when it has taken too long."""
    end = time.monotonic() + SECONDS
    with subprocess.Popen(command, stdin=subprocess.DEVNULL, stdout=subprocess.PIPE, stderr=subprocess.STDOUT) as process:
        try:
            return read_until_end(process.stdout, end)
        finally:
            process.kill()


def read_until_end(stream, end):
    said = b""
    with selectors.DefaultSelector() as selector:
        selector.register(stream, selectors.EVENT_READ)
        while b"\n@@ end" not in said[-64:]:
            if not selector.select(max(end - time.monotonic(), 0)):
                raise NoBoot(f"it takes more than {SECONDS} seconds; last it printed {last_lines(said)}")
            more = os.read(stream.fileno(), 1 << 16)
            if not more:
                raise NoBoot(f"the machine ended; last it printed {last_lines(said)}")
            said += more
    return said.decode("latin-1").replace("\r", "")


def last_lines(said):
    return " | ".join(said.decode("latin-1").replace("\r", "").splitlines()[-5:])


def sections_of(said):
    """The sections that the script prints, by name."""
    sections = {}
    for part in ("\n" + said).split("\n@@ ")[1:]:
        name, *lines = part.splitlines()
        sections[name] = lines
    return sections


def booted(memory, machine, kernel, devices, folder):
    """Boots the kernel on a memory with devices, working in an empty folder, and returns the sections that its guest prints."""
    put_files(memory, machine, kernel, folder)
    return sections_of(printed_by([PROGRAM, *options_of(memory, machine, devices, folder)]))
