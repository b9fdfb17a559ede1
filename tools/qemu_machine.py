"""A machine of QEMU that runs for a while at a time and otherwise stands still, so that what its guest has can be read: what
qemu_files.py and the judge of a guest's memory share.

Its processors are let run and stopped over QMP (QEMU's docs/interop/qmp-spec). Its memory and its ports are read by qtest. An item of its
fw_cfg device is read as docs/specs/fw_cfg has it: it is selected by a write to port 0x510, and each read of port 0x511 gives its next byte;
item 0x0019 is the directory. Whether the guest may write a file is found by having the device take the file's first byte from the guest's
memory, where it stands unchanged, by DMA: for a file that may only be read the device sets the error bit.
"""

import json
import shutil
import socket
import struct
import subprocess
import time

from fw_cfg_files import directory_size
from memory_dump import byte_sum

PROGRAM = "qemu-system-x86_64"

# What the machines are asked to have. The q35 has a generation identifier, whose script commands and writable file others lack.
MACHINES = {
    "pc": ["-machine", "pc"],
    "q35": ["-machine", "q35", "-smp", "4", "-device", "vmgenid,guid=6f1a5e0c-2b4d-4c7e-9a38-0d5c1b7e42f9"],
}

# Machines that give their firmware no SMBIOS files, or no script: their memory alone is of use.
OTHERS = {"isapc": ["-machine", "isapc"], "microvm": ["-machine", "microvm,acpi=on", "-smp", "2"]}

STOPPED = ["-S", "-accel", "tcg", "-display", "none", "-nodefaults", "-no-user-config", "-monitor", "none"]
DRIVEN = ["-qtest", "stdio", "-qtest-log", "none", "-mon", "chardev=control,mode=control"]

SECONDS = 40  # after which the machine is ended, whatever it does
FIRMWARE_SECONDS = 20  # that the firmware gets
PAUSE = 0.2  # seconds that the machine runs before it is looked at again

SELECT_PORT, BYTE_PORT, DMA_HIGH_PORT, DMA_LOW_PORT = 0x510, 0x511, 0x514, 0x518
DIRECTORY = 0x0019
DMA_ERROR, DMA_SELECT, DMA_WRITE = 0x01, 0x08, 0x10

# Where in the guest's memory a DMA descriptor stands, and the byte that it has the device take. Both are put back.
DESCRIPTOR, DESCRIPTOR_SIZE, BYTE = 0x1000, 16, 0x2000

F_SEGMENT, F_SEGMENT_SIZE = 0xF0000, 0x10000

# What a firmware places last, by how it begins, and how many of its bytes sum to zero: the root pointer (ACPI 6.5, 5.2.5) or, of a machine without ACPI
# tables, the old SMBIOS anchor (DSP0134 3.0.0, 5.2.1).
RSDP, OLD_ANCHOR = (b"RSD PTR ", 20), (b"_SM_", 31)
PLACED_LAST = {"isapc": OLD_ANCHOR}

# So many lines are sent before their answers are read; they and their answers fit into a pipe.
LINES_AT_ONCE = 1024


class NoAnswer(Exception):
    pass


class Machine:
    """A machine with the options of one of MACHINES or OTHERS and more. It stands still but in `run`, and is ended where `with` ends."""

    def __init__(self, name, options, seconds=SECONDS):
        self.seconds = seconds
        self.placed_last = PLACED_LAST.get(name, RSDP)
        if shutil.which(PROGRAM) is None:
            raise NoAnswer(f"{PROGRAM} isn't installed")
        ours, theirs = socket.socketpair()
        handle = theirs.fileno()
        driven = [*DRIVEN, "-chardev", f"socket,id=control,fd={handle}"]
        command = ["timeout", "--kill-after=5", str(seconds), PROGRAM, *STOPPED, *driven, *{**MACHINES, **OTHERS}[name], *options]
        with ours, theirs:
            self.process = subprocess.Popen(
                command, stdin=subprocess.PIPE, stdout=subprocess.PIPE, pass_fds=[handle], text=True
            )
            self.control = ours.makefile("rw")

    def __enter__(self):
        return self

    def __exit__(self, *_):
        self.process.terminate()
        self.process.communicate()

    def send(self, stream, text):
        try:
            stream.write(text)
            stream.flush()
        except ConnectionError as refusal:
            raise NoAnswer(self.ending()) from refusal

    def receive(self, stream):
        """The next line, which ends in a line feed."""
        try:
            line = stream.readline()
        except ConnectionError:
            line = ""
        if not line.endswith("\n"):
            raise NoAnswer(self.ending())
        return line

    def ending(self):
        status = self.process.wait()
        return f"it takes more than {self.seconds} seconds" if status in (124, 137) else f"it ended with status {status}"

    def command(self, name, **arguments):
        """Has QEMU carry out a command of QMP. What it says of itself and of events is passed over."""
        self.send(self.control, json.dumps({"execute": name, "arguments": arguments}) + "\n")
        while "return" not in (reply := json.loads(self.receive(self.control))):
            if "error" in reply:
                raise NoAnswer(f"{name!r} is answered {reply['error']}")

    def run(self):
        """Lets the machine run for a PAUSE."""
        self.command("cont")
        time.sleep(PAUSE)
        self.command("stop")

    def run_firmware(self):
        """Lets the firmware run until it has placed what it places last, and summed it up."""
        self.run_until(self.has_placed_last, f"its firmware has left no {self.placed_last[0].decode().strip()} in the F segment")

    def run_until(self, is_done, else_says, seconds=FIRMWARE_SECONDS):
        """Lets the machine run, for the first time, until something holds."""
        self.command("qmp_capabilities")
        end = time.monotonic() + seconds
        while not is_done():
            if time.monotonic() > end:
                raise NoAnswer(f"{else_says} after {seconds} seconds")
            self.run()

    def has_placed_last(self):
        mark, size = self.placed_last
        segment = self.read_memory(F_SEGMENT, F_SEGMENT_SIZE)
        found = (segment[at : at + size] for at in range(0, F_SEGMENT_SIZE, 16))
        return any(anchor.startswith(mark) and byte_sum(anchor) == 0 for anchor in found)

    def ask(self, *lines):
        """What qtest answers to each line behind its OK."""
        self.send(self.process.stdin, "".join(f"{line}\n" for line in lines))
        return [self.answer(line) for line in lines]

    def answer(self, line):
        said = self.receive(self.process.stdout)
        while said.startswith("IRQ"):
            said = self.receive(self.process.stdout)
        if not said.startswith("OK"):
            raise NoAnswer(f"{line!r} is answered {said!r}")
        return said[2:].strip()

    def read_memory(self, address, size):
        (answer,) = self.ask(f"read {address:#x} {size:#x}")
        return bytes.fromhex(answer.removeprefix("0x"))

    def save_memory(self, address, size, file):
        """Has the monitor write bytes of memory into a file, as `pmemsave` does by hand."""
        self.command("pmemsave", val=address, size=size, filename=str(file))

    def write_memory(self, address, content):
        self.ask(f"write {address:#x} {len(content):#x} 0x{content.hex()}")

    def read_item(self, selector, size):
        self.ask(f"outw {SELECT_PORT:#x} {selector:#x}")
        content = b""
        while len(content) < size:
            lines = [f"inb {BYTE_PORT:#x}"] * min(LINES_AT_ONCE, size - len(content))
            content += bytes(int(answer, 16) for answer in self.ask(*lines))
        return content

    def read_directory_item(self):
        count = int.from_bytes(self.read_item(DIRECTORY, 4), "big")
        return self.read_item(DIRECTORY, directory_size(count))

    def is_writable(self, selector, size):
        if size == 0:
            return False
        descriptor, byte = self.read_memory(DESCRIPTOR, DESCRIPTOR_SIZE), self.read_memory(BYTE, 1)
        self.write_memory(BYTE, self.read_item(selector, 1))
        control = self.transfer(selector << 16 | DMA_SELECT | DMA_WRITE, 1, BYTE)
        self.write_memory(DESCRIPTOR, descriptor)
        self.write_memory(BYTE, byte)
        return control & DMA_ERROR == 0

    def transfer(self, control, length, address):
        """Has the device carry out a transfer; returns the control word that it leaves."""
        self.write_memory(DESCRIPTOR, struct.pack(">IIQ", control, length, address))
        self.ask(f"outl {DMA_HIGH_PORT:#x} 0", f"outl {DMA_LOW_PORT:#x} {high_byte_first(DESCRIPTOR):#x}")
        return int.from_bytes(self.read_memory(DESCRIPTOR, 4), "big")


def high_byte_first(number):
    return int.from_bytes(number.to_bytes(4, "big"), "little")
