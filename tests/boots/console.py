"""Starts U-Boot under qemu, and gives it commands by its serial console. console.py U_BOOT IMAGES COMMANDS ANSWERS:

- U_BOOT is U-Boot for qemu's machine `virt` with a processor of 64 bits. The processor is emulated.
- IMAGES is a directory. Each of its files is in the machine's memory, at a multiple of 1 MiB.
- COMMANDS has a line for each command: a name and the command. `@FILE` in a command stands for the address of this file, in hexadecimal.
- ANSWERS is a directory. What U-Boot printed for a command is in the file of its name there, and after that a line `status N`. If the
  machine was switched off instead, this line is `off`.

The command is given when U-Boot waits for one. Fails if U-Boot does not answer within a minute of its start, or if the machine was
switched off before the last command.
"""

import os
import re
import select
import subprocess
import sys
import time

SECONDS = 60
FIRST_ADDRESS = 0x42000000
MIB = 1 << 20
MACHINE = "-M virt -cpu cortex-a57 -m 256M -accel tcg -nodefaults -display none -monitor none -serial stdio -no-reboot"


def addresses(directory):
    """The address of each file of a directory."""
    placed, address = {}, FIRST_ADDRESS
    for name in sorted(os.listdir(directory)):
        placed[name] = address
        address += -(-os.path.getsize(os.path.join(directory, name)) // MIB) * MIB
    return placed


class Console:
    """The serial console of a machine that is started. `is_on` is false when all was read and the machine was switched off."""

    def __init__(self, u_boot, directory, placed):
        self.end = time.monotonic() + SECONDS
        self.unread = b""
        self.is_on = True
        loaders = [f"loader,file={directory}/{name},addr={address:#x},force-raw=on" for name, address in placed.items()]
        words = ["timeout", str(SECONDS + 10), "qemu-system-aarch64", *MACHINE.split(), "-bios", u_boot]
        words += [word for loader in loaders for word in ("-device", loader)]
        self.qemu = subprocess.Popen(words, stdin=subprocess.PIPE, stdout=subprocess.PIPE)

    def read_to(self, pattern):
        """What is printed up to the end of this pattern, or up to the end if the machine is switched off before."""
        while not (found := re.search(pattern, self.unread, re.M)):
            ready, _, _ = select.select([self.qemu.stdout], [], [], max(0, self.end - time.monotonic()))
            if not ready:
                sys.exit(f"no answer within {SECONDS} s:\n{self.unread.decode(errors='replace')}")
            printed = os.read(self.qemu.stdout.fileno(), 1 << 16)
            self.unread += printed
            if not printed:
                self.is_on = False
                break
        end = found.end() if found else len(self.unread)
        printed, self.unread = self.unread[:end], self.unread[end:]
        return printed.decode(errors="replace").replace("\r", "")

    def write(self, text):
        self.qemu.stdin.write(text.encode())
        self.qemu.stdin.flush()

    def start(self):
        """Reads to the first prompt. A key keeps U-Boot from starting what it finds by itself."""
        printed = self.read_to(rb"stop autoboot")
        if self.is_on:
            self.write("\n")
            printed += self.read_to(rb"^=> $")
        if not self.is_on:
            sys.exit(f"U-Boot does not start:\n{printed}")

    def answer(self, command):
        """The lines that U-Boot prints for a command. The echo of the command and the next prompt are left out."""
        self.write(f"{command}; echo status $?\n")
        lines = self.read_to(rb"^status \d+\s+^=> $").split("\n")
        return lines[1:-1] if self.is_on else [*lines[1:], "off"]

    def stop(self):
        self.qemu.terminate()
        self.qemu.wait()


def main(u_boot, directory, path, answers):
    with open(path) as file:
        commands = [line.rstrip("\n").split(" ", 1) for line in file]
    placed = addresses(directory)
    console = Console(u_boot, directory, placed)
    try:
        console.start()
        for name, command in commands:
            if not console.is_on:
                sys.exit(f"switched off before {command}, by:\n{text}")
            lines = console.answer(re.sub(r"@([\w.-]+)", lambda match: f"{placed[match[1]]:x}", command))
            text = "".join(f"{line}\n" for line in lines)
            with open(os.path.join(answers, name), "w") as file:
                file.write(text)
    finally:
        console.stop()


if __name__ == "__main__":
    main(*sys.argv[1:])
