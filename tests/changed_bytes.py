#!/usr/bin/env python3
"""Changes each byte of a small volume in a folder, one by one, and recovers: the damage that is told, or what is listed, has to be what
docs/FORMATS.md says of such bytes. What it says is written here a second time, for this one volume.

usage: changed_bytes.py PROGRAM"""

import os
import subprocess
import sys
import tempfile
from concurrent.futures import ThreadPoolExecutor

BLOCKS = 4
HEAD = f"trail AUX1\nvolume $DATA1 AUX1\nfile ACCT $DATA1 {BLOCKS}\n"
MAKE = HEAD + "format\nrun\nworker\nbegin\nput ACCT k1 v1\nput ACCT k5 v22\nput ACCT a x\ncommit\nend\nrecover\n"
READ = HEAD + "recover\nlist ACCT\n"
# What the disc's trail has: positions 1 to 3, all committed.
CHANGES = [(b"k1", b"v1"), (b"k5", b"v22"), (b"a", b"x")]
LABEL, DATA = "5/1", "5/2"
SLOT = 4096


def number(bytes_, at, size):
    return int.from_bytes(bytes_[at : at + size], "big")


def block_of(key):
    place = 0
    for byte in key:
        place = (place * 31 + byte) % 65521
    return place % BLOCKS


def first(wrong):
    """The least offset, if there is one."""
    return min(wrong, default=None)


def wrong_in_label(slot):
    """The first offset at which a label is not that of this volume: the first byte that differs, or a number that is out of its range."""
    wanted = bytearray(256)
    wanted[0:4] = 1, 1, 1, 1
    wanted[8:16] = slot[8:16]
    wanted[16:20] = 1, 0, 0, BLOCKS
    wrong = [at for at in range(256) if slot[at] != wanted[at]]
    if not 1 <= number(slot, 8, 8) <= 2**62:
        wrong.append(8)
    if not 1 <= number(slot, 18, 2) <= 256:
        wrong.append(18)
    return first(wrong)


def text_of(field, length, at):
    """The wrong offsets of a key or a value in its field: a byte that is not printable, or one behind it that is not zero."""
    return [at + n for n, byte in enumerate(field) if (n < length and not 0x21 <= byte <= 0x7E) or (n >= length and byte != 0)]


def wrong_in_block(slot, of):
    """The first offset at which a block is not one that may stand in this place, and its records."""
    wrong = [at for at in (1, 3, 6, 7, *range(18, 128)) if slot[at] != 0]
    wrong += [at for at, byte in ((0, 1), (2, 1)) if slot[at] != byte]
    if number(slot, 4, 2) != of:
        wrong.append(4)
    count, records, before = number(slot, 16, 2), {}, b""
    if count > 62:
        wrong.append(16)
    for n in range(62):
        at = 128 + 64 * n
        if n >= count:
            wrong += [at + m for m in range(64) if slot[at + m] != 0]
            continue
        key_length, value_length = slot[at], slot[at + 1]
        key, value = slot[at + 8 : at + 24], slot[at + 24 : at + 64]
        wrong += [at] * (not 1 <= key_length <= 16) + [at + 1] * (not 1 <= value_length <= 40)
        wrong += [at + m for m in range(2, 8) if slot[at + m] != 0]
        wrong += text_of(key, min(key_length, 16), at + 8) + text_of(value, min(value_length, 40), at + 24)
        key, value = key[:key_length], value[:value_length]
        # What is no key lives in no block.
        is_key = 1 <= key_length <= 16 and all(0x21 <= byte <= 0x7E for byte in key)
        if key <= before or (is_key and block_of(key) != of):
            wrong.append(at + 8)
        records[key], before = value, key
    return first(wrong), records


def awaited(label, data):
    """What a recovery and a listing print over these bytes."""
    told = ["1 start 1", "2 commit 1.1.1.1", "3 start 2"]
    if label[0] != 1:
        return told + ["lost $DATA1", "recovered 3", "list ACCT not up"]
    at = 512 if label[1] == 1 else 256
    wrong = wrong_in_label(label[at : at + 256])
    if wrong is not None:
        return [f"recover damaged $DATA1 1 {at + wrong} label", "list ACCT not up"]
    low, records = number(label, at + 8, 8), {}
    for of in range(BLOCKS):
        at = 256 + 2 * SLOT * of + SLOT * (data[of] == 1)
        wrong, found = wrong_in_block(data[at : at + SLOT], of)
        if wrong is not None:
            return [f"recover damaged $DATA1 2 {at + wrong} block", "list ACCT not up"]
        records |= found
    records |= dict(CHANGES[max(low, 1) - 1 :])
    lines = [f"ACCT {key.decode()} {records[key].decode()}" for key in sorted(records)]
    return told + ["recovered 3", *lines, f"listed ACCT {len(lines)}"]


def files_of(folder):
    found = {}
    for at, _, names in os.walk(folder):
        for name in names:
            with open(os.path.join(at, name), "rb") as it:
                found[os.path.relpath(os.path.join(at, name), folder)] = it.read()
    return found


def run(program, folder, script):
    ran = subprocess.run([program, "run", "--dir", folder], input=script.encode(), capture_output=True, check=False, timeout=60)
    return ran.stdout.decode().splitlines()


def changed(byte, at):
    """Another byte: a zero becomes 1, and of another one bit is turned."""
    return 1 if byte == 0 else byte ^ (1 << at % 8)


def wrong_of(program, room, made, places):
    """What is said of each of these places whose change was not answered as it has to be."""
    said = []
    with tempfile.TemporaryDirectory(dir=room) as folder:
        for name, at in places:
            files = dict(made)
            content = bytearray(files[name])
            content[at] = changed(content[at], at)
            files[name] = bytes(content)
            for file, bytes_ in files.items():
                os.makedirs(os.path.dirname(os.path.join(folder, file)), exist_ok=True)
                with open(os.path.join(folder, file), "wb") as it:
                    it.write(bytes_)
            found, wanted = run(program, folder, READ), awaited(files[LABEL], files[DATA])
            if found != wanted:
                said.append(f"byte {at} of {name}, {made[name][at]} made {content[at]}: prints {found}, and {wanted} is wanted")
    return said


def main(program):
    # Memory alone, where there is such a folder: a recovery waits for the device at each write.
    with tempfile.TemporaryDirectory(dir="/dev/shm" if os.path.isdir("/dev/shm") else None) as room:
        folder = os.path.join(room, "node")
        run(program, folder, MAKE)
        made = files_of(folder)
        # Of the data file the selectors, and both slots of the block that has two records.
        begin = 256 + 2 * SLOT * block_of(b"k1")
        places = [(LABEL, at) for at in range(len(made[LABEL]))]
        places += [(DATA, at) for at in (*range(256), *range(begin, begin + 2 * SLOT))]
        lanes = os.cpu_count() or 1
        with ThreadPoolExecutor(lanes) as pool:
            said = [it for lane in pool.map(lambda n: wrong_of(program, room, made, places[n::lanes]), range(lanes)) for it in lane]
    print(*said, sep="\n", end="\n" if said else "")
    print(f"changed bytes: {len(places)} tried, {len(said)} wrong")
    return 1 if said or not places else 0


if __name__ == "__main__":
    sys.exit(main(*sys.argv[1:]))
