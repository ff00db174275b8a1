"""A text that is answered takes no more than twice its size."""

import subprocess
import sys

from scene import TOP

SCRIPT = f"""
import sys

sys.path.insert(0, {TOP + "/checks/reference"!r})
from nodes import Key as Signer, entry_hash, u8, u32, u64
from bulwynef import Program, Store, directory

def item(key, number):
    payload, before = number.to_bytes(2, "big") * 32768, bytes(32)
    key.next_leaf = 0
    signature = key.sign(u64(number) + entry_hash(before, number, 2, u32(2) + payload), bytes(32))
    return u8(4) + u32(1) + u32(2) + u64(number) + before + u32(len(signature)) + signature + u32(len(payload)) + payload

def kept(word):
    with open("/proc/self/status") as file:
        return next(int(line.split()[1]) * 1024 for line in file if line.startswith(word))

keys = [Signer(1, 3), Signer(2, 3)]
store = Store(directory({{1: [keys[0].public()], 2: [keys[1].public()]}}), Program.TALLY)
for number in range(128):
    store.take(item(keys[0], number))
with open("/proc/self/clear_refs", "w") as file:
    file.write("5")
before = kept("VmRSS")
export = store.export()
print(len(export), kept("VmHWM") - before)
"""


def test_an_export_takes_no_more_than_twice_its_size():
    said = subprocess.run([sys.executable, "-c", SCRIPT], capture_output=True, text=True)
    assert said.returncode == 0, said.stderr
    length, most = map(int, said.stdout.split())
    assert length > 8_000_000
    assert most < 2.3 * length
