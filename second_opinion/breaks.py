#!/usr/bin/env python3
"""Breaks check.py in one place after the other, in copies, and says which breaks compare.py does not see. Beside the gate: minutes.

    breaks.py [WORD..]      only the breaks that have one of these words
"""

import concurrent.futures
import os
import shutil
import subprocess
import sys
import tempfile

HERE = os.path.dirname(os.path.abspath(__file__))
TOP = os.path.dirname(HERE)
# What stands once in check.py, and what is put there
BREAKS = (
    # refusals and bytes
    ("23 BadMagic", "23 BadMagics"),
    ("if count > most:", "if count >= most:"),
    ("if self.at < len(self.text):", "if False:"),
    # signatures
    ("text[i * w // 8] >>", "text[i * w // 8] <<"),
    ("(lack << shift) & 0xFFFF", "lack & 0xFFFF"),
    ("ots_type != u32(key.ots_type) or ", ""),
    ("lms_type != u32(key.lms_type) or ", ""),
    (" or q >= 2**height:", ":"),
    ("return value == key.root", "return True"),
    # directories
    ("if count > MOST_NODES:", "if count > MOST_NODES + 1:"),
    ("if not 1 <= key_count <= MOST_KEYS:", "if not 1 <= key_count <= MOST_KEYS + 1:"),
    ("        if node in directory:\n            raise Refused(20)\n", ""),
    ("            known.add(key)\n", ""),
    ("and 1 <= text[0] < MOST_KEYS", "and text[0] < MOST_KEYS"),
    ("if split is None or split[0] >= len(keys):", "if split is None or not keys:"),
    # logs and items
    ("u8(entry.kind), sha256(entry.content))", "u8(entry.kind), entry.content)"),
    ("self.flaw = None if self.begins_log or self.entries[0].kind == CHECKPOINT else 47", "self.flaw = None"),
    ("it is not None and it.sender != self.node and is_signed", "it is not None and is_signed"),
    ("if flag and numbers[0] >= numbers[1]", "if flag and numbers[0] > numbers[1]"),
    (" and (segment.begins_log or len(self.statements) == 2)", ""),
    ("self.flaw = 45 if sender == self.node else None", "self.flaw = None"),
    ("self.statements.append(Statement(self.node, number, digest, signature))", "pass"),
    ("    if any(node not in directory for node in item.nodes):\n        raise Refused(44)\n", ""),
    # programs
    ("min(total + int.from_bytes(payload[1:], \"big\"), 2**64 - 1)", "(total + int.from_bytes(payload[1:], \"big\")) % 2**64"),
    ("len(payload) != 9 or payload[:1] != b\"A\"", "payload[:1] != b\"A\""),
    ("return count, to_next(me, u64(moment))", "return count + 1, to_next(me, u64(moment))"),
    ("and len(payload) >= 5:", "and len(payload) >= 6:"),
    ("if payload == b\"F\":", "if payload[:1] == b\"F\":"),
    ("if mail.to == sender]", "if mail.sender == sender]"),
    ("(b\"M\", b\"S\", b\"L\", b\"X\", b\"?\")", "(b\"M\", b\"S\", b\"L\", b\"X\")"),
    ("if len(mail.text) > self.longest_text:", "if len(mail.text) >= self.longest_text:"),
    ("if len(held.mails) >= self.most_mails:", "if len(held.mails) > self.most_mails:"),
    ("clock = max(held.clock, moment)", "clock = moment"),
    ("<= self.lifetime", "< self.lifetime"),
    ("held._replace(draft=b\"\"), [", "held, ["),
    ("wish[0x88 - kind :]", "wish[1:]"),
    ("if kind < 0x88 and len(draft)", "if len(draft)"),
    ("len(draft) <= self.longest_text", "len(draft) < self.longest_text"),
    # replay, a break for each line of its table
    ("lambda: not is_first and entry.number <= self.last", "lambda: not is_first and entry.number < self.last"),
    ("(kind, content) != (INIT, u32(self.me))", "kind != INIT"),
    ("(kind == INIT if not is_first else", "(False if not is_first else"),
    ("return len(content) != 8", "return len(content) < 8"),
    ("return not 4 <= len(content) <= 4 + LONGEST_PAYLOAD", "return len(content) > 4 + LONGEST_PAYLOAD"),
    ("(is_first and self.program.decode(content) is None)", "False"),
    ("lambda: kind == RECV and not is_genuine", "lambda: False"),
    ("lambda: self.awaited and kind != SEND", "lambda: False"),
    ("content != self.awaited[0]", "content[4:] != self.awaited[0][4:]"),
    ("content != self.program.encode(self.state)", "False"),
    ("(quote.sender, quote.number) in self.seen", "False"),
    ("if to in self.directory and to != self.me", "if to in self.directory"),
    ("if to in self.directory and", "if"),
    # proofs
    (" or not segment.rises:", ":"),
    ("if first <= statement.number <= last", "if first <= statement.number < last"),
    ("if statement.number + 1 == first", "if statement.number == first"),
    ("and statement.hash != segment.before", ""),
    ("if segment.begins_log and statement.number < first", "if statement.number < first"),
    ("if part and part[0] != tag:", "if False:"),
    ("one.statement[:2] != other.statement[:2]", "one.statement[0] != other.statement[0]"),
    # stores
    ("if body <= last:", "if body < last:"),
    ("check_item(directory, item)\n        items", "pass\n        items"),
    ("            self.held.update(quote.statement(segment.node) for quote in genuine)\n", ""),
    ("            self.received.update((quote.sender, segment.node, quote.number) for quote in genuine)\n", ""),
    ("return of_two | contradicted | ", "return of_two | "),
    ("return audits + [", "return audits or ["),
    # bundles, files and words
    ("\"#[ -~]*\"", "\"#.*\""),
    ("if len(lines) > front + len(FIELDS):", "if False:"),
    (" or (wanted == DIGITS and len(lines[place]) % 2)", ""),
    ("[a-z0-9_]{1,32}", "[a-z0-9_]*"),
    ("        raise Refused(131)", "        pass"),
    ("bundle 1\\n\"", "bundle 1\""),
    ("    if name not in PROGRAMS:\n        raise Refused(109, place)\n", ""),
    ("* (name != program)", "* 0"),
    ("* (directory[1] != own)", "* 0"),
    ("if len(data) < 8 or data[:8]", "if data[:8]"),
    (".strip(b\"0123456789abcdefABCDEF\")", ".strip(b\"0123456789abcdefABCDEF\\n\")"),
    ("if len(lines) > 2 or not lines[-1]:", "if not lines[-1]:"),
    ("if len(lines) > 2 or not lines[-1]:", "if len(lines) > 2:"),
    ("if len(lines) > most:", "if False:"),
    ("if len(line) % 2 or not", "if not"),
    ("    if len(texts) < 2:\n        raise Refused(104, files[0][0])\n", ""),
    ("if named and named[0][1] != directory:", "if named and named[0][1] == directory:"),
    ("if named and named[0][1] != directory:", "if False:"),
    ("    if not stores and not files:\n        raise Refused(104, place)\n", ""),
    ("for place, body in stores_of(stores, files, directory):", "for place, body in stores_of([], files, directory):"),
    ("texts_of(*others)[0] if others else None", "texts_of(*others)[0] if others and others[0][1]() else None"),
    ("last().startswith(b\"bulwynef\")", "last().startswith(b\"bulwynef bundle 2\")"),
    ("if words.program is None:", "if words.program is None and words.store:"),
    ("return 5 if others else 0", "return 0"),
    ("return 3 if \"exposed\"", "return 1 if \"exposed\""),
    ("under = [f\"program {name}\", f\"directory {sha256(directory).hex()}\"]", "under = []"),
)


def is_seen(text, folder, old, new):
    """Whether compare.py fails beside a copy of check.py that is broken so."""
    here = f"{folder}/second_opinion"
    os.makedirs(here)
    for name in os.listdir(TOP):
        if name not in ("second_opinion", ".git"):
            os.symlink(f"{TOP}/{name}", f"{folder}/{name}")
    for name in os.listdir(HERE):
        if name.endswith(".py"):
            shutil.copy(f"{HERE}/{name}", here)
    with open(f"{here}/check.py", "w", encoding="utf-8") as file:
        file.write(text.replace(old, new))
    done = subprocess.run([sys.executable, f"{here}/compare.py", "--first"], capture_output=True)
    return done.returncode != 0


def main():
    with open(f"{HERE}/check.py", encoding="utf-8") as file:
        text = file.read()
    breaks = [it for it in BREAKS if not sys.argv[1:] or any(word in it[0] for word in sys.argv[1:])]
    misplaced = [old for old, _ in breaks if text.count(old) != 1]
    if misplaced:
        sys.exit(f"these stand not once in check.py: {misplaced}")
    with tempfile.TemporaryDirectory() as folder, concurrent.futures.ThreadPoolExecutor(2) as pool:
        found = list(pool.map(lambda at: is_seen(text, f"{folder}/{at}", *breaks[at]), range(len(breaks))))
    unseen = [old for (old, _), seen in zip(breaks, found) if not seen]
    for old in unseen:
        print(f"not seen: {old}")
    print(f"{len(breaks) - len(unseen)} breaks of check.py are seen, {len(unseen)} are not")
    return 1 if unseen else 0


if __name__ == "__main__":
    sys.exit(main())
