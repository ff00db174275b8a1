#!/usr/bin/env python3
"""Tells to how many of K shards the items of stores go: of their number, and of their bytes.

    spread.py K STORE..

Beside it what they would go to if a segment went to its own node's shard alone, and each statement that it quotes to its sender's, as an
item of its own: 1 byte, the node in 4, the number in 8, the hash in 32, and the signature behind its length in 4.
"""

import os
import sys

TOP = os.path.dirname(os.path.dirname(os.path.abspath(__file__)))
sys.path.insert(0, f"{TOP}/second_opinion")
sys.dont_write_bytecode = True

from check import Reader, quote_of, read_item


def items_of(store):
    reader = Reader(store)
    reader.take(8)
    items = [reader.sized(2**32) for _ in range(reader.number(8))]
    reader.end()
    return items


def main():
    count, items = int(sys.argv[1]), set()
    for name in sys.argv[2:]:
        with open(name, "rb") as file:
            items.update(items_of(file.read()))
    copies = copied = extracts = extracted = size = longest = 0
    shards = [0] * count
    for text in items:
        item = read_item(text)
        quotes = [quote for quote in map(quote_of, getattr(item, "entries", [])) if quote is not None]
        own = {node % count for node in item.nodes}
        all_named = own | {quote.sender % count for quote in quotes}
        others = [quote for quote in quotes if quote.sender % count not in own]
        size, copies, copied = size + len(text), copies + len(all_named), copied + len(all_named) * len(text)
        extracts, extracted = extracts + len(own) + len(others), extracted + len(own) * len(text) + sum(49 + len(quote.signature) for quote in others)
        longest = max(longest, len(quotes))
        for shard in all_named:
            shards[shard] += len(text)
    print(f"{len(items)} items, {size} bytes, {longest} quotes in a segment at most; {count} shards")
    print(f"whole: {copies / len(items):.2f} of the items, {copied / size:.2f} of the bytes; the largest shard {max(shards) * count / sum(shards):.2f} times the mean")
    print(f"extracts: {extracts / len(items):.2f} of the items, {extracted / size:.2f} of the bytes")


if __name__ == "__main__":
    main()
