"""What the processes of the network share: frames over TCP on loopback, links that lose, repeat, reorder and delay them, and whom items are
of and for."""

import asyncio
import random
import struct
from collections import Counter

HOST = "127.0.0.1"
# What a frame asks for: a message or an audit answered, items taken, a message that nobody acknowledges taken, an outline, a pack against
# a summary, a report, the export, an end
ANSWER, TAKE, CHALLENGE, OUTLINE, PACK, REPORT, EXPORT, END = b"ATCOPRXE"
LONGEST_FRAME = 1 << 28
# the tags of items, the kinds of entries, and the kinds of records of a node's journal
SEGMENT, AUDIT, MESSAGE, ACK = 2, 3, 4, 5
SEND, RECV = 2, 3
RECEIVED, TICKED, ACKNOWLEDGED, REKEYED = 1, 2, 4, 5


# ---- frames: a length in four bytes, a letter, and the rest


async def read_frame(reader):
    length = int.from_bytes(await reader.readexactly(4), "big")
    if not 1 <= length <= LONGEST_FRAME:
        raise ConnectionError("a frame has no such length")
    return await reader.readexactly(length)


def framed(body):
    return len(body).to_bytes(4, "big") + body


class Link:
    """Asks others, over a network that loses, repeats, holds back and delays frames as it is told to. What is held back is overtaken. It
    counts the bytes of frames by what they are for."""

    def __init__(self, told):
        self.random = random.Random(told["seed_of_link"])
        self.lose, self.repeat, self.reorder, self.delay = (told[word] for word in ("lose", "repeat", "reorder", "delay"))
        self.frames, self.lost, self.bytes = 0, 0, Counter()

    async def ask(self, port, kind, body, purpose, wait=3.0):
        """The reply; or None where a frame was lost, or nobody answers in time."""
        again = self.random.random() < self.repeat
        replies = await asyncio.gather(*(self.once(port, kind, body, purpose, wait) for _ in range(1 + again)))
        return next((reply for reply in replies if reply is not None), None)

    async def once(self, port, kind, body, purpose, wait):
        held_back = 8 if self.random.random() < self.reorder else 1
        await asyncio.sleep(self.random.random() * self.delay * held_back)
        self.bytes[purpose] += 5 + len(body)
        if self.is_lost():
            return None
        reply = await asked(port, kind, body, wait)
        if reply is None:
            return None
        self.bytes[purpose] += 5 + len(reply)
        return None if self.is_lost() else reply

    def is_lost(self):
        self.frames += 1
        lost = self.random.random() < self.lose
        self.lost += lost
        return lost

    def counts(self):
        return {"frames": self.frames, "lost": self.lost, "bytes": dict(self.bytes)}


async def asked(port, kind, body=b"", wait=5.0):
    """A request and its reply over a connection of their own, with nothing lost on purpose."""
    try:
        reader, writer = await asyncio.wait_for(asyncio.open_connection(HOST, port), wait)
    except (OSError, asyncio.TimeoutError):
        return None
    try:
        writer.write(framed(bytes([kind]) + body))
        return (await asyncio.wait_for(read_frame(reader), wait))[1:]
    except (OSError, asyncio.TimeoutError, asyncio.IncompleteReadError):
        return None
    finally:
        writer.close()


async def serve(port, handle):
    """Answers each frame by what `handle` gives for its letter and its rest, and none where it gives None."""

    async def talk(reader, writer):
        try:
            frame = await read_frame(reader)
            reply = handle(frame[0], frame[1:])
            if reply is not None:
                writer.write(framed(frame[:1] + reply))
                await writer.drain()
        except (OSError, asyncio.IncompleteReadError):
            pass
        finally:
            writer.close()

    return await asyncio.start_server(talk, HOST, port)


# ---- items (docs/FORMATS.md): only whom they are of and for is picked out here; the library makes them, takes them apart and judges them


def with_length(data):
    return len(data).to_bytes(4, "big") + data


def field(item, at):
    """Bytes behind their length, and where they end."""
    length = int.from_bytes(item[at : at + 4], "big")
    return item[at + 4 : at + 4 + length], at + 4 + length


def in_turn(data):
    """The items of a frame, each behind its length."""
    at = 0
    while at < len(data):
        item, at = field(data, at)
        yield item


def items_of(pack):
    """The items of a pack, behind its first eight bytes and its count."""
    return in_turn(pack[16:])


def message_of(sender, receiver, seq_and_hash, signature, payload):
    """The item of a message, of its fields."""
    return bytes([MESSAGE]) + sender + receiver + seq_and_hash + with_length(signature) + with_length(payload)


class Message:
    """Of whom and for whom the message of an item of tag 4 or 5 is, its number, and its payload."""

    def __init__(self, item):
        self.name = self.sender, self.receiver, self.seq = struct.unpack(">IIQ", item[1:17])
        _, at = field(item, 49)
        self.payload, _ = field(item, at)


def received(record):
    """The message of a record of a receipt, behind the entropy and its length."""
    return record[37:]


def acknowledged(record, message_of):
    """The acknowledgement of a record of one: it has the message's number, and not the message."""
    return bytes([ACK]) + message_of(int.from_bytes(record[5:13], "big"))[1:] + record[13:]


def whose(statement):
    """The node and the number of an item of tag 1."""
    return struct.unpack(">IQ", statement[1:13])
