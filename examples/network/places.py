"""The processes of the network: each is begun, killed at times, and begun again."""

import asyncio
import json
import os
import signal
import sys

HERE = os.path.dirname(os.path.abspath(__file__))
# How long a process may take to begin, and to end
TO_BEGIN, TO_END = 120, 10


def environment():
    return {**os.environ, "PYTHONPATH": os.pathsep.join(it for it in sys.path if it)}


class Place:
    """A process, which is begun again whenever it was killed."""

    def __init__(self, script, told):
        self.script, self.told = script, told
        self.process, self.is_up, self.starts, self.kills = None, False, 0, 0

    async def spawn(self, age):
        """A process that is told what it is by its standard input, so no seed stands in a command line."""
        words, pipe = [sys.executable, os.path.join(HERE, self.script)], asyncio.subprocess.PIPE
        self.process = await asyncio.create_subprocess_exec(*words, stdin=pipe, stdout=pipe, env=environment())
        # A node begins once. Each start has other chances.
        told = {**self.told, "age": age, "may_begin": self.starts == 0, "seed_of_link": self.told["seed_of_link"] + 10**6 * self.starts}
        self.starts += 1
        self.process.stdin.write(json.dumps(told).encode())
        await self.process.stdin.drain()
        self.process.stdin.close()

    async def start(self, age):
        """Begins, and listens then."""
        await self.spawn(age)
        line = await asyncio.wait_for(self.process.stdout.readline(), TO_BEGIN)
        if line != b"ready\n":
            raise RuntimeError(f"{self.script} did not begin")
        self.is_up = True

    def has_failed(self):
        """Whether it has ended, and nobody killed it or told it to end."""
        return self.is_up and self.process.returncode is not None

    async def kill(self):
        self.is_up = False
        self.kills += 1
        try:
            self.process.send_signal(signal.SIGKILL)
        except ProcessLookupError:
            raise RuntimeError(f"{self.script} has ended by itself") from None
        await self.process.wait()

    async def kill_and_start(self, age_of, chance):
        """Kills it and begins it again after a while; at times it is killed once more while it begins."""
        await self.kill()
        await asyncio.sleep(chance.random())
        if chance.random() < 0.25:
            await self.spawn(age_of())
            await asyncio.sleep(chance.random() / 2)
            await self.kill()
        await self.start(age_of())

    async def end(self):
        """Waits until it has ended, after it was told to end."""
        if self.process is None:
            return
        try:
            await asyncio.wait_for(self.process.wait(), TO_END)
        except asyncio.TimeoutError:
            self.process.kill()
            await self.process.wait()
