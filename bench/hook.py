"""A webhook receiver that keeps what it was told and when, and finds what it was told twice."""
import asyncio
import json
import re
import time

ANSWER = b"HTTP/1.1 200 OK\r\nContent-Length: 0\r\nConnection: close\r\n\r\n"
# How long a notice may take to come whole, in seconds.
PATIENCE = 10
# Notices that come within so many seconds are of one tick.
A_TICK = 0.5
# A tenant's replicas, each of which may come due at one tick.
REPLICAS = 3
# An outcome may be lost where an instance stops within so many seconds after the notice came.
AN_OUTCOME = 1.0


class Hook:
    """The receiver. A notice's path names its tenant."""

    def __init__(self):
        # When each notice came, by what it told.
        self.told = {}
        self.tenants = set()
        self.faults = []
        self.server = None

    async def open(self):
        """Gives the port."""
        self.server = await asyncio.start_server(self.take, "127.0.0.1", 0)
        return self.server.sockets[0].getsockname()[1]

    async def take(self, reader, writer):
        try:
            path, body = await asyncio.wait_for(read_notice(reader), PATIENCE)
            self.keep(path, json.loads(body))
            writer.write(ANSWER)
            await writer.drain()
        except (OSError, EOFError, ValueError, KeyError, TypeError) as error:
            self.faults.append(f"a notice isn't whole: {error!r}")
        finally:
            writer.close()

    def keep(self, path, notice):
        alerts = sorted((one["fingerprint"], one["status"], one["startsAt"], one["endsAt"]) for one in notice["alerts"])
        key = path, notice["receiver"], notice["groupKey"], notice["status"], tuple(alerts)
        self.told.setdefault(key, []).append(time.monotonic())
        self.tenants.add(path.strip("/"))

    def count(self):
        return sum(map(len, self.told.values()))

    def together(self):
        """How many notices came beside an equal one at the same tick."""
        return sum(len(moments) - len(ticks_of(moments)) for moments in self.told.values())

    def twice(self, interval, stops):
        """The notices that came twice from one instance for one flush.

        A replica flushes a group once an interval, and tells each webhook once at a flush, or again after its outcome
        was none or 5xx, which this receiver never gives. A notice doesn't say which replica it is of; but what one
        recorded the others know before the next tick, so they don't tell it anew. Notices are equal that tell one
        tenant's receiver of the same group and the same alerts with the same states, starts and ends; as each firing
        has a start of its own, no later flush of these alerts has anything equal to tell. So equal ones that come less
        than an interval apart count as twice, but for what the rules allow:

        - up to three at one tick, one of each of the tenant's replicas whose flush came due there;
        - one more where an instance stopped right behind the one before: its outcome may be lost then, and another
          replica tells it again.
        """
        return [f"{key[0]}: told twice of group {key[2]}" for key, moments in self.told.items()
                if is_twice(ticks_of(moments), interval, stops)]


def ticks_of(moments):
    """Moments as lists of those of one tick."""
    ticks = []
    for moment in moments:
        if ticks and moment - ticks[-1][0] < A_TICK:
            ticks[-1].append(moment)
        else:
            ticks.append([moment])
    return ticks


def is_twice(ticks, interval, stops):
    """Whether equal notices that came at these ticks have one that came twice. A stop has its begin and its end."""
    if any(len(tick) > REPLICAS for tick in ticks):
        return True
    return any(
        second[0] - first[-1] < interval
        and not any(begin - AN_OUTCOME <= first[-1] <= end for begin, end in stops)
        for first, second in zip(ticks, ticks[1:])
    )


async def read_notice(reader):
    """The path and the body of a notice."""
    head = await reader.readuntil(b"\r\n\r\n")
    stated = re.search(rb"\r\nContent-Length: (\d+)", head)
    path = head.split(b" ", 2)[1].decode()
    return path, await reader.readexactly(int(stated[1]))
