"""`bench/serve --cluster`: load on `amring serve` while instances of its ring are stopped and come up again.

Ten tenants post alerts and silences, 100 times a second in all, and have a webhook of this script's own told of their
alerts. Every ten seconds another instance of the ring is stopped: in turn its store finds no room for what it writes,
and so refuses a call, or it is crashed and restarted by the admin port. Then the program is killed (`kill -9`) and
started anew over its stores. Silences are made in the first quarter and then changed in their place, and alerts fire
and end by turns, so that from then on nothing more is held. All goes to 127.0.0.1.

A line is printed for each thing that is to hold, with `passed` or `failed`:

- each silence that was answered with 200 is in its tenant's list at the end, and behind the new start, with the comment
  that was answered last or one that was sent since
- no reply but 200, 201 and 503; and no request without a reply, but where an instance stopped while it waited
- all instances are up, and settled for all of their tenants, within ten seconds after each stop
- no notice comes twice from one instance for one flush (`Hook.twice` says what counts as that)
- the resident size at the end is at most a tenth above that at a quarter of the run

and then how long posts took. Writes are refused by Debian's strace, which has to be there and to be let trace the
service.
"""
import asyncio
import collections
import contextlib
import datetime
import json
import os
import random
import signal
import statistics
import sys
import tempfile
import time

from hook import Hook
from refusals import are_possible, writes_refused
from served import ALERTS, CONFIGURATION, SILENCES, Program, free_port, read_reply, reply_to, request
from silences import Silences

SECONDS = 120
RATE = 100
TENANTS = 10
RING = (1, 2, 3, 4, 5)
# Of five posts of a tenant these are of silences.
OF_SILENCES = (1, 3)
SILENCES_OF_EACH = 100
GROUPS = 10
ALERTS_OF_EACH = 50
# How often a group is flushed, in seconds. Replicas wait for 15 more each, so mostly no two flush at one tick.
INTERVAL = 20
# How often an instance is stopped, how long it is down after a crash, how long refused writes may be unnoticed, and how
# long the others may take to hand over what they hold, in seconds.
EVERY = 10
DOWN = 3
MOST_UNNOTICED = 8
MOST_SETTLING = 10
A_LOOK = 0.05
# How long lies between two ticks, in seconds.
A_TICK = 1
# How long a reply may take, in seconds: longer than the service lets a request wait.
PATIENCE = 20
MOST_MORE = 1.10
SHOWN = 10


async def fetch(port, data):
    """The status and the body of a whole reply; an `OSError` where none comes."""
    async with asyncio.timeout(PATIENCE):
        reader, writer = await asyncio.open_connection("127.0.0.1", port)
        try:
            writer.write(data)
            return read_reply(await reader.read())
        finally:
            writer.close()


def moment(seconds):
    """A moment as the service reads it."""
    return datetime.datetime.fromtimestamp(seconds, datetime.timezone.utc).isoformat(timespec="milliseconds")


class Tenant:
    """What one tenant has posted."""

    def __init__(self, number):
        # The ring's hash has names that begin alike close together, so that some instances would have no tenant.
        self.name = f"{number}-tenant"
        self.silences = Silences(self.name)
        # The silences whose change waits for its answer.
        self.waiting = set()
        # Since when each alert fires, and how many were posted.
        self.starts = [0.0] * ALERTS_OF_EACH
        self.posted = 0

    def configuration(self, port):
        route = {"receiver": "hook", "group_by": ["group"], "group_wait": "1s", "group_interval": f"{INTERVAL}s"}
        webhook = {"url": f"http://127.0.0.1:{port}/{self.name}"}
        text = json.dumps({"route": route, "receivers": [{"name": "hook", "webhook_configs": [webhook]}]})
        return json.dumps({"alertmanager_config": text}).encode()

    def alert(self):
        """The next alert: each begins to fire, fires on, ends, and begins anew."""
        turn, place = divmod(self.posted, ALERTS_OF_EACH)
        self.posted += 1
        now, phase = time.time(), (turn + place) % 3 if turn else 0
        if phase == 0:
            self.starts[place] = now
        labels = {"alertname": "Bench", "group": f"{place % GROUPS}", "instance": f"host-{place}"}
        alert = {"labels": labels, "startsAt": moment(self.starts[place])}
        if phase == 2:
            alert["endsAt"] = moment(now)
        return json.dumps([alert]).encode()

    def next_silence(self, is_early):
        """The identifier of a silence to change; none where a new one is to be posted."""
        if is_early and len(self.silences.sent) < SILENCES_OF_EACH:
            return None
        free = [identifier for identifier in self.silences.answered if identifier not in self.waiting]
        return random.choice(free) if free else None


class Replies:
    """What came of the requests."""

    def __init__(self):
        self.counts = collections.Counter()
        self.others = []
        # When requests that got no reply were sent, and when that was known.
        self.without = []
        # How long the replies to posts took, from when each was due.
        self.waits = []

    def take(self, status, told, path):
        if status in (200, 201):
            self.counts[str(status)] += 1
        elif status == 503:
            self.counts[f"503 {told.decode(errors='replace')}"] += 1
        else:
            self.others.append(f"{path} is answered with {status} {told.decode(errors='replace')}")


class Admin:
    """The admin port."""

    def __init__(self, port):
        self.port = port

    async def instances(self):
        """The instances of the ring by number."""
        status, told = await fetch(self.port, request("GET", "/ring"))
        if status != 200:
            raise ConnectionError(f"GET /ring is answered with {status}")
        return {each["instance"]: each for each in json.loads(told)["instances"] if each["instance"] in RING}

    async def post(self, event, instance):
        """What is wrong with the answer to an event, as texts."""
        status, told = await fetch(self.port, request("POST", f"/ring/{event}/{instance}"))
        if status == 200:
            return []
        return [f"{event} {instance} is answered with {status} {told.decode(errors='replace')}"]

    async def are_settled(self):
        """Whether all are up and may answer for all of their tenants."""
        found = (await self.instances()).values()
        return len(found) == len(RING) and all(each["up"] and each["settled"] == each["tenants"] for each in found)


Stop = collections.namedtuple("Stop", "kind instance begun down settled took")


class Load:
    """The posts, the ticks and the stops of a run."""

    def __init__(self, program, admin, store, seconds):
        self.program, self.admin, self.store, self.seconds = program, Admin(admin), store, seconds
        self.hook, self.replies = Hook(), Replies()
        self.tenants = [Tenant(number) for number in range(TENANTS)]
        self.stops, self.faults, self.held = [], [], {}
        self.hook_port = self.begun = 0

    async def send(self, path, tenant, body, due=None):
        """The body of a reply that says that all went well."""
        begun = time.monotonic()
        try:
            status, told = await fetch(self.program.port, request("POST", path, body, tenant=tenant.name))
        except OSError:
            self.replies.without.append((begun, time.monotonic()))
            return None
        self.replies.take(status, told, path)
        if due is not None:
            self.replies.waits.append(time.monotonic() - due)
        return told if status in (200, 201) else None

    async def configure(self, tenant):
        return await self.send(CONFIGURATION, tenant, tenant.configuration(self.hook_port))

    async def post_silence(self, tenant, due):
        identifier = tenant.next_silence(due < self.begun + self.seconds / 4 - 1)
        posted = tenant.silences.new() if identifier is None else tenant.silences.change(identifier)
        tenant.waiting.add(identifier)
        told = await self.send(SILENCES, tenant, posted[1], due)
        tenant.waiting.discard(identifier)
        if told is not None:
            tenant.silences.answer(told, posted[0])

    async def post(self, number, due):
        turn, place = divmod(number, TENANTS)
        tenant = self.tenants[place]
        if turn % 5 in OF_SILENCES:
            await self.post_silence(tenant, due)
        else:
            await self.send(ALERTS, tenant, tenant.alert(), due)

    async def post_all(self):
        async with asyncio.TaskGroup() as group:
            for number in range(self.seconds * RATE):
                due = self.begun + number / RATE
                await until(due)
                group.create_task(self.post(number, due))

    async def tick(self):
        """Tells the program the time, at each tick, without an end."""
        next_tick = time.monotonic()
        while True:
            # One that waits at an instance which stops gets no answer, and mustn't hold up the next.
            with contextlib.suppress(OSError):
                async with asyncio.timeout(A_TICK):
                    await fetch(self.program.port, request("GET", "/ready"))
            next_tick = max(next_tick + A_TICK, time.monotonic())
            await until(next_tick)

    async def look(self, looks, most):
        """Looks until what is looked for is there, or for so many seconds. Whether it came."""
        end = time.monotonic() + most
        while not await looks():
            if time.monotonic() > end:
                return False
            await asyncio.sleep(A_LOOK)
        return True

    async def crash(self, instance):
        """Crashes an instance, and restarts it later. Gives when it was down."""
        self.faults += await self.admin.post("crash", instance)
        down = time.monotonic()
        if (await self.admin.instances())[instance]["up"]:
            self.faults.append(f"instance {instance} is up behind its crash")
        await asyncio.sleep(DOWN)
        self.faults += await self.admin.post("restart", instance)
        return down

    async def refuse(self, instance):
        """Has the store of an instance refuse writes until the instance has stopped. Gives when it was down."""
        before = (await self.admin.instances())[instance]["incarnation"]

        async def has_stopped():
            found = (await self.admin.instances())[instance]
            if not found["up"] and not found.get("cause"):
                self.faults.append(f"instance {instance} is down without a cause")
            return not found["up"] or found["incarnation"] != before

        async with writes_refused(self.program.process, store_of(self.store, instance)):
            if not await self.look(has_stopped, MOST_UNNOTICED):
                self.faults.append(f"instance {instance} goes on after {MOST_UNNOTICED} seconds of refused writes")
        return time.monotonic()

    async def stop(self, kind, instance):
        """Stops an instance and waits until all are up and settled."""
        begun = time.monotonic()
        down = await (self.refuse if kind == "refusal" else self.crash)(instance)
        again = time.monotonic()
        if not await self.look(self.admin.are_settled, MOST_SETTLING):
            self.faults.append(f"instance {instance} isn't up and settled {MOST_SETTLING} seconds after it was stopped")
        now = time.monotonic()
        self.stops.append(Stop(kind, instance, begun, down, now, now - again))

    async def stop_in_turn(self):
        for number in range(1, self.seconds // EVERY):
            await until(self.begun + number * EVERY)
            await self.stop("refusal" if number % 2 else "crash", RING[(number - 1) % len(RING)])

    async def weigh(self, when, then):
        """Notes what is held then."""
        await until(then)
        self.held[when] = self.program.resident()

    async def run(self):
        self.hook_port = await self.hook.open()
        ticks = asyncio.create_task(self.tick())
        for tenant in self.tenants:
            if await self.configure(tenant) is None:
                self.faults.append(f"{tenant.name}: the configuration isn't stored")
        self.begun = time.monotonic()
        # A little before an instance may be stopped.
        quarter = self.begun + self.seconds / 4 - 0.5
        try:
            await asyncio.gather(self.post_all(), self.stop_in_turn(), self.weigh("quarter", quarter))
            if not await self.look(self.admin.are_settled, MOST_SETTLING):
                self.faults.append("at the end not all instances are up and settled")
            await self.weigh("end", 0)
        except (OSError, ValueError, AttributeError) as error:
            ended = self.program.process.poll()
            self.faults.append(f"the run ended early: {error!r}; the exit status of the service is {ended}")
        ticks.cancel()


def store_of(folder, instance):
    return os.path.join(folder, f"{instance}.db")


async def until(end):
    await asyncio.sleep(max(0.0, end - time.monotonic()))


class Report:
    """What holds and what doesn't, a line each."""

    def __init__(self):
        self.is_well = True

    def line(self, text, faults):
        print(f"{'failed' if faults else 'passed'}: {text}", flush=True)
        for fault in faults[:SHOWN]:
            print(f"    {fault}")
        if len(faults) > SHOWN:
            print(f"    and {len(faults) - SHOWN} more")
        self.is_well = self.is_well and not faults


def tell_replies(load, report):
    """No reply but 200, 201 or 503; and one to each request, but where an instance stopped while it waited."""
    replies = load.replies
    unexcused = [
        f"a request was sent after {begun - load.begun:.1f} s, and got no reply in {ended - begun:.1f} s"
        for begun, ended in replies.without
        if not any(stop.begun <= ended and begun <= stop.settled for stop in load.stops)
    ]
    counts = ", ".join(f"{count} of {what}" for what, count in sorted(replies.counts.items()))
    text = f"replies: {counts}, {len(replies.others)} others; {len(replies.without)} requests without a reply, which"
    report.line(f"{text} all waited while an instance was stopped", replies.others + unexcused)


def tell_stops(load, report):
    kinds = collections.Counter(stop.kind for stop in load.stops)
    longest = max((stop.took for stop in load.stops), default=0)
    text = f"stops: {kinds['refusal']} by a refused call, {kinds['crash']} by a crash; all were up and settled again"
    is_empty = ["no instance was stopped"] if not load.stops else []
    report.line(f"{text} after {longest:.1f} s at most", load.faults + is_empty)


def tell_notices(load, report):
    hook, stops = load.hook, [(stop.begun, stop.down) for stop in load.stops]
    silent = [f"{tenant.name} was told nothing" for tenant in load.tenants if tenant.name not in hook.tenants]
    twice = hook.twice(INTERVAL - 1, stops)
    text = f"notices: {hook.count()}, {hook.together()} of them beside an equal one of another replica at one tick,"
    report.line(f"{text} {len(twice)} told twice by one instance for one flush", hook.faults + silent + twice)


def tell_held(load, report):
    if len(load.held) < 2:
        return report.line("resident size", ["it wasn't seen at a quarter and at the end"])
    quarter, end = load.held["quarter"], load.held["end"]
    text = f"resident size: {quarter} KiB at a quarter, {end} KiB at the end, {end / quarter:.2f} times"
    return report.line(text, [f"over {MOST_MORE:.2f} times"] if end > MOST_MORE * quarter else [])


def tell_waits(load):
    waits = sorted(1000 * wait for wait in load.replies.waits)
    if waits:
        median, late = statistics.median(waits), waits[len(waits) * 99 // 100]
        text = f"posts: {len(waits)} answered, median {median:.1f} ms, 99th of a hundred {late:.1f} ms"
        print(f"{text}, longest {waits[-1]:.1f} ms", flush=True)


def tell_silences(port, load, report, when):
    """Each silence that was answered is in its tenant's list, as it was answered last or sent since."""
    faults = []
    for tenant in load.tenants:
        try:
            status, told = reply_to(port, "GET", SILENCES, tenant.name)
            faults += tenant.silences.faults_of_list(told) if status == 200 else [f"{tenant.name}: a list of {status}"]
        except OSError as error:
            faults.append(f"{tenant.name}: no list: {error}")
    count = sum(len(tenant.silences.answered) for tenant in load.tenants)
    changes = sum(tenant.silences.changes for tenant in load.tenants)
    faults += [] if count else ["no silence was answered"]
    report.line(f"silences {when}: {count} that were answered, with {changes} changes, are in their lists", faults)


def start(program, store, admin):
    """A service over these stores that answers."""
    ring = ",".join(map(str, RING))
    service = Program(program, "--store", store, "--ring", ring, "--admin", str(admin))
    if service.wait_until_ready():
        return service
    told = service.told()
    service.kill()
    sys.exit(f"bench/serve: amring serve doesn't answer: {told}")


def play(program, store, seconds):
    """A run over the stores in a folder: whether all holds."""
    report, admin = Report(), free_port()
    service = start(program, store, admin)
    try:
        load = Load(service, admin, store, seconds)
        asyncio.run(load.run())
        tell_silences(service.port, load, report, "at the end")
        told = service.told()
        service.kill()
        service = start(program, store, free_port())
        tell_silences(service.port, load, report, "after kill -9 and a new start")
    finally:
        service.kill()
    for tell in (tell_replies, tell_stops, tell_notices, tell_held):
        tell(load, report)
    tell_waits(load)
    print("passed" if report.is_well else f"failed; the service said:\n{told}")
    return report.is_well


def measure(program, seconds):
    """A run in a folder of its own; nothing is left of it, however it ends. Whether all holds."""
    for number in (signal.SIGTERM, signal.SIGHUP):
        signal.signal(number, lambda *_: sys.exit("bench/serve: it was stopped"))
    if not are_possible():
        sys.exit("bench/serve: strace is needed, which Debian has as a package")
    with tempfile.TemporaryDirectory(prefix="cluster-") as folder:
        return play(program, folder, seconds)
