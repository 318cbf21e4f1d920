"""What was posted of a tenant's silences, and what is wrong with a list of them."""
import json

# No alert is silenced by it, and while it hasn't begun it is changed in its place, so that none is held more.
TIMES = {"startsAt": "2098-01-01T00:00:00Z", "endsAt": "2099-01-01T00:00:00Z"}


class Silences:
    """The silences that were posted of one tenant."""

    def __init__(self, tenant):
        self.tenant = tenant
        # The comments that were sent with new ones. Where no answer came, such a silence may be held.
        self.sent = set()
        # By identifier: its first comment, the one that was answered last, and those sent since, of which nothing is
        # known.
        self.names = {}
        self.answered = {}
        self.unknown = {}
        self.changes = 0

    def new(self):
        """A new one: its comment, and the body of its post."""
        name = f"{self.tenant}-{len(self.sent)}"
        self.sent.add(name)
        return name, self.body(name, name)

    def change(self, identifier):
        """Another comment for one that was answered, and the body of that post."""
        self.changes += 1
        name = self.names[identifier]
        comment = f"{name} {self.changes}"
        self.unknown[identifier].add(comment)
        return comment, self.body(name, comment, id=identifier)

    def body(self, name, comment, **rest):
        matchers = [{"name": "silenced", "value": name, "isRegex": False}]
        return json.dumps({"matchers": matchers, **TIMES, "createdBy": "bench", "comment": comment, **rest}).encode()

    def answer(self, told, comment):
        """Takes an answer of 200 to a new one or a change; no two posts of one silence wait for theirs at once."""
        identifier = json.loads(told)["silenceID"]
        self.names.setdefault(identifier, comment)
        self.answered[identifier] = comment
        self.unknown[identifier] = set()

    def faults_of_list(self, told):
        """What is wrong with a list, as texts."""
        listed = [(each["id"], each["comment"]) for each in json.loads(told)]
        there = dict(listed)
        faults = [self.fault_of(identifier, there.get(identifier)) for identifier in self.answered]
        unanswered = self.sent - set(self.names.values())
        strange = [key for key, comment in listed if key not in self.answered and comment not in unanswered]
        faults += [f"{self.tenant}: {key} is listed, and wasn't sent" for key in strange]
        twice = len(listed) - len(there)
        return [fault for fault in faults if fault] + ([f"{self.tenant}: {twice} are listed twice"] if twice else [])

    def fault_of(self, identifier, comment):
        """What is wrong with how one that was answered is listed; nothing where it is as it may be."""
        wanted = self.answered[identifier]
        if comment is None:
            return f"{self.tenant}: {identifier} was answered, and is lost"
        if comment != wanted and comment not in self.unknown[identifier]:
            return f"{self.tenant}: {identifier} was answered with {wanted!r}, and is listed with {comment!r}"
        return None
