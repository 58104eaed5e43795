"""Reads the records that `svc run` and `svc chain` print, and says their entries in sentences with names.

tools/explain and tools/timeline stand on it. It needs Python 3 alone.
"""
import os
import re

# The words of an event and of an action with what follows each: S a service, I an endpoint, F a descriptor, C a connection,
# M a moment in milliseconds, N another number, W a word, X the bytes of a message in hexadecimal, L the descriptors with it.
EVENTS = {
    "moment": "M", "ready": "S", "ended": "S", "bound": "SIF", "inuse": "SI", "bindfailed": "SI", "adopted": "SI", "adoptfailed": "SI",
    "received": "XL", "nosender": "", "receivefailed": "", "signal": "W", "connected": "", "notthere": "", "connecting": "",
    "connectfailed": "", "sent": "", "sendbusy": "", "sendfailed": "", "arrived": "SICW", "acceptfailed": "SIN", "set": "CW",
    "shaken": "CW", "finished": "C", "loopended": "SIN", "side": "W", "childready": "", "childgone": "", "dropfailed": "",
}
ACTIONS = {
    "start": "S", "fail": "S", "bind": "SI", "adopt": "SIF", "close": "F", "openreceiver": "", "tryreceive": "", "daemonize": "",
    "notifyparent": "", "connect": "", "send": "XL", "broadcast": "", "judged": "CW", "refuse": "C", "settings": "CW", "handshake": "C",
    "serve": "C", "drop": "C", "rest": "SI", "cut": "C", "phase": "WM", "stop": "N",
}
FORMS = {
    "X": re.compile(r"-|(?:[0-9a-f]{2})+"), "L": re.compile(r"-|\d+(?:,\d+)*"), "W": re.compile(r"\S+(?: \S+)*"),
    **dict.fromkeys("SIFCMN", re.compile(r"0|[1-9]\d*")),
}
FIELDS = {"S": "service", "I": "endpoint", "F": "descriptor", "C": "connection", "M": "moment_ms", "N": "number", "W": "value",
          "X": "message", "L": "descriptors"}
# What went wrong, or was cut short.
BAD = {"fail", "inuse", "bindfailed", "adoptfailed", "receivefailed", "nosender", "connectfailed", "notthere", "sendfailed", "acceptfailed",
       "refuse", "drop", "cut", "childgone", "dropfailed"}

SENTENCES = {
    "moment": "the clock says so", "ready": "{S} says that it is ready", "ended": "the work of {S} has ended",
    "bound": "{E} is bound, as descriptor {F}", "inuse": "{E} is in use by somebody else", "bindfailed": "{E} can't be bound",
    "adopted": "{E} listens on the socket that was there", "adoptfailed": "{E} can't listen on the socket that was there",
    "received": "the older server sent {T}", "nosender": "no older server is there yet", "receivefailed": "receiving from the older server failed",
    "connected": "the successor is reached", "notthere": "no successor is there yet", "connecting": "the connect to the successor isn't done yet",
    "connectfailed": "the successor can't be reached", "sent": "the successor has the message", "sendbusy": "the successor can't take the message yet",
    "sendfailed": "the message can't be sent", "arrived": "connection {C} from {W} comes to {E}",
    "acceptfailed": "accepting at {E} failed with error number {N}", "finished": "connection {C} is done",
    "loopended": "accept loop {N} of {E} has ended", "childready": "the child is ready", "childgone": "the child is gone",
    "dropfailed": "the parent couldn't drop its rights",
    "start": "start {S}", "fail": "give {S} up", "bind": "bind {E}", "adopt": "listen for {E} on descriptor {F}, which is open already",
    "close": "close descriptor {F}", "openreceiver": "open the socket at which an older server sends its own", "tryreceive": "ask whether the older server sends",
    "daemonize": "fork", "notifyparent": "tell the waiting parent that its child is ready", "connect": "connect to the successor",
    "send": "send the successor {T}", "broadcast": "tell all services that the server shuts down", "refuse": "refuse connection {C}",
    "settings": "set {W} on connection {C}", "handshake": "shake hands on connection {C}", "serve": "serve connection {C}",
    "drop": "drop connection {C} after a failure", "rest": "let the accept loop at {E} rest for a second", "cut": "cut connection {C}",
    "stop": "stop the workers, waiting {N} s for them",
}
VALUES = {
    ("signal", "fast"): "a signal asks for an end at once", ("signal", "terminate"): "a signal asks for an end after the grace period",
    ("signal", "upgrade"): "a signal asks to hand the sockets to a successor", ("side", "child"): "this process is the child of the fork",
    ("side", "parent"): "this process is the parent of the fork", ("set", "ok"): "connection {C} has its settings",
    ("set", "no"): "the settings of connection {C} failed", ("shaken", "ok"): "the handshake of connection {C} is done",
    ("shaken", "no"): "the handshake of connection {C} failed", ("judged", "yes"): "the filter takes connection {C}",
    ("judged", "no"): "the filter refuses connection {C}",
}
PHASES = {
    "Bootstrap": "it bootstraps", "BootstrapComplete": "it has bootstrapped", "Running": "it runs",
    "GracefulUpgradeTransferringFds": "it offers its sockets", "GracefulUpgradeCloseTimeout": "the offer is over; five seconds until it drains",
    "GracefulTerminate": "it was told to end", "ShutdownStarted": "it shuts down", "ShutdownGracePeriod": "the grace period begins",
    "ShutdownRuntimes": "all that is open is closed", "Terminated": "it has ended",
}
STATUSES = {
    "served": "the run went through its shutdown", "tested": "the run tested that it can start", "parent": "this is the parent of a daemon",
    "words": "the command words were refused", "line": "this line of the script was refused", "config": "the configuration was refused at this key",
    "stray": "this event, counted from 1, doesn't fit", "host": "the host failed", "out": "the events were used up before the shutdown",
    "transfer": "receiving the sockets of the older server failed", "no": "no older server sent its sockets", "bad": "what the older server sent is no message",
    "read": "standard input couldn't be read", "chained": "all steps were taken", "step": "this step wasn't taken", "turns": "the run's turns were used up",
}


# The headers of a script's parts.
PARTS = ("%conf", "%services", "%events", "%jobs", "%generation", "%steps")


class RecordError(Exception):
    """A file that isn't a record, with its line."""


class Entry:
    """An entry of a record: its line, whether the host gave it, its words, the last moment before or at it, and a sentence."""

    def __init__(self, line, got, words, moment):
        self.line, self.got, self.words, self.moment = line, got, words, moment
        self.word, self.said = words[0], ""
        self.values = dict(zip((EVENTS if got else ACTIONS)[self.word], words[1:]))

    @property
    def text(self):
        return " ".join((["got"] if self.got else []) + self.words)

    @property
    def is_bad(self):
        return self.word in BAD or self.word in ("set", "shaken", "judged") and self.values["W"] == "no"


class Names:
    """The names of services and addresses of endpoints, by number, of one script."""

    def __init__(self):
        self.services, self.addresses, self.notifying = {}, {}, set()

    def service(self, number):
        return self.services.get(number, f"service {number}")

    def endpoint(self, service, number):
        address = self.addresses.get((service, number))
        return f"{address} of {self.service(service)}" if address else f"endpoint {number} of {self.service(service)}"


class Record:
    """One record: its path, the generation of a chain that it is of, its entries, its status line and the names of its script."""

    def __init__(self, path, generation, names):
        self.path, self.generation, self.names, self.entries, self.status = path, generation, names, [], ""
        # The address of each descriptor that came until now.
        self.known = {}

    def add(self, entry):
        """Takes the next entry, and says it."""
        if entry.word == "bound":
            self.known[entry.values["F"]] = self.names.addresses.get((entry.values["S"], entry.values["I"]))
        elif entry.word == "received":
            self.known.update(zip(descriptors(entry.values["L"]), message_addresses(entry.values["X"]) or []))
        entry.said = sentence(entry, self.names, self.known)
        self.entries.append(entry)


def message_addresses(message):
    """The addresses that a handover message names, in either version; None where it is none."""
    try:
        text = "" if message == "-" else bytes.fromhex(message).decode()
    except ValueError:
        return None
    if not text.startswith(" v2 "):
        return text.split()
    rest, found = text[4:].encode(), []
    while rest:
        size, colon, rest = rest.partition(b":")
        if not colon or not size.isdigit() or not 0 < int(size) <= len(rest):
            return None
        found.append(rest[: int(size)].decode(errors="replace"))
        rest = rest[int(size):]
    return found


def descriptors(text):
    return [] if text == "-" else text.split(",")


def clock(moment):
    """A moment in milliseconds as +3.2 s."""
    text = f"{moment / 1000:.3f}".rstrip("0")
    return f"+{text}{'0' if text.endswith('.') else ''} s"


def sentence(entry, names, known):
    """An entry in words, where these descriptors have these addresses."""
    values = entry.values
    if entry.word == "phase":
        return f"phase {values['W']}: {PHASES.get(values['W'], 'it goes on')}"
    form = VALUES.get((entry.word, values.get("W")), SENTENCES.get(entry.word, entry.text))
    words = dict(values)
    if "S" in values:
        words["S"] = names.service(values["S"])
        words["E"] = names.endpoint(values["S"], values.get("I"))
    if entry.word == "arrived":
        words["W"] = {"-": "an unknown peer", "unix": "a Unix peer"}.get(values["W"], values["W"])
    if "F" in values and entry.word == "close" and known.get(values["F"]):
        words["F"] = f"{values['F']} ({known[values['F']]})"
    if "X" in values:
        addresses, numbers = message_addresses(values["X"]), descriptors(values["L"])
        pairs = [f"{address} as descriptor {number}" for address, number in zip(addresses or [], numbers)]
        is_whole = addresses is not None and len(addresses) == len(numbers)
        words["T"] = (", ".join(pairs) or "no socket") if is_whole else "what is no message"
    return form.format_map(words)


def said_status(status):
    words = status.split()
    return STATUSES.get(words[1], "the run ended") if len(words) > 1 else "the run ended"


def lines_of(path):
    """The lines of a file as they come, with their line feeds; of standard input where it is `-`."""
    with open("/dev/stdin" if path == "-" else path, "rb") as file:
        for number, line in enumerate(file, 1):
            try:
                yield number, line.decode()
            except UnicodeDecodeError as error:
                raise RecordError(f"{path}:{number}: this isn't text: byte {error.start} isn't UTF-8") from error


def read_names(script):
    """The names that a script gives; of each generation where it is that of a chain."""
    found = [Names()]
    part, number = "", 0
    for _, line in lines_of(script):
        words = line.split()
        if words[:1] == ["%generation"]:
            if part:
                found.append(Names())
            part = "%generation"
        elif words and words[0] in ("%conf", "%services", "%jobs", "%events", "%steps"):
            part, number = words[0], 0
        elif part in ("%services", "%jobs") and words and not words[0].startswith("#") and words != ["eager"]:
            name_service(found[-1], str(number), words)
            number += 1
    return found


def name_service(names, number, words):
    names.services[number] = words[0]
    if words[1:2] == ["notify"]:
        names.notifying.add(number)
    places = [words[k + 1] for k in range(2, len(words) - 1) if words[k] in ("tcp", "unix")]
    for index, address in enumerate(places):
        names.addresses[number, str(index)] = address


def script_of(path):
    """The script beside a record: of its name, with or without the record's own ending, or the input of an example in a folder."""
    folder, name = os.path.split(path)
    for other in (path + ".svc", os.path.splitext(path)[0] + ".svc", os.path.join(folder, "input") if name == "out" else ""):
        if other and other != path and os.path.isfile(other):
            return other
    return None


def entry_of(words, line, moment):
    """The entry of these words; None where they are none."""
    got = words[0] == "got"
    words = words[1:] if got else words
    form = (EVENTS if got else ACTIONS).get(words[0]) if words else None
    if words[:1] == ["settings"]:
        # Its list has a word for each setting.
        words = words[:2] + ([" ".join(words[2:])] if words[2:] else [])
    if form is None or len(words) != 1 + len(form) or not all(FORMS[kind].fullmatch(word) for kind, word in zip(form, words[1:])):
        return None
    moment = int(words[1]) if words[0] == "moment" and got else moment
    return Entry(line, got, words, moment)


def is_script(lines, text):
    """Whether this line, or after a comment one of those that follow, begins a part of a script: its number, or None."""
    if text[0] in PARTS:
        return True
    return text[0].startswith("#") and any(line.split()[:1] and line.split()[0] in PARTS for _, line in lines)


def each_item(path, script=None):
    """The entries of the records in a file as they come, each with its record; a status line is the record alone. A file may
    have the records of a chain's generations. RecordError where it is none, at its line."""
    script = script or script_of(path)
    names = read_names(script) if script else [Names()]
    record, count, moment, is_over, lines = None, 0, 0, False, lines_of(path)
    for number, line in lines:
        words = line.split()
        if not words:
            continue
        if words[0] == "generation" and len(words) == 2:
            record = Record(path, words[1], names[min(count, len(names) - 1)])
            count, moment, is_over = count + 1, 0, False
            continue
        entry = None if words[0] == "status" else entry_of(words, number, moment)
        if not entry and words[0] != "status":
            if is_over or not line.endswith("\n") and record:
                # What stands behind the end, or was cut off while it was written.
                continue
            if is_script(lines, words):
                raise RecordError(f"{path}: this is a script; a record is what svc prints of it: svc run < {path} > record")
            raise RecordError(f"{path}:{number}: this is no entry of a record: {line.strip()[:60]}")
        record = record or Record(path, None, names[0])
        if entry:
            moment = entry.moment
            is_over = is_over or entry.word == "phase" and entry.values["W"] == "Terminated"
            record.add(entry)
        else:
            record.status, is_over = line.strip(), True
        yield record, entry
    if not record:
        raise RecordError(f"{path}: this has no entries")


def read_records(path, script=None):
    """The records that stand in a file: one, or those of a chain's generations."""
    found = []
    for record, _ in each_item(path, script):
        if not found or record is not found[-1]:
            found.append(record)
    return found
