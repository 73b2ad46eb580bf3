"""The server in plain Python, as docs/PROTOCOL.md and docs/DRIVER.md describe it.

It shares nothing with the program: it is what the program's answers are compared with. A listing is text as soon as
its line is executed, and what is owed is one text. Where memory is refused is given, since it can't know.
"""
import re

MAX_AGE = 15
LINE, VALUE, VARIABLES = 2047, 512, 32_768
HOLD, OWED, QUEUE, DRIVER_OWED = LINE + 1, 4096, 8192, 2048
BLANKS = b" \t"


class Refused(Exception):
    """An event is refused, with the number of its fault."""


class Error(Exception):
    """A line is answered by ERR and this word."""


def demand(holds, otherwise):
    if not holds:
        raise otherwise


# A byte that stands for itself within quotes, and in a bare word, or a backslash and a byte that it makes stand.
UNITS = [rb"(?:[%s!#-\[\]-~\x80-\xff]|\\[\t -~\x80-\xff])" % blanks for blanks in (BLANKS, b"")]
WORD = re.compile(rb'[ \t]*(?:"(%b*)"|(%b+))(?![^ \t])' % tuple(UNITS))


def read_words(line):
    """The words of a line; None where it is malformed."""
    words, at = [], 0
    while line[at:].strip(BLANKS):
        found = WORD.match(line, at)
        if not found:
            return None
        words.append(re.sub(rb"(?s)\\(.)", rb"\1", found[1] or found[2] or b""))
        at = found.end()
    return words


def quoted(value):
    return b'"' + value.replace(b"\\", b"\\\\").replace(b'"', b'\\"') + b'"'


def is_name(word):
    return re.fullmatch(rb"[A-Za-z0-9._-]{1,64}", word)


def number_of(word):
    """The number that the word is; None where it is none."""
    number = int(word) if re.fullmatch(rb"0|-?[1-9][0-9]*", word) else None
    return number if number is not None and abs(number) <= 10**9 else None


class Variable:
    def __init__(self):
        self.value, self.flags, self.aux, self.enums, self.ranges = b"", frozenset(), 0, [], []

    def may_have(self, value):
        if self.enums and value not in self.enums:
            return False
        number = number_of(value)
        return not self.ranges or (number is not None and any(a <= number <= b for a, b in self.ranges))

    def is_too_long(self, value):
        return len(value) > VALUE or (b"STRING" in self.flags and 0 < self.aux < len(value))

    def type_words(self):
        words = [b"RW"] if b"RW" in self.flags else []
        form = [b"ENUM"] if self.enums else []
        form += [b"RANGE"] if self.ranges else []
        form += [b"STRING:%d" % self.aux] if b"STRING" in self.flags else []
        return b" ".join(words + (form or [b"NUMBER"]))

    def change(self, verb, rest):
        match verb, *rest:
            case b"SETFLAGS", *flags if {flag.upper() for flag in flags} <= {b"RW", b"STRING", b"NUMBER"}:
                self.flags = frozenset(flag.upper() for flag in flags)
            case b"SETAUX", text if (number := number_of(text)) is not None and number >= 0:
                self.aux = number
            case (b"ADDENUM" | b"DELENUM"), value if len(value) <= VALUE:
                change_list(verb, self.enums, value, 256)
            case (b"ADDRANGE" | b"DELRANGE"), low, high if None not in (ends := (number_of(low), number_of(high))) and ends[0] <= ends[1]:
                change_list(verb, self.ranges, ends, 32)


def change_list(verb, items, item, most):
    if verb.startswith(b"DEL"):
        if item in items:
            items.remove(item)
    elif item not in items and len(items) < most:
        items.append(item)


class End:
    """A driver or a client, which is owed bytes and takes them."""

    owed = sent = b""

    def offered(self):
        return self.owed[:QUEUE]

    def take(self, count):
        demand(count <= len(self.offered()), Refused(4))
        self.sent += self.owed[:count]
        self.owed = self.owed[count:]


class Ups(End):
    def __init__(self, name, desc):
        self.name, self.desc, self.forced = name, desc, False
        self.lose()

    def lose(self):
        self.connected = self.dumped = self.ok = False
        self.heard = self.pinged = 0
        self.variables, self.commands, self.unfinished, self.owed = {}, set(), b"", b""

    def connect(self, moment):
        self.lose()
        self.connected, self.heard, self.pinged, self.owed = True, moment, moment, b"DUMPALL\n"

    def shown(self, name):
        value = self.variables[name].value
        return b"FSD " + value if self.forced and name == b"ups.status" else value

    def why_not_usable(self, moment, max_age):
        if not self.connected:
            return b"DRIVER-NOT-CONNECTED"
        is_live = self.dumped and self.ok and moment - self.heard <= max_age
        return None if is_live else b"DATA-STALE"

    def owe(self, line):
        """Owes the driver this line, where it fits."""
        if len(self.owed) + len(line) + 1 > DRIVER_OWED:
            return False
        self.owed += line + b"\n"
        return True

    def hear(self, line):
        """Does one whole line of the driver. A line that is refused does nothing."""
        verb, *rest = read_words(line) or [b""]
        match verb.upper(), *rest:
            case b"DUMPDONE",:
                self.dumped = True
            case ((b"DATAOK" | b"DATASTALE") as word,):
                self.ok = word == b"DATAOK"
            case b"ADDCMD", name if is_name(name) and len(self.commands) < 1024:
                self.commands.add(name)
            case b"DELCMD", name:
                self.commands.discard(name)
            case b"SETINFO", name, value if name in self.variables or (is_name(name) and len(self.variables) < VARIABLES):
                if len(value) <= VALUE:
                    self.variables.setdefault(name, Variable()).value = value
            case b"DELINFO", name:
                self.variables.pop(name, None)
            case verb, name, *more if name in self.variables:
                self.variables[name].change(verb, more)


class Session(End):
    def __init__(self, number, address):
        self.number, self.address = number, address
        self.held, self.ending, self.is_open = b"", False, True
        self.username = self.password = self.login = None

    def end(self):
        self.ending, self.held, self.login = True, b"", None


# How many words may follow.
FORMS = {verb.encode(): {count} for count, verbs in enumerate([
    "HELP, VER, NETVER, PROTVER, STARTTLS, LOGOUT, DETACH, LIST UPS",
    "USERNAME, PASSWORD, LOGIN, ATTACH, PRIMARY, FSD, GET UPSDESC, GET NUMLOGINS, GET NUMATTACH, LIST VAR, LIST RW, LIST CMD, LIST CLIENT",
    "GET VAR, GET TYPE, GET DESC, GET CMDDESC, LIST ENUM, LIST RANGE, INSTCMD",
    "SET VAR"]) for verb in verbs.split(", ")}  # fmt: skip
FORMS[b"INSTCMD"].add(3)
TEXTS = {
    b"HELP": b"Commands: HELP VER NETVER PROTVER GET LIST SET INSTCMD LOGIN LOGOUT PRIMARY FSD USERNAME PASSWORD STARTTLS",
    b"VER": b"Network UPS Tools upsd, profile 1",
    b"NETVER": b"1.3",
    b"PROTVER": b"1.3",
}
OF_VARIABLE = (b"GET VAR", b"GET TYPE", b"SET VAR", b"LIST ENUM", b"LIST RANGE")
LIVE = OF_VARIABLE + (b"INSTCMD", b"LIST VAR", b"LIST RW", b"LIST CMD")
# What a user has to have one of, in the file of users; of INSTCMD, see `allow`.
PRIMARY, LOGIN = {(b"upsmon", b"primary")}, {(b"upsmon", b"primary"), (b"upsmon", b"secondary")}
RIGHTS = {b"LOGIN": LOGIN, b"ATTACH": LOGIN, b"PRIMARY": PRIMARY, b"FSD": {(b"actions", b"FSD")} | PRIMARY, b"SET VAR": {(b"actions", b"SET")}}


def lines_of(text):
    """The words of the lines of a file."""
    return [read_words(line) for line in text.split(b"\n") if line.strip(BLANKS) and not line.lstrip(BLANKS).startswith(b"#")]


def sections_of(text):
    """What stands in each section of a file: `key = value`, and `upsmon primary`."""
    found = {}
    for key, *rest in lines_of(text):
        if rest:
            section.append((key, rest[-1]))
        else:
            section = found.setdefault(key[1:-1], [])
    return found


class Server:
    """It takes the texts of its files."""

    def __init__(self, ups=b"[su]\n", users=b"", vars=b""):
        self.upses = {name: Ups(name, dict(entries).get(b"desc", b"Unavailable")) for name, entries in sorted(sections_of(ups).items())}
        self.users, self.descriptions = sections_of(users), {(kind, name): text for kind, name, text in lines_of(vars)}
        self.sessions, self.moment, self.max_age = [], 0, MAX_AGE
        self.refuse = None  # how many lines of the event are executed before memory is refused

    # What drivers do.

    def ups(self, name):
        demand(name in self.upses, Refused(1))
        return self.upses[name]

    def connected(self, name):
        ups = self.ups(name)
        demand(ups.connected, Refused(5))
        return ups

    def driver_up(self, name):
        demand(not self.ups(name).connected, Refused(6))
        self.ups(name).connect(self.moment)

    def driver_down(self, name):
        self.connected(name).lose()

    def driver_bytes(self, name, piece):
        ups = self.connected(name)
        ups.unfinished += piece
        while b"\n" in ups.unfinished[: LINE + 1]:
            line, _, ups.unfinished = ups.unfinished.partition(b"\n")
            if self.refuse == 0:
                ups.lose()
                raise Refused(8)
            self.refuse = None if self.refuse is None else self.refuse - 1
            ups.heard = self.moment
            ups.hear(line)
        if len(ups.unfinished) > LINE:
            ups.lose()
            raise Refused(7)

    def driver_took(self, name, count):
        self.connected(name).take(count)

    def tick(self, seconds):
        self.moment = max(self.moment, seconds)
        for ups in self.upses.values():
            quiet = min(self.moment - ups.heard, self.moment - ups.pinged)
            if ups.connected and quiet >= self.max_age // 3 and ups.owe(b"PING"):
                ups.pinged = self.moment

    # What clients do.

    def opened(self):
        return [session for session in self.sessions if session.is_open]

    def session(self, number):
        demand(1 <= number <= len(self.sessions) and self.sessions[number - 1].is_open, Refused(2))
        return self.sessions[number - 1]

    def open(self, address):
        demand(len(self.opened()) < 64, Refused(3))
        demand(self.refuse is None, Refused(8))
        self.sessions.append(Session(len(self.sessions) + 1, address))

    def close(self, number):
        session = self.session(number)
        session.end()
        session.is_open, session.owed = False, b""

    def feed(self, number, piece):
        session = self.session(number)
        if session.ending:
            return len(piece)
        count = min(len(piece), HOLD - len(session.held))
        session.held += piece[:count]
        self.pump(session)
        return count

    def took(self, number, count):
        self.session(number).take(count)
        self.pump(self.session(number))

    def pump(self, session):
        while not session.ending and len(session.owed) <= OWED:
            line, found, rest = session.held.partition(b"\n")
            if found:
                session.owed += self.answer(session, line)
                session.held = b"" if session.ending else rest
            elif len(session.held) == HOLD:
                session.owed += b"ERR TOO-LONG\n"
                session.end()
                raise Refused(7)
            else:
                return

    # Answers.

    def answer(self, session, line):
        try:
            text = self.execute(session, read_words(line))
        except Error as error:
            text = b"ERR " + error.args[0] + b"\n"
        self.refuse = None if self.refuse is None else self.refuse - 1
        return text

    def execute(self, session, words):
        demand(words is not None, Error(b"INVALID-ARGUMENT"))
        if not words:
            return b""
        verb, rest = words[0].upper().replace(b" ", b"_"), words[1:]  # a blank within the word is no end of it
        is_part = verb in (b"GET", b"LIST", b"SET")
        if is_part:
            verb, rest = verb + b" " + b"".join(rest[:1]).upper(), rest[1:]
        demand(len(rest) in FORMS.get(verb, ()), Error(b"INVALID-ARGUMENT" if is_part or verb in FORMS else b"UNKNOWN-COMMAND"))
        return self.list(verb, rest) if verb.startswith(b"LIST ") else self.say(session, verb, rest) + b"\n"

    def allow(self, session, verb, rest):
        right = RIGHTS.get(verb) or {(b"instcmds", b"ALL"), (b"instcmds", rest[1])}
        for given, word in ((session.username, b"USERNAME"), (session.password, b"PASSWORD")):
            demand(given is not None, Error(word + b"-REQUIRED"))
        user = self.users.get(session.username, [])
        demand((b"password", session.password) in user and not right.isdisjoint(user), Error(b"ACCESS-DENIED"))

    def check(self, verb, rest):
        """The checks of the UPS, of its state and of the variable."""
        demand(rest[0] in self.upses, Error(b"UNKNOWN-UPS"))
        ups = self.upses[rest[0]]
        why = ups.why_not_usable(self.moment, self.max_age)
        demand(verb not in LIVE or not why, Error(why))
        demand(verb not in OF_VARIABLE or rest[1] in ups.variables, Error(b"VAR-NOT-SUPPORTED"))
        return ups

    def say(self, session, verb, rest):
        if verb in TEXTS:
            return TEXTS[verb]
        demand(verb != b"STARTTLS", Error(b"FEATURE-NOT-CONFIGURED"))
        if verb in (b"LOGOUT", b"DETACH"):
            session.end()
            return b"OK Goodbye"
        if verb in (b"USERNAME", b"PASSWORD"):
            return self.give(session, verb, rest[0])
        if verb in RIGHTS or verb == b"INSTCMD":
            self.allow(session, verb, rest)
        ups = self.check(verb, rest)
        if verb.startswith(b"GET "):
            return self.get(ups, verb[4:], rest)
        return self.order(session, ups, verb, rest)

    def give(self, session, verb, word):
        attribute, most = ("username", 64) if verb == b"USERNAME" else ("password", 256)
        demand(getattr(session, attribute) is None, Error(b"ALREADY-SET-" + verb))
        demand(1 <= len(word) <= most, Error(b"INVALID-ARGUMENT"))
        setattr(session, attribute, word)
        return b"OK"

    def order(self, session, ups, verb, rest):
        if verb in (b"LOGIN", b"ATTACH"):
            demand(not session.login, Error(b"ALREADY-LOGGED-IN"))
            session.login = ups.name
        elif verb == b"FSD":
            ups.forced = True
            return b"OK FSD-SET"
        elif verb != b"PRIMARY":
            name, *values = rest[1:]
            self.check_order(ups, verb, name, *values)
            line = b" ".join([verb.split()[0], name, *map(quoted, values)])
            demand(ups.owe(line), Error(verb.split()[0] + b"-FAILED"))
        return b"OK"

    @staticmethod
    def check_order(ups, verb, name, value=b""):
        if verb == b"INSTCMD":
            demand(name in ups.commands, Error(b"CMD-NOT-SUPPORTED"))
            demand(len(value) <= VALUE, Error(b"TOO-LONG"))
            return
        variable = ups.variables[name]
        demand(b"RW" in variable.flags, Error(b"READONLY"))
        demand(not variable.is_too_long(value), Error(b"TOO-LONG"))
        demand(variable.may_have(value), Error(b"INVALID-VALUE"))

    def logged_in(self, ups):
        return [session for session in self.opened() if session.login == ups.name]

    def get(self, ups, kind, rest):
        front = b" ".join([kind, *rest]) + b" "
        if kind == b"VAR":
            return front + quoted(ups.shown(rest[1]))
        if kind == b"TYPE":
            return front + ups.variables[rest[1]].type_words()
        if kind in (b"NUMLOGINS", b"NUMATTACH"):
            return front + b"%d" % len(self.logged_in(ups))
        if kind == b"UPSDESC":
            return front + quoted(ups.desc)
        demand(is_name(rest[1]), Error(b"VAR-NOT-SUPPORTED" if kind == b"DESC" else b"CMD-NOT-SUPPORTED"))
        return front + quoted(self.descriptions.get((b"VARDESC" if kind == b"DESC" else b"CMDDESC", rest[1]), b"Description unavailable"))

    def list(self, verb, rest):
        ups = self.check(verb, rest) if rest else None
        kind = verb[5:]
        if kind == b"UPS":
            items = [it.name + b" " + quoted(it.desc) for it in self.upses.values()]
        else:
            items = [b" ".join(rest) + b" " + item for item in self.items(kind, ups, rest)]
        demand(self.refuse != 0 or kind == b"CLIENT", Refused(8))
        head = b" LIST " + b" ".join([kind, *rest]) + b"\n"
        return b"BEGIN" + head + b"".join(kind + b" " + item + b"\n" for item in items) + b"END" + head

    def items(self, kind, ups, rest):
        if kind in (b"VAR", b"RW"):
            names = [it for it in sorted(ups.variables) if kind == b"VAR" or b"RW" in ups.variables[it].flags]
            return [name + b" " + quoted(ups.shown(name)) for name in names]
        if kind == b"CMD":
            return sorted(ups.commands)
        if kind == b"ENUM":
            return [quoted(value) for value in ups.variables[rest[1]].enums]
        if kind == b"RANGE":
            return [b'"%d" "%d"' % ends for ends in ups.variables[rest[1]].ranges]
        return [session.address for session in self.logged_in(ups)]


class Replay:
    """What `upsd replay` prints of a script. In the event (line, place in the line) memory is refused after so many lines."""

    def __init__(self, server, refused=None, after=0):
        self.server, self.refused, self.after = server, refused, after
        self.notes = []

    def output(self, script):
        for number, line in enumerate(script.split(b"\n"), 1):
            if number == 1 and line.startswith(b"maxage "):
                self.server.max_age = int(line.split(b" ")[1])
            elif line.strip(BLANKS) and not line.lstrip(BLANKS).startswith(b"#"):
                self.place = 0
                self.act(number, *line.split(b" ", 1))
        text = b"".join(self.notes)
        for session in self.server.sessions:
            text += self.part(b"client %d" % session.number, session.sent)
        for ups in self.server.upses.values():
            text += self.part(b"driver " + ups.name, ups.sent)
        return text

    @staticmethod
    def part(who, sent):
        return who + b" sent %d bytes\n" % len(sent) + sent + (b"\n" if sent and not sent.endswith(b"\n") else b"")

    def event(self, number, call, *words):
        self.server.refuse = self.after if self.refused == (number, self.place) else None
        self.place += 1
        try:
            return call(*words)
        except Refused as refused:
            self.notes.append(b"line %d: refused %d\n" % (number, refused.args[0]))
            return None
        finally:
            self.server.refuse = None

    def act(self, number, verb, rest):
        server, (who, _, text) = self.server, rest.partition(b" ")
        end = b"\n" if verb in (b"driver", b"client") else b""
        piece = bytes.fromhex(text.decode()) if verb.endswith(b"-hex") else text + end
        calls = {b"up": server.driver_up, b"down": server.driver_down, b"open": server.open, b"tick": server.tick, b"close": server.close}
        if verb in calls:
            self.event(number, calls[verb], int(rest) if verb in (b"tick", b"close") else rest)
        elif verb == b"took":
            sessions = [session for session in server.opened() if session.number == int(who)]
            self.take(number, server.took, int(who), text, sessions[0] if sessions else End())
        elif verb == b"driver-took":
            self.take(number, server.driver_took, who, text, server.upses.get(who, End()))
        elif verb.startswith(b"driver"):
            self.event(number, server.driver_bytes, who, piece)
        else:
            count = self.event(number, server.feed, int(who), piece)
            if count is not None and count < len(piece):
                self.notes.append(b"line %d: %d of %d bytes held\n" % (number, count, len(piece)))

    def take(self, number, call, who, rest, end):
        """`all` is taken until nothing is offered."""
        while True:
            self.event(number, call, who, len(end.offered()) if rest == b"all" else int(rest))
            if rest != b"all" or not end.offered():
                return
