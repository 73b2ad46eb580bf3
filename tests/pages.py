#!/usr/bin/env python3
"""README.md, docs/*.md and man/*: whether what they name is there, and whether they are short and plain.

The messages of upsd(8) and upsc(8) are those of the sources, and no others; each word after ERR and each cause of a refused file is
one of the sources; tools that format manual pages find nothing amiss, where they are there; docs/ has what tools/proved makes.

A name with three underscores or more has to be defined, one in backticks with fewer has to be a word of the sources, and of
`Type::function` and `Type::{one, other}` each function has to be the type's, if the type is ours. A path has to be there, of some
crate if it begins with src/, specs/ and so on; NAME, `..` and `{a, b}` in it stand for others. A message is a program's name, a
colon and words in backticks; its end has to be a text of the sources, with anything in the place of what the program writes there.

A paragraph is a run of lines or an item of a list; code, headings, quotations and what tools/proved makes are none. README's are
shorter than those of other pages. A page begins by its reader: "For ..". Words: the pages to look at, if not all."""
import os
import re
import shutil
import subprocess
import sys
from glob import glob

os.chdir(f"{os.path.dirname(os.path.abspath(__file__))}/..")
PAGES = ["README.md", *sorted(glob("docs/*.md")), *sorted(glob("man/*"))]


def text_of(path):
    with open(path, encoding="utf-8", errors="replace") as file:
        return file.read()


# What a manual says of a program is what its sources say.

JOURNAL = "crates/nutjournal/src/journal.rt"
TEXTS = "crates/nutjournal/src/texts.rt"
# The texts of each source, and the form in which a manual has them.
MESSAGES = [
    ("crates/upsd/src/ending.rt", r'#\[error\("(.*?)"', r"\1"),
    ("crates/nutloop/src/fault.rt", r'#\[error\("(.*)"\)\]', r"\1"),
    ("crates/upsd/src/starting.rt", r'"(started: .*)"', r"\1"),
    ("crates/upsd/src/serve.rt", r'"(ended: .*)"', r"\1"),
    ("crates/upsd/src/warnings.rt", r'warn_if\(.*, &"(.*)"\);', r"warning: PATH: \1"),
    ("crates/upsd/src/warnings.rt", r'format_args!\("([a-z].*)"\);', r"warning: PATH: \1"),
    ("crates/upsd/src/warnings.rt", r'(?:format_args!\("\[\{\}\]: |^ *note\([a-z]+, ")([^"]*)"\)?[,;)].*$', r"warning: PATH: [NAME]: \1"),
    *((path, r'"(.*)"\)?;\n.*, None, &line\);', r"\1") for path in ("crates/nutjournal/src/log_buffer.rt", JOURNAL)),
    (JOURNAL, r'None,\s+&format_args!\("([a-z].*)"\),?\s*\);', r"\1"),
    (JOURNAL, r'^ *"(\{taken\}.*)"$', r"\1"),
    (JOURNAL, r'format_args!\("(status .*|more lines: .*|lines? of .*|cannot .*)"\)', r"su: \1"),
    (JOURNAL, r'format_args!\("(more lines of .*)"\);', r"\1"),
    (JOURNAL, r'format_args!\("((?:silent|gave) .*)"\);', r"192.0.2.1 \1"),
    ("crates/nutjournal/src/tally.rt", r'=> \("(d(?:ata|river) .*)", [A-Z]+, [A-Z_]+\),', r"su: \1"),
    (JOURNAL, r'^    \("([a-z].*)", true\),', r"\1: N"),
    (JOURNAL, r'^ +"(the record has .*)",$', r"\1"),
    ("crates/upsd/src/reading.rt", r'"upsd: \{path\}:\{number\}: (.*)"\)', r"PATH:LINE: \1"),
    (JOURNAL, r'&"(logged in)"', r"su: mon@192.0.2.1 \1"),
    (JOURNAL, r'format_args!\("(logged .*: )\{\}"', r"su: mon@192.0.2.1 \1REASON"),
    (JOURNAL, r'format_args!\("(ordered) \{asked\}\{end\}\{id\}"\)', r"su: mon@192.0.2.1 \1 COMMAND"),
    (TEXTS, r'write!\(f, "(, tracked as )\{\}"', r"su: mon@192.0.2.1 ordered COMMAND\1ID"),
    (TEXTS, r'0 => f.write_str\("(succeeded)"\)', r"su: order ID \1"),
    (TEXTS, r'number => write!\(f, "(failed: .*)"\)', r"su: order ID \1"),
    (JOURNAL, r'Kind::EmptyOrder => "( .*)",', r"su: mon@192.0.2.1 ordered COMMAND\1"),
    (JOURNAL, r'Kind::ForcedShutdown => "(: .*)",', r"su: mon@192.0.2.1 ordered FSD\1"),
    (JOURNAL, r'format_args!\("(was refused) \{asked\}.*"\);', r"su: mon@192.0.2.1 \1 COMMAND: WORD"),
]
FORMS = {"0": "PATH", "1": "LINE", "number": "N", "count": "N", "error": "ERROR", "status": "STATUS", "tally": "N KIND, ..", "state": "DATA", "address": "192.0.2.1",
         "to": "198.51.100.1", "why": "REASON", "shown": "BYTES", "seconds": "N", "taken": "N", "most": "N", "SESSION_LIMIT": "64",
         "VERSION": "VERSION", "bound": " ADDRESS ..", "options": " OPTION ..", "ending": "FAULT"}  # fmt: skip
FAULTS = [("crates/nutrequest/src/faults.rt", r'ClientFault::.* => \(b"(.*)", b""\),', r"\1")]


def said_by(sources):
    found = {re.sub(pattern, form, it[0]) for path, pattern, form in sources for it in re.finditer(pattern, text_of(path), re.M)}
    return {re.sub(r"\{(\w+)\}", lambda name: FORMS[name[1]], it) for it in found - {"{0}"}}


def manual_faults():
    for program, sources in ("upsd", MESSAGES), ("upsc", FAULTS):  # upsrw(8) and upscmd(8) lead to upsc(8)
        listed = set(re.findall(rf'^\.B "{program}: (?!server answered ERR|listening on)(.*)"$', text_of(f"man/{program}.8"), re.M))
        yield from (f"man/{program}.8 and the sources differ: {it}" for it in said_by(sources) ^ listed)
    words = set(re.findall(r'b"ERR ([A-Z-]+)\\n",$', text_of("crates/nutcommand/src/err_word.rt"), re.M))
    reasons = re.findall(r'#\[error\("(.*)"\)\]$', text_of("crates/nutusers/src/fault.rt"), re.M)
    causes = {f"cause {number}: {it}" for number, it in enumerate(reasons, 1)}
    for page in glob("man/*"):
        unknown = set(re.findall(r'^\.B ".*: server answered ERR ([A-Z-]+)"$', text_of(page), re.M)) - words
        unknown |= set(re.findall(r'^\.B "(cause .*)"$', text_of(page), re.M)) - causes
        yield from (f"{page}: no source says {it}" for it in unknown)
    yield from priority_faults(text_of("man/upsd.8"))
    for command in ["groff -man -ww -z", "mandoc -Tlint"]:
        formatter, *words = command.split()
        if shutil.which(formatter):
            ran = subprocess.run([formatter, *words, *glob("man/*")], stdout=subprocess.PIPE, stderr=subprocess.STDOUT, text=True)
            yield from (f"{formatter}: {line}" for line in ran.stdout.splitlines())
        else:
            print(f"pages: skipped: {formatter} isn't there")


def priority_faults(page):
    """The list of --priorities names each kind of a line below its priority; those below the last one aren't named."""
    numbers = dict(re.findall(r"^pub const ([A-Z]+): u8 = (\d);$", text_of("crates/nutjournal/src/log_buffer.rt"), re.M))
    kinds = {text: numbers[it] for text, it in re.findall(r'=> \("(.*)", ([A-Z]+), [A-Z_]+\),$', text_of("crates/nutjournal/src/tally.rt"), re.M)}
    listed = {number: re.split(r";\s+", " ".join(it.split())) for number, it in re.findall(r"^<(\d)>: ([^.]*)\.$", page, re.M)}
    if not kinds or sorted(listed) != sorted(numbers.values()) or listed[max(listed)] != ["all else"]:
        yield "man/upsd.8: no list of --priorities, or the sources have none"
    for text, number in kinds.items():
        at = [it for it, texts in listed.items() if text in texts]
        if at != [number] * (number != max(listed)):
            yield f"man/upsd.8: {text} has priority {number} by the sources"


# What a page names.

ROOTS = "crates tests docs tools man examples arm64".split()
IN_CRATES = "src specs proofs args stdout data".split()
# Of std, of the system and of the kit.
NOT_OURS = set("""epoll_wait make_contiguous docs/ANSWERS.md
    --follow-tags --ignore-missing --since --only --allow-holes --start""".split())
OPTION = re.compile(r"(?<![\w-])--[a-z][a-z-]*")
MESSAGE = re.compile(r"(?:upsd|upsc|upsrw|upscmd|from_nut|started|metrics|demodriver): (.+)")


def sources():
    """The text of each source, by its path, without what a build leaves."""
    found = [glob(f"{folder}/**/*", recursive=True) for folder in ("crates", "tests", "tools", "arm64")]
    return {it: text_of(it) for it in ["Makefile", *sum(found, [])] if os.path.isfile(it) and not re.match(r"crates/\w+/out/", it)}


def is_path(word):
    """Of the repository, or of one of its crates. What a build leaves needn't be there."""
    pattern = re.sub(r"\{[^}]*\}|\bNAME\b|\.\.", "*", word)
    return "/out/" in word or any(glob(it) for it in (word, pattern, f"crates/*/{pattern}"))


def leads(page, link):
    """Whether what a link names is there: a file, and a heading of it."""
    path, _, anchor = link.partition("#")
    path = os.path.join(os.path.dirname(page), path) if path else page
    if "://" in link or not os.path.exists(path):
        return "://" in link
    heads = re.findall(r"^#+ (.*)$", text_of(path), re.M)
    return not anchor or anchor in {re.sub(r"[^\w -]", "", it.lower()).replace(" ", "-") for it in heads}


def members_of(rust):
    """The functions, constants and variants of each type and trait of the sources."""
    members, kind = {}, None
    generics = re.compile(r"<[^<>]*>")
    head = re.compile(r"impl (?:.* for )?&?(\w+)|(?:pub(?:\(\w+\))? )?(?:struct|enum|trait) (\w+)")
    member = re.compile(r"    (?:pub(?:\(\w+\))? )?(?:(?:fn|const) )?(\w+)")
    for line in rust.splitlines():
        plain = generics.sub("", generics.sub("", line))
        if found := head.match(plain):
            kind = found[1] or found[2]
        elif found := member.match(plain):
            members.setdefault(kind, set()).add(found[1])
    return members


def messages_of(texts):
    """What the end of a message matches, for each text in quotes of the programs and tools."""
    literals = set()
    for path, text in texts.items():
        if re.match(r"crates/\w+/src/|tools/", path):
            literals |= set(re.findall(r"""["'](?:\w+: )?([^"'\n]+?)(?:\\n)*["']""", text))
    gap = re.compile(r"\{.*?\}|%s|%d|\$\{?\w+\}?")
    return [".+".join(map(re.escape, gap.split(it))) + ("[A-Z-]+" if it[-1] == " " else "")
            for it in literals if re.search(r"[a-z]{2} ?[a-z]{2}", gap.sub("", it))]


class Names:
    """What the sources name."""

    def __init__(self, texts):
        self.paths = texts
        rust = "\n".join(text for path, text in texts.items() if path.endswith(".rt"))
        self.words = {word for text in texts.values() for word in re.findall(r"\w+", text)}
        self.options = {it for text in texts.values() for it in OPTION.findall(text)}
        self.messages = messages_of(texts)
        self.defined = set(re.findall(r"\b(?:fn|const|struct|enum|trait|type|mod) (\w+)", rust))
        for text in texts.values():
            self.defined |= {"".join(it) for it in re.findall(r"^ *def (\w+)|^(\w+)\(\) *\{|\bpub (\w+)", text, re.M)}
        modules = ["laws", *os.listdir("crates"), *re.findall(r"\bmod (\w+)", rust)]
        self.members = members_of(rust) | {it: self.defined for it in modules}


def missing(page, text, names):
    """What the page names that isn't there."""
    faults = set(re.findall(r"(?<![\w/.-])[a-z]\w*?_[a-z0-9]+_\w*?_\w+(?![\w/.])", text)) - names.defined
    faults |= set(OPTION.findall(text.replace("\\-", "-"))) - names.options
    faults |= {it for it in re.findall(r"\]\(([^)]+)\)", text) if not leads(page, it)}
    for tick in re.findall(r"`([^`\n]+)`", text):
        if re.fullmatch(r"[a-z][a-z0-9]*(?:_[a-z0-9]+)+", tick):
            faults |= {tick} - names.words
        call = re.fullmatch(r"(?:\w+::)*(\w+)::(?:(\w+)|\{([\w, ]+)\})", tick)
        if call and call[1] in names.members:
            called = set((call[2] or call[3]).split(", "))
            faults |= {f"{call[1]}::{it}" for it in called - names.members[call[1]]}
        said = MESSAGE.fullmatch(tick)
        if said and not any(re.search(f"(?:^|: |@\\S+ ){it}$", said[1]) for it in names.messages):
            faults.add(tick)
        path = re.split(r"[ #]", tick)[0]
        if re.match(f"({'|'.join(ROOTS + IN_CRATES)})/", path):
            faults |= set() if is_path(path) else {path}
        elif re.fullmatch(r"[\w/]+\.(?:rt|antt|sh|py|bash)", path):
            faults |= set() if any(f"/{it}".endswith(f"/{path}") for it in names.paths) else {path}
    return sorted(faults - NOT_OURS)


# How a page is written.

# All of docs/ but what tools/proved makes of the laws.
ALL_WORDS, TELLING, CELL = 21_000, 0, 60
MADE = "docs/LAWS.md"
SIZES = {"README.md": 800, "docs/COSTS.md": 1050, "docs/ARCHITECTURE.md": 3700, "docs/CONTRIBUTING.md": 2700, "docs/PROVED.md": 1800,
         "docs/DECISIONS.md": 1150, "docs/INTEROP.md": 1800, "docs/PROTOCOL.md": 3150, "docs/OPERATING.md": 3600, MADE: 5000}  # fmt: skip
TELLS = re.compile(r"\b(?:tells?|told)\b", re.I)


def words(text):
    return len(text.split())


def of_markdown(text):
    """The paragraphs and the cells of a page."""
    text = re.sub(r"<!-- made: .*?<!-- end -->", "\n", text, flags=re.S)
    text = re.sub(r"^```.*?^```$|<!--.*?-->|^#[^\n]*$|^!\[.*?$", "\n", text, flags=re.M | re.S)
    blocks = re.split(r"\n\s*\n|\n(?=\s*(?:[-*]|\d+\.) )|\n(?=.*\|)", text)
    rows = [it for it in blocks if re.match(r"\s*\||.* \| ", it)]
    cells = [cell for row in rows for cell in re.split(r"(?<!\\)\|", row)]
    return [it for it in blocks if it not in rows and not it.lstrip().startswith(">")], cells


def of_manual(text):
    """The paragraphs of a manual page. What is tagged by .TP is one of its own."""
    text = re.sub(r"^\.(?:nf|EX)$.*?^\.(?:fi|EE)$", ".PP", text, flags=re.M | re.S)
    text = re.sub(r"^\.T[PQ].*\n(.*)$", r".PP\n\1\n.PP", text, flags=re.M)
    found = re.split(r"^\.(?:SH|SS|PP|LP|P|IP|RS|RE|TH|br|sp)\b.*$", text, flags=re.M)
    return [re.sub(r"^\.[A-Z]+ |\\[&fBIRP-]*|\"", "", it, flags=re.M) for it in found], []


def prose_faults(page, text):
    manual = page.startswith("man/")
    paragraphs, cells = of_manual(text) if manual else of_markdown(text)
    if not manual and not re.match(r"# [^\n]*\n\nFor ", text):
        yield "its first line isn't `For ..`, its reader"
    if words(text) > SIZES.get(page, ALL_WORDS):
        yield f"{words(text):,} words, of at most {SIZES[page]:,}"
    paragraph, sentence = (60, 30) if page == "README.md" else (80, 35)
    for kind, most, texts in ("paragraph", paragraph, paragraphs), ("cell", CELL, cells):
        for one in texts:
            if words(one) > most:
                yield f"a {kind} of {words(one)} words: {' '.join(one.split())[:60]}"
            for it in re.split(r"(?<=[.!?])[*`)\"]*\s", one):
                if words(it) > sentence:
                    yield f"a sentence of {words(it)} words: {' '.join(it.split())[:60]}"


def main(some):
    texts, names = {page: text_of(page) for page in some or PAGES}, Names(sources())
    failed = [f"{page} names {it}, which isn't there" for page, text in texts.items() for it in missing(page, text, names)]
    failed += [f"{page}: {it}" for page, text in texts.items() for it in prose_faults(page, text)]
    size = sum(words(text) for page, text in texts.items() if page.startswith("docs/") and page != MADE)
    telling = len(TELLS.findall("\n".join(texts.values())))
    if not some:
        failed += [f"the pages of docs/ have {size:,} words, of at most {ALL_WORDS:,}"] * (size > ALL_WORDS)
        failed += [f"tell, tells and told are used {telling} times, of at most {TELLING}"] * (telling > TELLING)
        failed += manual_faults()
        failed += ["tools/costs.py --check"] * subprocess.run(["python3", "tools/costs.py", "--check"]).returncode
        failed += ["tools/proved --check"] * subprocess.run(["tools/proved", "--check"]).returncode
    print(*(f"pages: FAILED: {it}" for it in failed), sep="\n", end="\n" if failed else "")
    print(f"pages: {size:,} words, {telling} times tell, tells or told, {len(failed)} faults")
    return bool(failed)


if __name__ == "__main__":
    sys.exit(main(sys.argv[1:]))
