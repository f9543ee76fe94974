#!/usr/bin/env python3
"""What a reader is told of the statements is so: no line of a definition or of a contract is wider than 120 columns; each promise of
docs/PROMISES.md rests on as many lines as it says (scripts/believe); the files that it names are there, and so is every edit that must be refused;
definitions that nobody need believe say so, and those that must be believed cite no others, nor the tests of the refusal table; no code stands on
the demands and requests; each request has a file of statements and one of proofs; each call has the contract that is named there, in C too; the man
page has the header's calls and numbers, and the refusals in its words. The last line is `N passed, M failed`."""
import glob
import os
import re
import subprocess

os.chdir(os.path.join(os.path.dirname(os.path.abspath(__file__)), ".."))
passed = failed = 0


def hold(what, wrong):
    global passed, failed
    if wrong:
        failed += 1
        print(f"failed: {what}")
        for line in wrong[:10]:
            print(f"    {line}")
    else:
        passed += 1


def text(path):
    with open(path, encoding="utf-8") as opened:
        return opened.read()


specs = sorted(p for p in glob.glob("crates/*/specs/*.antt") if not p.endswith("/Lib.antt"))
promises = text("docs/PROMISES.md")

wide = [f"{p}:{i}" for p in specs + sorted(glob.glob("crates/*/src/*.rt")) for i, line in enumerate(text(p).split("\n"), 1) if len(line) > 120]
hold("definitions and contracts of at most 120 columns", wide)

figures = re.findall(r"^\| [^|]+ \| ((?:`[\w.-]+` ?)+)\| ([\d,]+) \| ([\d,]+|-) \|$", promises, re.M)
demands = ["Demand1", "Demand2", "Demand3", "TurnedAway", "Taken", "Written.Written", "InOrder", "LeastIndices"]


def lines_of(*words):
    ran = subprocess.run(["scripts/believe", *words], capture_output=True, text=True, check=False)
    last = re.search(r"(\d+) lines$", ran.stdout.strip())
    return int(last[1]) if last else ran.stderr.strip()


wrong = []
for names, lines, beside in figures:
    words = re.findall(r"`([^`]+)`", names)
    for said, counted in ((lines, lines_of(*words)), (beside, lines_of(*words, "--beside", *demands) if beside != "-" else "-")):
        if said.replace(",", "") != str(counted):
            wrong.append(f"{names.strip()}: {counted}, not {said}")
hold("every promise rests on the lines that docs/PROMISES.md says", wrong or ([] if len(figures) > 12 else [f"only {len(figures)} rows were found"]))
few = [f"{names}: {lines}" for names, lines, beside in figures if int(lines.replace(",", "")) > 850 and names.split() == ["`Demand1`", "`Demand2`", "`Demand3`"]]
few += [f"{names}: {beside}" for names, _, beside in figures if beside != "-" and int(beside.replace(",", "")) > 150]
hold("the three demands rest on 850 lines or fewer, a request on 150 of its own", few)

places = set(re.findall(r"\b([a-z]+)/(specs|proofs)/([A-Z]\w*)", promises))
hold("every file that docs/PROMISES.md names is there", [f"{c}/{k}/{n}" for c, k, n in sorted(places) if not os.path.exists(f"crates/{c}/{k}/{n}.antt")] or ([] if len(places) > 60 else [f"only {len(places)} were found"]))

believed = {"lists", "integers", "sets", "pairs", "clusters", "answers", "interface", "demands", "requests"}
head = {p: text(p).split("\nuse ")[0].replace("\n-- ", " ") for p in specs}
hold("what is the code's own vocabulary says so", [p for p in specs if p.split("/")[1] not in believed and "believe" not in head[p]])
cited = [f"{p}: {c}" for p in specs if p.split("/")[1] in believed for c in re.findall(r"^(?:pub )?use Rattle\.(\w+)", text(p), re.M) if c not in believed | {"std"}]
hold("what must be believed cites nothing else", cited)

worded = [p for p in specs if p.split("/")[1] in ("demands", "requests")]
hold(
    "what is said in words cites no test of the refusal table",
    [p for p in worded if "specs.Refusals." in text(p)] or ([] if len(worded) > 12 else [f"only {len(worded)} files were found"]),
)
stated = dict(re.findall(r"^(\w+)(?: staticlib)?:(.*)$", text("crates.txt"), re.M))
hold(
    "no code stands on the demands and requests",
    [f"crates.txt: {c}" for c, needs in stated.items() if c != "requests" and {"demands", "requests"} & set(needs.split())]
    + [p for p in glob.glob("crates/*/src/*.rt") if re.search(r"Rattle\.(demands|requests)\b", text(p))],
)
rooms = {p.split("/")[3] for p in worded if "/requests/" in p}
hold("each request has a file of statements and one of proofs", [p for p in rooms if not os.path.exists(f"crates/requests/proofs/{p}")] or ([] if len(rooms) > 5 else ["few were found"]))

named = []
tables = promises[promises.index("| in C |") : promises.index("## The sheet")] + promises[promises.index("## Wrong versions") :]
for section in re.findall(r"^\|.*$|^Further ones.*?(?=\n\n)", tables, re.M | re.S):
    for word in re.findall(r"(?<![\w/:])(?:([a-z]+)/)?([a-z]+(?:_[a-zA-Z0-9]+)+)(?![\w(/])", re.sub(r"`[^`]*`", "", section)):
        named.append(word)
edits = {tuple(p[:-5].split("/")[1::2]) for p in glob.glob("crates/*/must-fail/*.edit")}
edits |= {("forged", p[:-5].split("/")[2]) for p in glob.glob("tests/forged/*.edit")}
labels = {label for _, label in edits}
functions = set(re.findall(r"fn (\w+)", "".join(text(p) for p in glob.glob("crates/*/src/*.rt"))))
missing = [f"{c or '?'}/{label}" for c, label in named if ((c, label) not in edits if c else label not in labels | functions)]
hold("every edit that docs/PROMISES.md names is there", missing)
hold("it names edits", [] if len(named) > 40 else [f"only {len(named)} were found"])

sources = "".join(text(p) for p in sorted(glob.glob("crates/*/src/*.rt")))
calls = promises[promises.index("| call | function | contract |") : promises.index("## The sheet")]
unlike, seen = [], 0
for row in re.findall(r"^\| .*`.*$", calls, re.M):
    cells = row.strip("|").split(" | ")
    place = 0 if "`farzhudyl_" in cells[0] else 1
    functions = re.findall(r"`(?:\w+::)?(\w+)`", cells[place])
    stated = re.findall(r"`(\w+)`", re.split(r": |, by| in ", cells[place + 1])[0])
    pairs = zip(functions, [[word] for word in stated]) if len(functions) == len(stated) else [(f, stated) for f in functions]
    for function, words in pairs:
        contracts = re.findall(rf"fn {function}\(.*?\n(.*?)^\{{", sources, re.M | re.S)
        seen += 1
        if not any(all(re.search(rf"\b{word}\b", contract) for word in words) for contract in contracts):
            unlike.append(f"{function}: {words}")
hold("every call has the contract that docs/PROMISES.md names", unlike or ([] if seen > 18 else [f"only {seen} were found"]))



def for_c(crate):
    """What a crate has for C: its functions and its imports, with the layout left out."""
    source = text(f"crates/{crate}/src/lib.rt")
    stated = re.findall(r'^pub (?:extern "C" )?fn (farzhudyl_\w+)(.*?)^\{', source, re.M | re.S)
    brought = re.findall(r"^ghost use ([\w.]+)\.\{([^}]*)\}", source, re.M)
    return {(name, re.sub(r"\s", "", rest).replace(",)", ")")) for name, rest in stated}, {(m, n.strip()) for m, names in brought for n in names.split(",")}


(faces, cited), (exported, brought) = for_c("farzhudyl"), for_c("farzhudyl_c")
hold("crate farzhudyl_c exports crate farzhudyl's functions with their contracts", sorted(faces ^ exported) + sorted(brought - cited) or ([] if len(faces) > 8 else ["few were found"]))

header, page = text("include/farzhudyl.h"), text("man/farzhudyl.3")
code = re.sub(r"/\*.*?\*/", "", header, flags=re.S)
declared = [" ".join(call.split()) for call in re.findall(r"^\w+ farzhudyl_\w+\([^;]*\);", code, re.M)]
shown = [
    answer + " " + name + "(" + ", ".join(re.findall(r'^[.]Fa "(.*)"$', words, re.M)) + ");"
    for answer, name, words in re.findall(r"^\.Ft (\S+)\n\.Fo (\S+)\n(.*?)^\.Fc$", page, re.M | re.S)
]
hold("the man page has the header's calls", sorted(set(declared) ^ set(shown)) or ([] if len(declared) > 8 else ["few calls were found"]))
numbers = set(re.findall(r"^#define (\w+) (\d+)$", code, re.M)) | set(re.findall(r"(FARZHUDYL_\w+) = (\d+)", code))
told = set(re.findall(r"^(?:\.Dv|\.Pq Dv) (FARZHUDYL_\w+)\n\((\d+)\)", page, re.M))
hold("the man page has the header's numbers", sorted(told - numbers) or ([] if len(told) > 8 else [f"only {sorted(told)} were found"]))


def plain(words):
    """A sentence without marks, macros and spaces."""
    return re.sub(r"\W", "", re.sub(r"^\.(Fa|Fn) ", "", words, flags=re.M)).replace("()", "")


table = re.findall(r"^ {5,6}(\d+)  (.*?)(?=^ {5,6}\d+  |^\n)", header[header.index("REFUSALS") :], re.M | re.S)
listed = re.findall(r"^\.It (\d+)\n(.*?)(?=^\.It|^\.El)", page[page.index(".Ss Refusals") :], re.M | re.S)
hold(
    "the man page has the header's refusals",
    [f"{a} {b!r}, {c} {d!r}" for (a, b), (c, d) in zip(table, listed) if (a, plain(b)) != (c, plain(d))]
    or ([] if len(table) == len(listed) == 19 else [f"{len(table)} and {len(listed)} were found"]),
)

print(f"{passed} passed, {failed} failed")
raise SystemExit(failed != 0)
