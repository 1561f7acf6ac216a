"""Lists the calls that crates offer to others, with the clauses of their contracts that say what holds where they fail.

    python3 tools/public_calls.py [--missing] [CRATE..]

Of a call that can fail three things have to be said: which number a refusal has, that the input has its fault, and that what it was lent to change is then
as it was. The table has a line for each call: what it may answer (`memory`, or the type of its error; nothing where it can't fail), and the names of the
clauses for each of the three. `!` marks what is missing, `-` what needs no clause. With --missing it lists only the calls with a `!`. It ends with a
count for each crate.

A call is offered where another crate can reach it: a `pub fn` of a public module or one that `pub use` of src/lib.rt names, and each method of a type or a
trait that is named so or that such a call hands out. An impl of a trait also has the clauses of that trait. What `derive` writes isn't listed: it takes
`&self` alone. The text is read, and not proved: a clause counts by its words, and `rt check` says whether it holds.
"""

import collections
import re
import sys

from repository import ROOT, crates_below

# Crates of definitions, examples and tests, and the program, which nobody calls.
LEFT_OUT = {"profile", "example_cases", "text_examples", "worked_examples", "command_examples", "schedule_examples", "device_tests", "roombox"}
# What can't be put back after a failure, by the trait that it has, with the reason.
NOT_PUT_BACK = {
    "Input": "octets that were read are gone; other clauses say which",
    "Output": "octets that were written are gone; other clauses say which",
    "Folder": "it stands for a disk; other clauses say what a failure may leave",
    "Journal": "what it was told is told; other clauses say of which objects",
}
# The word of a definition that is all that a value means to others: a clause that it is the same holds after a failure too.
WHOLE_MEANING = {
    "calendar": "the calendar is what is drawn; how much was drawn is only counted",
    "compared": "a new series means the series that it is; what else it keeps saves time",
}

LITERAL = re.compile(r'//[^\n]*|b?"(?:\\.|[^"\\])*"|b?\'(?:\\[^\']+|[^\'\\\n])\'', re.DOTALL)
ITEM = re.compile(r"(?:^|(?<=[\s{};]))(pub(?:\(\w+\))?\s+)?(fn|struct|enum|trait|impl|mod|use|type|const|static|ghost)\b")
NAME = re.compile(r"\s*(\w+)")
CLAUSE = re.compile(r"\s*(requires|ensures)\s*(\w*)\s*\{")
END = re.compile(r"[;{]")
END_OF_TYPES = re.compile(r"\b(?:requires|ensures)\b|[;{]")
VARIANT = re.compile(r"(\w+)\s*(?:\(([^)]*)\)|\{([^}]*)\})?\s*(?:,|$)")
# How a clause says that it is about a failure: of a Result, and of an Option that holds a refusal.
OF_ERROR = re.compile(r"\b(?:IfErr|OnErr|IsErrAnd|IsErrOf|MatchResult) result\b")
OF_SOME = re.compile(r"\b(?:IfSome|MatchOption) result\b")
# A relation that is handed the whole result tells its cases apart itself.
OF_WHOLE = re.compile(r"\b([A-Z]\w*) [^→×⊎]*(?<=[ )])result *(?:\)|$)")
OF_GOOD = re.compile(r"\b(?:IfOk|OnOk|IfSome|IfNone|OnSome|IsTrue|IsSome|IsNone) result\b")
# How a clause names a number.
NUMBERED = re.compile(r"\bnumber\b|Refus|Fault\b|_fault\b|≡ twice|≡ not_once")

Call = collections.namedtuple("Call", "owner trait name generics parameters answer clauses is_open")


# ---- the text of a file


def blanked(text):
    """The text with comments and literals blanked out, so that its brackets pair."""
    return LITERAL.sub(lambda found: re.sub(r"[^\n]", " ", found.group()), text)


def is_end_of_angle(text, place):
    return text[place] == ">" and text[place - 1] not in "-="


def closing(text, start, pairs=("()", "[]", "{}")):
    """The place behind the bracket that pairs with the one at `start`."""
    depth = 0
    for place in range(start, len(text)):
        if any(text[place] == pair[0] for pair in pairs):
            depth += 1
        elif any(text[place] == pair[1] and (pair != "<>" or is_end_of_angle(text, place)) for pair in pairs):
            depth -= 1
            if depth == 0:
                return place + 1
    raise ValueError(f"nothing closes {text[start : start + 40]!r}")


def parts_of(text):
    """What the commas of a list set apart, and not those inside of brackets."""
    parts, depth, begun = [], 0, 0
    for place, letter in enumerate(text):
        depth += (letter in "([{<") - (letter in ")]}" or is_end_of_angle(text, place))
        if letter == "," and depth == 0:
            parts.append(text[begun:place].strip())
            begun = place + 1
    return [part for part in [*parts, text[begun:].strip()] if part]


def bare(name):
    """The name of a type without its parameters and borrows."""
    return re.sub(r"<.*|&|'\w+|\bmut\b|\bdyn\b", "", name, flags=re.DOTALL).strip()


class Source:
    """What a file declares: calls, types with the words of what is public in them, enums, modules and what it passes on."""

    def __init__(self, path):
        self.text = blanked(path.read_text(encoding="utf-8"))
        self.calls, self.types, self.enums, self.modules, self.uses, self.aliases = [], {}, {}, {}, [], {}
        self.traits = set()
        self.items(0, len(self.text), None, None)

    def items(self, place, end, owner, trait):
        while found := ITEM.search(self.text, place, end):
            is_open = (found.group(1) or "").strip() == "pub"
            kind, after = found.group(2), found.end()
            if kind == "fn":
                place = self.call(after, owner, trait, is_open)
            elif kind in ("impl", "trait"):
                place = self.block(after, kind, is_open)
            else:
                place = self.passed(after)
                self.noted(kind, after, place, is_open)

    def passed(self, place):
        """The place behind an item: its `;`, or what closes its brace."""
        end = END.search(self.text, place)
        return end.end() if end.group() == ";" else closing(self.text, end.start())

    def noted(self, kind, start, end, is_open):
        words = " ".join(self.text[start:end].split())
        if kind == "use" and is_open:
            self.uses.append(words)
            return
        name = NAME.match(self.text, start)
        if kind == "mod":
            self.modules[name.group(1)] = is_open
        elif kind == "struct" and is_open:
            self.types[name.group(1)] = " ".join(re.findall(r"\bpub (\w+ ?: ?[^{};]*?)(?=\bpub\b|\bghost\b|[{};]|$)", words))
        elif kind == "enum":
            self.enums[name.group(1)] = re.sub(r"#\[[^\]]*\]", "", words[words.index("{") + 1 : -1])
            if is_open:
                self.types[name.group(1)] = words
        elif kind == "type" and is_open:
            self.aliases[name.group(1)] = words

    def block(self, place, kind, is_open):
        """An impl or a trait, with its calls."""
        begun = self.text.index("{", place)
        end = closing(self.text, begun)
        head = self.text[place:begun].strip()
        if head.startswith("<"):
            head = head[closing(head, 0, ["<>"]) :]
        head = head.split(" where ")[0]
        first, mark, second = head.partition(" for ")
        owner, trait = (bare(second), bare(first)) if mark else (bare(head.split(":")[0]), None)
        if kind == "trait":
            trait = owner
            if is_open:
                self.types[owner] = ""
            self.traits.add(owner)
        self.items(begun + 1, end - 1, owner, trait)
        return end

    def call(self, place, owner, trait, is_open):
        name = NAME.match(self.text, place)
        place, generics = name.end(), ""
        if self.text[place] == "<":
            place = closing(self.text, place, ["<>"])
            generics = self.text[name.end() : place]
        after = closing(self.text, place)
        stop = END_OF_TYPES.search(self.text, after).start()
        answer, _, bounds = " ".join(self.text[after:stop].split()).removeprefix("->").partition(" where ")
        clauses = []
        end = stop
        while clause := CLAUSE.match(self.text, end):
            end = closing(self.text, clause.end() - 1)
            clauses.append((clause.group(1), clause.group(2), " ".join(self.text[clause.end() : end - 1].split())))
        parameters = parts_of(" ".join(self.text[place + 1 : after - 1].split()))
        is_open = is_open or trait is not None
        self.calls.append(Call(owner, trait, name.group(1), generics + bounds, parameters, answer.strip(), clauses, is_open))
        return self.passed(end)


# ---- what a crate offers


class Crate:
    """The files of a crate by module, and what others can reach."""

    def __init__(self, name):
        self.name = name
        folder = ROOT / "crates" / name / "src"
        self.sources = {path.stem: Source(path) for path in sorted(folder.glob("*.rt"))}
        root = self.sources["lib"]
        self.open_modules = {"lib"} | {module for module, is_open in root.modules.items() if is_open}
        self.named = set()
        for use in root.uses:
            module, _, names = use.rstrip(";").partition("::")
            if module in self.sources:
                self.named |= {name.split(" as ")[0].strip() for name in parts_of(names.strip("{} "))}
        self.calls = self.offered()

    def can_be_named(self, module, name):
        return module in self.open_modules or name in self.named

    def offered(self):
        """The calls that can be reached: those by name first, then those of the types that they hand out."""
        words = {}
        for module, source in self.sources.items():
            for name, said in {**source.types, **source.aliases}.items():
                words[name] = (self.can_be_named(module, name), said)
        types = {name for name, (is_named, _) in words.items() if is_named}
        found = []
        while True:
            calls = [call for module, source in self.sources.items() for call in source.calls if self.is_offered(module, call, types, words)]
            said = " ".join([call.answer for call in calls] + [words[name][1] for name in types])
            more = types | (set(re.findall(r"\w+", said)) & set(words))
            if more == types and len(calls) == len(found):
                return calls
            types, found = more, calls

    def is_offered(self, module, call, types, words):
        if not call.is_open:
            return False
        if call.owner is None:
            return self.can_be_named(module, call.name)
        # a type of std or of another crate that a trait of this one is for
        is_foreign = call.owner not in words and call.trait in types
        return call.owner in types or is_foreign


def title(call):
    return f"{call.owner}::{call.name}" if call.owner else call.name


# ---- what is said of a failure


def relations_that_refuse():
    """The relations of the specifications that have a case for a refusal by its number."""
    found = set()
    for path in (ROOT / "crates").glob("*/specs/**/*.antt"):
        for name, left in re.findall(r"^([A-Z]\w*) ([^\n]*)=", path.read_text(encoding="utf-8"), re.MULTILINE):
            if "Refused" in left:
                found.add(name)
    return found


class Contracts:
    """All crates, with the kinds of failure that each error type has, the clauses of each trait, and the relations that judge a refusal."""

    def __init__(self, crates):
        self.enums, self.traits, self.relations = {}, {}, relations_that_refuse()
        for crate in crates:
            for source in crate.sources.values():
                self.enums.update(source.enums)
                self.traits.update({(call.trait, call.name): call.clauses for call in source.calls if call.trait == call.owner and call.trait})

    def kinds(self, error):
        """What an error tells apart: `memory`, `number` for a refusal, and `other` for what has no number."""
        name = bare(error)
        if name in ("AllocError", "AllocFailed"):
            return {"memory"}
        if name == "Refusal":
            return {"number"}
        if name == "io::Error":
            return {"other"}
        found = set()
        for variant, held, _ in VARIANT.findall(self.enums.get(name, "")):
            inner = set().union(*(self.kinds(it) for it in parts_of(held) if bare(it) in self.enums or bare(it) in ("AllocError", "Refusal")), set())
            found |= {"memory"} if variant == "Memory" else inner or {"other"}
        return found

    def failure(self, call):
        """The error that a call may answer, and how a clause says that it is about it; None where it can't fail."""
        if call.answer.startswith("io::Result<"):
            return "io::Error", OF_ERROR
        if call.answer.startswith("Result<"):
            return parts_of(call.answer[call.answer.index("<") + 1 : -1])[-1], OF_ERROR
        if call.answer.startswith("Option<") and "number" in self.kinds(call.answer[7:-1]):
            return call.answer[7:-1], OF_SOME
        return None

    def names_number(self, words):
        """Whether a clause says of which number a refusal is, itself or by a relation that has a case for it."""
        relation = OF_WHOLE.search(words)
        return NUMBERED.search(words) or (relation and relation.group(1) in self.relations)

    def clauses(self, call):
        inherited = self.traits.get((call.trait, call.name), []) if call.trait != call.owner else []
        return [(kind, name or "the clause", words) for kind, name, words in [*call.clauses, *inherited]]


def lent(call):
    """What a call may change: each `&mut` parameter with the trait or type that it has."""
    for parameter in call.parameters:
        if re.match(r"&(?:'\w+ )?mut self\b", parameter):
            yield "self", call.trait or call.owner
        elif found := re.match(r"(?:mut )?(\w+) ?: ?&(?:'\w+ )?mut (.*)", parameter):
            bound = re.search(rf"\b{re.escape(found[2])} ?: ?(\w+)", call.generics)
            yield found[1], bound.group(1) if bound else bare(found[2])


def says_of(words, about):
    return about.search(words) or (OF_WHOLE.search(words) and not OF_GOOD.search(words))


def same_meaning(words):
    """Whether a clause says of a value, after each call, that all it means is the same."""
    found = re.fullmatch(r"(?:\w+\.)?(\w+) (\w+)\.new ≡ (?:\w+\.)?(\w+) (\w+)\.old", words)
    return found and found[1] == found[3] and found[1] in WHOLE_MEANING and found[2] == found[4]


def kept(name, said):
    """The clauses that compare what was lent with what it is afterwards."""
    both = [clause for clause, words in said if re.search(rf"\b{name}\.old\b", words) and re.search(rf"\b{name}\.new\b", words)]
    return ", ".join(both) or "!"


class Row:
    """What the contract of a call says of its failures."""

    def __init__(self, contracts, call):
        self.title = title(call)
        if call.trait and call.trait != call.owner:
            self.title += f" ({call.trait})"
        clauses = contracts.clauses(call)
        self.asks = [name for kind, name, _ in clauses if kind == "requires"]
        self.is_law = not call.parameters and not call.answer
        failure = contracts.failure(call)
        self.answer, self.number, self.fault, self.unchanged = "", "-", "-", []
        if failure is None:
            return
        error, about = failure
        kinds = contracts.kinds(error)
        self.answer = "memory" if kinds == {"memory"} else bare(error)
        said = [(name, words) for kind, name, words in clauses if kind == "ensures" and says_of(words, about)]
        if kinds != {"memory"}:
            self.judge(contracts, call, kinds, said)
        always = [(name, words) for _, name, words in clauses if same_meaning(words)]
        for name, kind in lent(call):
            self.unchanged.append((name, "not put back" if kind in NOT_PUT_BACK else kept(name, said + always)))

    def judge(self, contracts, call, kinds, said):
        """Which clauses name the number, and which tie it to the input."""
        names = [re.match(r"(?:&(?:'\w+ )?)?(?:mut )?(\w+)", it).group(1) for it in call.parameters]
        of_input = re.compile(r"\b(?:" + "|".join(names or ["$"]) + r")\b")
        numbered = [(name, words) for name, words in said if contracts.names_number(words)]
        if "number" in kinds:
            self.number = ", ".join(name for name, _ in numbered) or "!"
        of_fault = said if kinds in ({"number"}, {"other"}, {"other", "memory"}) else numbered
        self.fault = ", ".join(name for name, words in of_fault if of_input.search(words)) or "!"

    def is_whole(self):
        return "!" not in (self.number, self.fault, *(said for _, said in self.unchanged))

    def line(self):
        unchanged = "; ".join(f"{name}: {said}" for name, said in self.unchanged) or "-"
        asks = f"  asks {', '.join(self.asks)}" if self.asks else ""
        return f"  {self.title:<46} {self.answer:<14} {self.number:<18} {self.fault:<24} {unchanged}{asks}"


def main(words):
    is_short = "--missing" in words
    wanted = [word for word in words if not word.startswith("--")]
    crates = [Crate(name) for name in crates_below() if name not in LEFT_OUT and (ROOT / "crates" / name).is_dir()]
    contracts = Contracts(crates)
    print(f"  {'call':<46} {'may answer':<14} {'number':<18} {'fault':<24} unchanged")
    counts = {}
    for crate in crates:
        if wanted and crate.name not in wanted:
            continue
        rows = [Row(contracts, call) for call in crate.calls]
        shown = [row for row in rows if not (is_short and row.is_whole())]
        if shown:
            print(crate.name)
        for row in shown:
            print(row.line())
        counts[crate.name] = rows
    print(f"\n  {'crate':<20} {'calls':>6} {'laws':>6} {'never fail':>11} {'memory':>7} {'refuse':>7} {'missing':>8} {'ask':>5}")
    for name, rows in counts.items():
        laws, memory = sum(row.is_law for row in rows), sum(row.answer == "memory" for row in rows)
        never, missing = sum(not row.answer and not row.is_law for row in rows), sum(not row.is_whole() for row in rows)
        refuse = len(rows) - laws - memory - never
        print(f"  {name:<20} {len(rows):>6} {laws:>6} {never:>11} {memory:>7} {refuse:>7} {missing:>8} {sum(bool(row.asks) for row in rows):>5}")
    for head, reasons in (("Not put back after a failure", NOT_PUT_BACK), ("The same after each call", WHOLE_MEANING)):
        print(f"\n{head}: " + "; ".join(f"{name} ({reason})" for name, reason in reasons.items()))


if __name__ == "__main__":
    main(sys.argv[1:])
