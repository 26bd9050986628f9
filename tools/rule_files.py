"""Reads the file of a model by rules, and simulates it, as docs/RULES.md says: nothing here comes from the program, and `random-rules`
compares the program with it.

`read(text)` returns a Model, or raises Refused; `simulate(model)` returns what `seq` prints."""
import heapq
import re
import tomllib
from dataclasses import dataclass, field

import distributions

WORD = 2**64
MOST = WORD - 1
LETTERS = ["a", "b", "c", "d"]
LEVELS = [["||"], ["&&"], ["==", "!=", "<", "<=", ">", ">="], ["|"], ["^"], ["&"], ["<<", ">>"], ["+", "-"], ["*", "/", "%"]]
COMPARED = 2
FUNCTIONS = {"min": 2, "max": 2, "draw": 1, "exponential": 1, "geometric": 1, "normal": 2, "triangular": 3}
DRAWING = {"draw", "exponential", "geometric", "normal", "triangular", "choose"}
WORDS = {"let", "send", "to", "after", "with", "if", "else", "repeat", "min", "max", "draw", "key", "self", "sender", "now", "lps",
         "exponential", "geometric", "normal", "triangular", "choose"}
MOST_STEPS, MOST_KIND_STEPS = 65_536, 65_280


class Refused(Exception):
    """The file describes no model."""


class Cut(Exception):
    """The run has more events than were asked for."""


def operate(sign, x, y):
    match sign:
        case "*": return min(x * y, MOST)
        case "/": return x // y if y else 0
        case "%": return x % y if y else 0
        case "+": return min(x + y, MOST)
        case "-": return max(x - y, 0)
        case "<<": return x << y & MOST if y < 64 else 0
        case ">>": return x >> y if y < 64 else 0
        case "&": return x & y
        case "^": return x ^ y
        case "|": return x | y
        case "==": return int(x == y)
        case "!=": return int(x != y)
        case "<": return int(x < y)
        case "<=": return int(x <= y)
        case ">": return int(x > y)
        case ">=": return int(x >= y)
        case "&&": return int(x > 0 and y > 0)
        case "||": return int(x > 0 or y > 0)
        case "min": return min(x, y)
        case "max": return max(x, y)


def drawn(key, process, place):
    """Returns the first word of PCG-XSH-RR 64/32 (O'Neill 2014) with this key as its state, in the stream of this process and place."""
    increment = (16 * process + place) * 2 + 1
    state = ((key + increment) * 6364136223846793005 + increment) % WORD
    turned = state >> 59
    word = (((state >> 18) ^ state) >> 27) % 2**32
    return (word >> turned | word << (32 - turned)) % 2**32


# ---- files

def is_name(text):
    return isinstance(text, str) and re.fullmatch(r"[A-Za-z_][A-Za-z0-9_]{0,63}", text) is not None and text not in WORDS


def number(value, least=0, most=2**63 - 1):
    if isinstance(value, bool) or not isinstance(value, int) or not least <= value <= most:
        raise Refused(f"{value!r} is no number from {least} to {most}")
    return value


def names(value, most):
    if not isinstance(value, list) or len(value) > most or not all(is_name(name) for name in value):
        raise Refused(f"{value!r} is no list of at most {most} names")
    return value


@dataclass
class Array:
    count: int
    bits: int

    def words(self):
        return -(-self.count // (64 // self.bits))


@dataclass
class Kind:
    """Processes with one state and one pair of rules. A file without kinds has one, without a name."""
    name: str | None
    first: int
    count: int
    state: list                   # words and arrays, in the order of the state
    arrays: dict
    content: list
    texts: dict
    rules: dict = field(default_factory=dict)

    def width(self, keyed):
        words = sum(self.arrays[name].words() if name in self.arrays else 1 for name in self.state)
        return words + (keyed and "key" not in self.state)


@dataclass
class Model:
    lps: int
    end: int
    seed: int
    keyed: bool
    has_kinds: bool
    numbers: dict
    tables: dict
    sorts: dict                   # name -> number
    widths: dict                  # name of a sort -> how many words stand behind its number
    fields: dict                  # name -> place
    kinds: list

    def kind_of(self, process):
        return next(kind for kind in self.kinds if kind.first <= process < kind.first + kind.count)

    def width(self):
        return max(kind.width(self.keyed) for kind in self.kinds)


def read_state(items):
    if not isinstance(items, list):
        raise Refused("state is no list")
    state, arrays = [], {}
    for item in items:
        array = re.fullmatch(r"([^\[]*)\[(\d+)\]: (\d+) bits?", item) if isinstance(item, str) else None
        if is_name(item) or item == "key":
            state.append(item)
        elif array and is_name(array[1]) and 1 <= int(array[2]) <= 1024 and 1 <= int(array[3]) <= 64:
            state.append(array[1])
            arrays[array[1]] = Array(int(array[2]), int(array[3]))
        else:
            raise Refused(f"{item!r} is no name and no array")
    return state, arrays


def read_sorts(table):
    sorts, widths, fields = {}, {}, {}
    if not isinstance(table, dict) or len(table) > 1024:
        raise Refused("messages is no table of at most 1024 sorts")
    for place, (name, words) in enumerate(sorted(table.items(), key=lambda entry: entry[0].encode())):
        if not is_name(name):
            raise Refused(f"{name!r} is no name of a sort")
        sorts[name] = place
        widths[name] = len(names(words, 3))
        for at, word in enumerate(words, 1):
            if word != "_" and fields.setdefault(word, at) != at:
                raise Refused(f"{word} has two places")
    return sorts, widths, fields


def read_kind(table, name, first, count, sorted_):
    if not isinstance(table, dict):
        raise Refused("a kind is no table")
    state, arrays = read_state(table.get("state"))
    if sorted_ and "message" in table:
        raise Refused("message beside messages")
    return Kind(name, first, count, state, arrays, names(table.get("message", []), 4), {})


def named(table, is_table):
    if not isinstance(table, dict) or len(table) > 1024 or not all(is_name(name) for name in table):
        raise Refused("no table of names")
    for value in table.values():
        if is_table and (not isinstance(value, list) or not value):
            raise Refused("an empty table")
        for entry in value if is_table else [value]:
            number(entry)
    return table


def only(table, *keys):
    if set(table) - set(keys):
        raise Refused(f"keys {set(table) - set(keys)}")


def read(text):
    """Returns the model that a file describes."""
    try:
        file = tomllib.loads(text)
    except tomllib.TOMLDecodeError as error:
        raise Refused(str(error)) from error
    if file.get("model") != "rules":
        raise Refused("another model")
    has_kinds = "kind" in file
    sorts, widths, fields = read_sorts(file["messages"]) if "messages" in file else ({}, {}, {})
    kinds = []
    if has_kinds:
        only(file, "model", "end", "seed", "messages", "numbers", "tables", "kind")
        if not isinstance(file["kind"], list) or not 1 <= len(file["kind"]) <= 64:
            raise Refused("1 to 64 kinds")
        first = 0
        for table in file["kind"]:
            kind = read_kind(table, table.get("name"), first, number(table.get("count"), 1, 65536), "messages" in file)
            only(table, "name", "count", "state", "message", "start", "handle")
            if not is_name(kind.name):
                raise Refused("a kind without a name")
            kind.texts = {rule: table.get(rule) for rule in ("start", "handle")}
            kinds.append(kind)
            first += kind.count
    else:
        only(file, "model", "lps", "end", "seed", "message", "messages", "state", "numbers", "tables", "rules")
        kind = read_kind(file, None, 0, number(file.get("lps"), 1, 65536), "messages" in file)
        if not isinstance(file.get("rules"), dict):
            raise Refused("no rules")
        only(file["rules"], "start", "handle")
        kind.texts = {rule: file["rules"].get(rule) for rule in ("start", "handle")}
        kinds.append(kind)
    lps = sum(kind.count for kind in kinds)
    keyed = any("key" in kind.state for kind in kinds)
    if ("seed" in file) != keyed:
        raise Refused("a seed without a key, or a key without a seed")
    model = Model(lps, number(file.get("end"), 1, 2**40), number(file.get("seed", 0)), keyed, has_kinds, named(file.get("numbers", {}), False),
                  named(file.get("tables", {}), True), sorts, widths, fields, kinds)
    if lps > 65536 or sum(map(len, model.tables.values())) > 2**20:
        raise Refused("too many processes or numbers")
    for kind in kinds:
        if kind.width(has_kinds and keyed) > 16:
            raise Refused("more than 16 words")
        given = [*kind.state, *kind.content, *LETTERS[len(kind.content):], *model.numbers, *model.tables, *sorts, *fields]
        given += [other.name for other in kinds if has_kinds]
        if len(set(given)) != len(given):
            raise Refused("a name is there twice")
        kind.rules = {rule: read_rule(model, kind, kind.texts[rule]) for rule in ("start", "handle")}
    return model


# ---- rules

TOKEN = re.compile(r"\s*(?:#[^\n]*\n?\s*)*(?:([A-Za-z_][A-Za-z0-9_]*)|([0-9][0-9_]*)|(<<|>>|<=|>=|==|!=|&&|\|\||\.count(?![A-Za-z0-9_])|[-+*/%&|^!<>=(){}\[\],]))")
SPACE = re.compile(r"\s*(?:#[^\n]*\n?\s*)*")


def lexemes(text):
    at, found = 0, []
    while True:
        at = SPACE.match(text, at).end()
        if at == len(text):
            return found
        token = TOKEN.match(text, at)
        if token is None:
            raise Refused(f"no lexeme at {text[at:at + 9]!r}")
        at = token.end()
        if token[2]:
            digits = token[2]
            if "__" in digits or digits.endswith("_") or text[at:at + 1].isalpha() or int(digits.replace("_", "")) > MOST:
                raise Refused(f"{digits} is no number")
            found.append(int(digits.replace("_", "")))
        else:
            found.append(token[1] or token[3])
            if token[1] and len(token[1]) > 64:
                raise Refused("a long name")


class Reader:
    """Reads the rules of a kind."""

    def __init__(self, model, kind, text):
        self.model, self.kind, self.left, self.local = model, kind, lexemes(text), []
        self.words = [word for word in kind.state if word != "key" and word not in kind.arrays]
        self.content = {name: place for place, name in enumerate(kind.content + LETTERS[len(kind.content):])} | model.fields
        self.kinds = {other.name: other for other in model.kinds} if model.has_kinds else {}
        self.bare = False             # whether `self` would be a process: in a receiver, outside of [ ]

    def next(self):
        if not self.left:
            raise Refused("the text ends")
        return self.left.pop(0)

    def peek(self, place=0):
        return self.left[place] if place < len(self.left) else None

    def want(self, *tokens):
        for token in tokens:
            if self.next() != token:
                raise Refused(f"{token} is missing")

    def has(self, token):
        if self.peek() != token:
            return False
        self.left.pop(0)
        return True

    def is_used(self, name):
        return (name in WORDS or name in self.local or name in self.words or name in self.kind.arrays or name in self.content
                or name in self.model.numbers or name in self.model.tables or name in self.model.sorts or name in self.kinds)

    def new_name(self):
        name = self.next()
        if not isinstance(name, str) or not re.match(r"[A-Za-z_]", name) or self.is_used(name) or len(self.local) == 16:
            raise Refused(f"{name} is no new name")
        return name

    def value(self, depth, level=0):
        if level == len(LEVELS):
            return self.single(depth)
        x = self.value(depth, level + 1)
        while self.peek() in LEVELS[level]:
            x = (self.next(), x, self.value(depth, level + 1))
            if level == COMPARED:
                break
        return x

    def index(self, depth):
        bare, self.bare = self.bare, False
        self.want("[")
        x = self.value(depth - 1)
        self.want("]")
        self.bare = bare
        return x

    def receiver(self, depth):
        self.bare = True
        x = self.value(depth)
        self.bare = False
        return x

    def content_of_sort(self, depth):
        """Reads the content of a message of a sort: its name, and as many words as it has."""
        self.want("with")
        sort = self.next()
        if sort not in self.model.sorts:
            raise Refused("a message without a sort")
        words = [("number", self.model.sorts[sort])]
        while self.has(","):
            words.append(self.value(depth))
        if len(words) != 1 + self.model.widths[sort]:
            raise Refused(f"{sort} has {self.model.widths[sort]} words")
        return words

    def single(self, depth):
        if depth == 0:
            raise Refused("too deep")
        token = self.next()
        if isinstance(token, int):
            return ("number", token)
        if token == "!":
            return ("not", self.single(depth))
        if token == "(":
            x = self.value(depth - 1)
            self.want(")")
            return x
        if token in DRAWING and "key" not in self.kind.state:
            raise Refused("a draw without a key")
        if token == "choose":
            self.want("(")
            table = self.next()
            self.want(")")
            if table not in self.model.tables:
                raise Refused("no table")
            return ("choose", table)
        if token in FUNCTIONS:
            self.want("(")
            values = [self.value(depth - 1)]
            for _ in range(1, FUNCTIONS[token]):
                self.want(",")
                values.append(self.value(depth - 1))
            self.want(")")
            return (token, *values)
        return self.called(token, depth)

    def called(self, name, depth):
        """Reads what begins with a name."""
        if name in self.local:
            return ("local", name)
        if name in self.words:
            return ("word", name)
        if name in self.content:
            return ("content", self.content[name])
        if name in self.model.numbers:
            return ("number", self.model.numbers[name])
        if name in self.model.sorts:
            return ("number", self.model.sorts[name])
        if name in self.model.tables:
            return ("entry", name, self.index(depth))
        if name in self.kind.arrays:
            return ("element", name, self.index(depth))
        if name in self.kinds:
            kind = self.kinds[name]
            if self.has(".count"):
                return ("number", kind.count)
            return ("+", ("number", kind.first), ("%", self.index(depth), ("number", kind.count)))
        if name == "self" and self.model.has_kinds:
            if self.bare:
                raise Refused("a place in place of a process")
            return ("-", ("known", "self"), ("number", self.kind.first))
        if name in ("self", "sender", "now", "lps"):
            return ("known", name)
        raise Refused(f"there is nothing named {name}")

    def block(self, depth, *given):
        if depth == 0:
            raise Refused("too deep")
        self.want("{")
        kept = list(self.local)
        self.local += given
        block = []
        while not self.has("}"):
            block.append(self.statement(depth - 1))
        self.local = kept
        return block

    def rule(self):
        block = []
        while self.left:
            block.append(self.statement(64))
        return block

    def statement(self, depth):
        token = self.peek()
        if token == "on" and self.peek(1) in self.model.sorts and not self.is_used("on"):
            return self.cases(depth)
        self.next()
        match token:
            case "let":
                name = self.new_name()
                self.want("=")
                x = self.value(depth)
                self.local.append(name)
                return ("let", name, x)
            case "send":
                self.want("to")
                values = [self.receiver(depth)]
                self.want("after")
                values.append(self.value(depth))
                if self.model.sorts:
                    values += self.content_of_sort(depth)
                elif self.has("with"):
                    values.append(self.value(depth))
                    while len(values) < 6 and self.has(","):
                        values.append(self.value(depth))
                return ("send", *values, *[("number", 0)] * (6 - len(values)))
            case "if":
                return self.choice(depth)
            case "repeat":
                name = self.new_name()
                count = self.next()
                count = self.model.numbers.get(count) if isinstance(count, str) else count
                if count is None or count >= 2**32:
                    raise Refused("no count")
                if self.peek() == "until" and not self.is_used("until"):
                    self.next()
                    self.local.append(name)
                    x = self.value(depth)
                    self.local.pop()
                    return ("until", name, count, x, self.block(depth, name))
                return ("repeat", name, count, self.block(depth, name))
        if token in self.words:
            self.want("=")
            return ("set", token, self.value(depth))
        if token in self.kind.arrays:
            index = self.index(depth)
            self.want("=")
            return ("put", token, index, self.value(depth))
        raise Refused(f"no statement begins with {token}")

    def choice(self, depth):
        x, met, unmet = self.value(depth), self.block(depth), []
        if self.has("else"):
            unmet = [self.choice(depth)] if self.has("if") else self.block(depth)
        return ("if", x, met, unmet)

    def cases(self, depth):
        self.next()
        sort = self.model.sorts[self.next()]
        met, unmet = self.block(depth), []
        if self.peek() == "on" and self.peek(1) in self.model.sorts:
            unmet = [self.cases(depth)]
        return ("if", ("==", ("content", 0), ("number", sort)), met, unmet)


def read_rule(model, kind, text):
    if not isinstance(text, str) or len(text.encode()) > 65536:
        raise Refused("no text of a rule")
    rule = Reader(model, kind, text).rule()
    sends, draws, steps = cost_of(rule)
    if sends > 8 or draws > 14 or steps > (MOST_KIND_STEPS if model.has_kinds else MOST_STEPS):
        raise Refused("a limit")
    return rule


def value_cost(tree):
    """Returns the drawn words and the steps of a value."""
    match tree:
        case ("number" | "word" | "content" | "local" | "known", _): return 0, 1
        case ("entry" | "element", _, x): own, parts = (0, 1), [x]
        case ("choose", _): return 1, 1
        case ("draw" | "exponential" | "geometric" | "normal", *parts): own = (1, 1)
        case ("triangular", *parts): own = (2, 2)
        case (_, *parts): own = (0, 1)
    costs = [value_cost(part) for part in parts]
    return own[0] + sum(cost[0] for cost in costs), own[1] + sum(cost[1] for cost in costs)


def cost_of(block):
    """Returns the most sends, drawn words and steps on a way through a block."""
    total = [0, 0, 0]
    for statement in block:
        values = [value_cost(part) for part in statement if isinstance(part, tuple)]
        here = [0, sum(draws for draws, _ in values), 1 + sum(steps for _, steps in values)]
        match statement:
            case ("send", *_): here[0] = 1
            case ("if", _, met, unmet):
                here = [a + max(b, c) for a, b, c in zip(here, cost_of(met), cost_of(unmet))]
            case ("repeat", _, count, body):
                here = [a + count * b for a, b in zip(here, [sum(pair) for pair in zip([0, 0, 1], cost_of(body))])]
            case ("until", _, count, x, body):
                draws, steps = value_cost(x)
                turn = [sum(three) for three in zip([0, 0, 1], [0, draws, steps], cost_of(body))]
                here = [a + count * b for a, b in zip([0, 0, 1], turn)]
        total = [a + b for a, b in zip(total, here)]
    return total


# ---- runs

class Handling:
    """One call of a rule: it changes the words, and collects the sends."""

    def __init__(self, model, kind, process, words, key, known, content):
        self.model, self.kind, self.process, self.words, self.key = model, kind, process, words, key
        self.known, self.content = known, content
        self.draws, self.sends, self.local = 0, [], {}

    def draw(self):
        self.draws += 1
        return drawn(self.key, self.process, self.draws - 1)

    def value(self, tree):
        match tree:
            case ("number", n): return n
            case ("word", name): return self.words[name]
            case ("content", place): return self.content[place]
            case ("local", name): return self.local[name]
            case ("known", name): return self.known[name]
            case ("not", x): return int(self.value(x) == 0)
            case ("entry", table, x):
                index, table = self.value(x), self.model.tables[table]
                return table[index] if index < len(table) else 0
            case ("element", name, x):
                index, elements = self.value(x), self.words[name]
                return elements[index] if index < len(elements) else 0
            case ("draw", x):
                most = self.value(x)
                word = self.draw()
                return word % most if most else 0
            case ("exponential", x): return distributions.exponential(self.value(x), self.draw())
            case ("geometric", x): return distributions.geometric(self.value(x), self.draw())
            case ("normal", x, y):
                mean, deviation = self.value(x), self.value(y)
                return distributions.normal(mean, deviation, self.draw())
            case ("triangular", x, y, z):
                least, mode, most = self.value(x), self.value(y), self.value(z)
                one = self.draw()
                return distributions.triangular(least, mode, most, one, self.draw())
            case ("choose", table): return distributions.choose(self.model.tables[table], self.draw())
            case (sign, x, y):
                x = self.value(x)
                return operate(sign, x, self.value(y))

    def run(self, block):
        for statement in block:
            match statement:
                case ("let", name, x): self.local[name] = self.value(x)
                case ("set", name, x): self.words[name] = self.value(x)
                case ("put", name, index, x):
                    index, value = self.value(index), self.value(x)
                    if index < len(self.words[name]):
                        self.words[name][index] = min(value, 2 ** self.kind.arrays[name].bits - 1)
                case ("send", *values): self.sends.append([self.value(x) for x in values])
                case ("if", x, met, unmet): self.run(met if self.value(x) else unmet)
                case ("repeat", name, count, body):
                    for turn in range(count):
                        self.local[name] = turn
                        self.run(body)
                case ("until", name, count, x, body):
                    for turn in range(count):
                        self.local[name] = turn
                        if self.value(x):
                            break
                        self.run(body)


def words_of(model, kind, words, key):
    """Returns the words of a state: in each word of an array the first element has the lowest bits."""
    state = [key] if model.has_kinds and model.keyed else []
    for name in kind.state:
        if name in kind.arrays:
            bits = kind.arrays[name].bits
            each = 64 // bits
            state += [sum(element << bits * place for place, element in enumerate(words[name][first:first + each]))
                      for first in range(0, len(words[name]), each)]
        elif name != "key":
            state.append(words[name])
        elif not model.has_kinds:
            state.append(key)
    return state + [0] * (model.width() - len(state))


class World:
    """The states of all processes, and the messages that are under way."""

    def __init__(self, model):
        self.model = model
        self.states, self.keys = [], [model.seed if model.keyed else None] * model.lps
        self.kinds = [kind for kind in model.kinds for _ in range(kind.count)]
        self.sent, self.pending, self.log = [0] * model.lps, [], []
        for process, kind in enumerate(self.kinds):
            self.states.append({name: [0] * kind.arrays[name].count if name in kind.arrays else 0 for name in kind.state if name != "key"})
            self.handle("start", process, 0, process, [0] * 4)

    def handle(self, rule, process, time, sender, content):
        kind = self.kinds[process]
        known = {"self": process, "sender": sender, "now": time, "lps": self.model.lps}
        handling = Handling(self.model, kind, process, self.states[process], self.keys[process], known, content)
        handling.run(kind.rules[rule])
        if self.model.keyed:
            first = handling.draw()
            self.keys[process] = first * 2**32 + handling.draw()
        for to, after, *given in handling.sends:
            delay = min(max(after, 1), 2**32 - 1)
            heapq.heappush(self.pending, (time + delay, process, self.sent[process], to % self.model.lps, *given))
            self.sent[process] += 1

    def run(self, most=None):
        while self.pending and self.pending[0][0] < self.model.end:
            if len(self.log) == most:
                raise Cut
            message = heapq.heappop(self.pending)
            self.log.append(message)
            self.handle("handle", message[3], message[0], message[1], message[4:])


def simulate(model, most=None):
    """Returns what `seq` prints of a model; raises Cut past so many events."""
    world = World(model)
    world.run(most)
    lines = [" ".join(map(str, message)) for message in world.log] + [f"virtual time {model.end}"]
    for process, kind in enumerate(world.kinds):
        words = words_of(model, kind, world.states[process], world.keys[process])
        lines.append(" ".join(map(str, ["lp", process, "sent", world.sent[process], "state", *words])))
    lines += ["pending " + " ".join(map(str, message)) for message in sorted(world.pending)]
    return "".join(line + "\n" for line in lines).encode()
