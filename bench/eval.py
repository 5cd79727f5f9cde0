"""Times evaluations of two messages, body and all, against a plain interpreter of the same script."""

import json
import re
import subprocess
import sys
import time

PROGRAM = sys.argv[1]
COUNT = 100000

SCRIPT = """message Shop.PlaceOrder { orderId: text, amount: int }
message Charge { orderId: text, amount: int }
message OrderPaid { orderId: text }
message Cancel { orderId: text }
message OrderExpired { orderId: text }
message Credit { account: text, amount: int }
message Work { } message Bad { } message No { } message Ask { } message Told { }
saga Order on orderId: text {
  fields { total: int, paid: bool }
  start Shop.PlaceOrder by orderId {
    set total = saga.total + msg.amount;
    send Charge { orderId: msg.orderId, amount: msg.amount };
    timeout 3600 OrderExpired { orderId: msg.orderId };
  }
  find OrderPaid by orderId { set paid = true; complete; }
  find Cancel by orderId { complete; }
  timeout OrderExpired { add row("expired") by 1; complete; }
}
handler OrderPaid { add row("paid") by 1; }
handler Credit { add row(msg.account) by msg.amount; }
handler Work { if retries < 2 { fail Busy "later"; } add row("done") by 1; }
handler Bad { fail Broken "always"; }
handler No { reject Refused "never"; }
handler Ask { reply Told { }; }
"""

MESSAGES = [
    ("Credit", '{"account":"a-17","amount":25}'),
    ("Shop.PlaceOrder", '{"orderId":"A-1","amount":250}'),
]

TOKEN = re.compile(r'\s*("(?:[^"\\]|\\.)*"|[A-Za-z][A-Za-z0-9]*|[0-9]+|\+\+|==|!=|<=|>=|&&|\|\||.)')
LEVELS = [["||"], ["&&"], ["==", "!=", "<", "<=", ">", ">="], ["++"], ["+", "-"], ["*"]]
ZERO = {"int": 0, "text": "", "bool": False}
KINDS = {"int": int, "text": str, "bool": bool}
LEAST, MOST = -(1 << 63), (1 << 63) - 1


class Fault(Exception):
    pass


class Parser:
    """Reads a script, which is taken to be right."""

    def __init__(self, text):
        self.tokens = [t for t in TOKEN.findall(text) if t.strip()]
        self.at = 0

    def look(self):
        return self.tokens[self.at] if self.at < len(self.tokens) else None

    def next(self):
        self.at += 1
        return self.tokens[self.at - 1]

    def took(self, token):
        if self.look() == token:
            self.at += 1
            return True
        return False

    def name(self):
        name = self.next()
        while self.took("."):
            name += "." + self.next()
        return name

    def fields(self):
        self.next()
        fields = {}
        while not self.took("}"):
            name = self.next()
            self.next()
            fields[name] = self.next()
            self.took(",")
        return fields

    def expr(self, level=0):
        if level == len(LEVELS):
            return self.factor()
        left = self.expr(level + 1)
        while self.look() in LEVELS[level]:
            op = self.next()
            left = (op, left, self.expr(level + 1))
        return left

    def factor(self):
        token = self.next()
        if token.isdigit():
            return ("value", int(token))
        if token[0] == '"':
            return ("value", json.loads(token))
        if token in ("true", "false"):
            return ("value", token == "true")
        if token in ("msg", "saga"):
            self.next()
            return (token, self.next())
        if token == "retries":
            return ("retries",)
        if token in ("row", "has", "text", "len"):
            self.next()
            inner = self.expr()
            self.next()
            return (token, inner)
        if token == "(":
            inner = self.expr()
            self.next()
            return inner
        if token in ("-", "!"):
            return ("neg" if token == "-" else "not", self.factor())
        return ("name", token)

    def make(self):
        name = self.name()
        self.next()
        args = []
        while not self.took("}"):
            field = self.next()
            self.next()
            args.append((field, self.expr()))
            self.took(",")
        return name, args

    def row(self):
        self.next()
        self.next()
        name = self.expr()
        self.next()
        return name

    def stmt(self):
        word = self.next()
        if word in ("let", "set"):
            name = self.next()
            self.next()
            made = (word, name, self.expr())
        elif word == "add":
            row = self.row()
            self.next()
            made = ("add", row, self.expr())
        elif word in ("send", "publish", "reply", "local"):
            made = (word, None, self.make())
        elif word == "timeout":
            delay = self.expr(4)
            made = ("timeout", delay, self.make())
        elif word == "complete":
            made = ("complete",)
        elif word in ("fail", "reject"):
            name = self.next()
            made = (word, name, self.expr())
        elif word == "if":
            test = self.expr()
            return ("if", test, self.block())
        self.next()
        return made

    def block(self):
        self.next()
        body = []
        while not self.took("}"):
            body.append(self.stmt())
        return body

    def saga(self, blocks):
        saga = {"name": self.next()}
        self.next()
        saga["property"] = self.next()
        self.next()
        self.next()
        self.next()
        self.next()
        saga["fields"] = self.fields()
        while not self.took("}"):
            word = self.next()
            kind = self.name()
            field = None
            if word in ("start", "find"):
                self.next()
                field = self.next()
            blocks.append((word, kind, saga, field, self.block()))

    def script(self):
        types, blocks = {}, []
        while self.look() is not None:
            word = self.next()
            if word == "message":
                name = self.name()
                types[name] = self.fields()
            elif word == "handler":
                name = self.name()
                blocks.append(("handler", name, None, None, self.block()))
            else:
                self.saga(blocks)
        return types, blocks


class Interpreter:
    """Evaluates messages over tables that hold nothing."""

    def __init__(self, text):
        self.types, self.blocks = Parser(text).script()
        self.rows = {}
        self.sagas = {}

    def value(self, e):
        word = e[0]
        if word == "value":
            return e[1]
        if word == "msg":
            return self.msg[e[1]]
        if word == "saga":
            return self.saga[e[1]]
        if word == "retries":
            return self.retries
        if word == "row":
            return self.number(self.value(e[1]))
        if word == "has":
            return self.has(self.value(e[1]))
        if word == "name":
            return self.names[e[1]]
        left = self.value(e[1])
        if word == "text":
            return str(left)
        if word == "len":
            return len(left.encode())
        if word == "neg":
            return self.whole(-left)
        if word == "not":
            return not left
        if word == "&&":
            return left and self.value(e[2])
        if word == "||":
            return left or self.value(e[2])
        right = self.value(e[2])
        if word == "+":
            return self.whole(left + right)
        if word == "-":
            return self.whole(left - right)
        if word == "*":
            return self.whole(left * right)
        if word == "++":
            return left + right
        if word == "<":
            return left < right
        if word == "==":
            return left == right
        return self.order(word, left, right)

    def order(self, word, left, right):
        if word == "!=":
            return left != right
        if word == "<=":
            return left <= right
        return left > right if word == ">" else left >= right

    def whole(self, n):
        if n < LEAST or n > MOST:
            raise Fault("Overflow")
        return n

    def number(self, name):
        if name in self.touched:
            return self.touched[name]
        return self.rows.get(name, 0)

    def has(self, name):
        return name in self.touched or name in self.rows

    def run(self, body):
        for s in body:
            word = s[0]
            if word == "let":
                self.names[s[1]] = self.value(s[2])
            elif word == "set":
                self.saga[s[1]] = self.value(s[2])
            elif word == "add":
                name = self.value(s[1])
                self.touched[name] = self.whole(self.number(name) + self.value(s[2]))
            elif word in ("send", "publish", "reply", "timeout", "local"):
                delay = None if s[1] is None else self.value(s[1])
                name, args = s[2]
                fields = {field: self.value(e) for field, e in args}
                text = json.dumps(fields, separators=(",", ":"), sort_keys=True)
                self.size += len(text)
                if len(self.intents) >= 256 or self.size > 1048576:
                    raise Fault("TooMany")
                self.intents.append((word, delay, name, text))
            elif word == "complete":
                self.completed = True
            elif word in ("fail", "reject"):
                raise Fault(s[1])
            elif self.value(s[1]):
                self.run(s[2])

    def in_saga(self, word, saga, field, body):
        corr = self.msg[field]
        found = self.sagas.get((saga["name"], corr))
        if found is None and word != "start":
            return
        self.saga = dict(found) if found else {name: ZERO[kind] for name, kind in saga["fields"].items()}
        self.saga[saga["property"]] = corr
        self.completed = False
        self.run(body)
        if not self.completed:
            self.writes.append(("put", saga["name"], corr, self.saga))

    def evaluate(self, headers, body):
        kind = headers["NServiceBus.EnclosedMessageTypes"].split(",")[0].strip()
        types = self.types[kind]
        self.retries = int(headers.get("NServiceBus.Retries", "0"))
        read = json.loads(body)
        self.msg = {}
        for name, k in types.items():
            v = read.get(name, ZERO[k])
            if type(v) is not KINDS[k]:
                raise Fault("Undecodable")
            self.msg[name] = v
        self.names, self.touched, self.writes, self.intents, self.size = {}, {}, [], [], 0
        for word, name, saga, field, block in self.blocks:
            if name != kind or word == "timeout":
                continue
            if saga is None:
                self.saga = None
                self.run(block)
            else:
                self.in_saga(word, saga, field, block)
        writes = self.writes + [("row", name, n) for name, n in self.touched.items()]
        return writes, self.intents


def plain(kind, body):
    """The least time of three rounds, and the number of changes and messages."""
    interpreter = Interpreter(SCRIPT)
    headers = {"NServiceBus.MessageId": "m1", "NServiceBus.EnclosedMessageTypes": kind}
    best = None
    for _ in range(3):
        begin = time.perf_counter()
        for _ in range(COUNT):
            writes, intents = interpreter.evaluate(headers, body)
        spent = time.perf_counter() - begin
        best = spent if best is None else min(best, spent)
    return best, (len(writes), len(intents))


def run(kind, body, times):
    """The least time of five runs, and the lines of the last one."""
    best = None
    for _ in range(5):
        begin = time.perf_counter()
        done = subprocess.run([PROGRAM, kind, body, str(times)], input=SCRIPT.encode(), stdout=subprocess.PIPE, check=True)
        spent = time.perf_counter() - begin
        best = spent if best is None else min(best, spent)
    return best, done.stdout.decode().splitlines()


def program(kind, body, times):
    """The least time of five runs, and the number of changes and messages."""
    best, lines = run(kind, body, times)
    return best, (int(lines[0].split()[1]), len(lines) - 1)


def reading(body):
    """The time in which the program reads the body as JSON, which no evaluation can pass."""
    return run("-", body, COUNT)[0] - run("-", body, 0)[0]


def main():
    for kind, body in MESSAGES:
        base, _ = program(kind, body, 0)
        whole, made = program(kind, body, COUNT)
        theirs, plainly = plain(kind, body)
        if made != plainly:
            sys.exit(f"{kind}: {made} and {plainly} are made")
        ours = whole - base
        read = reading(body)
        print(
            f"{kind}: {ours * 1e6 / COUNT:.2f} us an evaluation, {read * 1e6 / COUNT:.2f} us of it the body's JSON,"
            f" plain {theirs * 1e6 / COUNT:.2f} us, ratio {theirs / ours:.1f}"
        )


main()
