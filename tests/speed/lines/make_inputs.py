"""make_inputs.py FOLDER [SEED]: the inputs of the benchmark, the same for the same seed.

FOLDER/{pedal,usual,heavy,usual-quiet,heavy-quiet}/ get bench.txt, readings.txt and decimal.txt (the same readings for CLIPS, which cannot take the
bits of a real: decimal reals, and `nil` for `?`); the heavy ones also get the rules for CLIPS, rules.clp. Of the quiet ones most lines move only the
stage. FOLDER/check/ gets bench files of about 1 KB and 32 KB.
"""
import os
import random
import struct
import sys

HERE = os.path.dirname(os.path.abspath(__file__))
LINES = {"pedal": 100_000, "usual": 100_000, "heavy": 150, "usual-quiet": 100_000, "heavy-quiet": 20_000}
QUIET = 0.95  # of the lines of a quiet bench
SENDER = "box"  # of all lines

# The heavy bench: each rule has three variables, and each is written eight times with another number.
HEAVY_HEAD = """interface Sensor { attribute room : whole attribute gain : whole event level : whole event lit : bool }
interface Gate { attribute room : whole event open : bool action set ( whole ) }
interface Meter { attribute room : whole attribute scale : real event flow : real action mark ( real ) }
interface Valve { attribute room : whole action turn ( whole ) action warn ( bool ) }
"""
HEAVY_RULES = [
    """when event level from s : Sensor value = {i} and event open from g : Gate with room = s.room value changed
  trigger action turn ( s.level * s.gain + {i} ) on v : Valve with room = g.room end""",
    """when event lit from s : Sensor value = true and event flow from m : Meter with room = s.room value changed
  trigger action mark ( m.flow * m.scale + real ( s.level + {i} ) ) on m , action warn ( true ) on v : Valve with room = m.room end""",
    """when event level from a : Sensor value = b.level + {i} and event level from b : Sensor with room = a.room value changed
  trigger action set ( a.level - b.level ) on g : Gate with room = b.room end""",
    """when ( event open from g : Gate value = true or event open from g value = false )
    and event turn from v : Valve with room = g.room value changed
  trigger action set ( v.room + {i} ) on h : Gate with room = g.room end""",
    """when event mark from m : Meter value changed and event level from s : Sensor value = {i}
  trigger action warn ( false ) on v : Valve with room = s.room end""",
    """when event flow from m : Meter with scale = real ( s.gain ) value changed and event lit from s : Sensor value = true
  trigger action turn ( s.gain + {i} ) on v : Valve with room = m.room end""",
    """when event set from g : Gate value = {i} and event level from s : Sensor with room = g.room value changed
  trigger action mark ( real ( s.level ) / 2r ) on m : Meter with room = s.room end""",
    """when event level from a : Sensor value changed and event level from b : Sensor with room = a.room + 1 value changed
    and event level from c : Sensor with room = b.room + 1 value = a.level
  trigger action set ( a.level + b.level + c.level ) on g{i} end""",
]


def heavy_bench(quiet):
    """For quiet lines the first sensor has a position too, which no rule reads."""
    text = HEAVY_HEAD.replace("event lit : bool }", "event lit : bool event pos : whole }") if quiet else HEAVY_HEAD
    assert quiet == ("event pos" in text)
    for i in range(8):
        text += f"entity s{i} : Sensor {{ room = {i // 2} gain = {i % 4 + 1} }}\n"
    for i in range(8):
        text += f"entity g{i} : Gate {{ room = {i // 2} }}\n"
    for i in range(8):
        text += f"entity m{i} : Meter {{ room = {i // 2} scale = {i % 4 + 1}r }}\n"
    for i in range(8):
        text += f"entity v{i} : Valve {{ room = {i // 2} }}\n"
    text += "rules\n"
    for i in range(8):
        for rule in HEAVY_RULES:
            text += "  " + rule.format(i=i) + "\n"
    return text + "end\n"


# The same rules for CLIPS. Cells of the row: eight of set, eight of mark, then turn and warn in turn. A write stands at its rule's number,
# then at its choice.
HEAVY_CLIPS = [
    """(sensor (id ?1) (room ?r) (gain ?k) (level {i}) (was-level ~{i})) (gate (id ?2) (room ?r) (open ?o) (was-open ~?o))
  (valve (id ?3) (room ?r)) => (write-cell (+ 17 ?3 ?3) {by} (+ (* {i} ?k) {i}))""",
    """(sensor (id ?1) (room ?r) (level ?l) (lit true) (was-lit ~true)) (meter (id ?2) (room ?r) (scale ?c) (flow ?f) (was-flow ~?f))
  (valve (id ?3) (room ?r)) => (if (and (neq ?f nil) (neq ?l nil)) then (write-cell (+ 9 ?2) {by} (+ (* ?f ?c) (float (+ ?l {i})))))
  (write-cell (+ 18 ?3 ?3) {by} true)""",
    """(sensor (id ?1) (room ?r) (level ?x) (was-level ?u)) (sensor (id ?2) (room ?r) (level ?y&~nil) (was-level ?w&~?y))
  (test (eq ?x (+ ?y {i}))) (test (or (eq ?w nil) (neq ?u (+ ?w {i})))) (gate (id ?3) (room ?r)) => (write-cell (+ 1 ?3) {by} (- ?x ?y))""",
    """(gate (id ?1) (room ?r) (open ?o&true|false) (was-open ~?o)) (valve (id ?2) (room ?r) (turn ?t) (was-turn ~?t))
  (gate (id ?3) (room ?r)) => (write-cell (+ 1 ?3) {by} (+ ?r {i}))""",
    """(meter (id ?1) (mark ?k) (was-mark ~?k)) (sensor (id ?2) (room ?r) (level {i}) (was-level ~{i}))
  (valve (id ?3) (room ?r)) => (write-cell (+ 18 ?3 ?3) {by} false)""",
    """(meter (id ?1) (room ?r) (scale ?c) (flow ?f) (was-flow ~?f)) (sensor (id ?2) (gain ?k&:(= ?k ?c)) (lit true) (was-lit ~true))
  (valve (id ?3) (room ?r)) => (write-cell (+ 17 ?3 ?3) {by} (+ ?k {i}))""",
    """(gate (id ?1) (room ?r) (set {i}) (was-set ~{i})) (sensor (id ?2) (room ?r) (level ?l&~nil) (was-level ~?l))
  (meter (id ?3) (room ?r)) => (write-cell (+ 9 ?3) {by} (/ ?l 2.0))""",
    """(sensor (id ?1) (room ?r) (level ?x&~nil) (was-level ?u&~?x)) (sensor (id ?2) (room ?q&:(= ?q (+ ?r 1))) (level ?y&~nil) (was-level ~?y))
  (sensor (id ?3) (room ?p&:(= ?p (+ ?q 1))) (level ?x) (was-level ?w)) (test (or (eq ?w nil) (neq ?w ?u)))
  => (write-cell (+ 1 {i}) {by} (+ ?x ?y ?x))""",
]


def heavy_clips():
    rules = [rule for i in range(8) for rule in ((i, text) for text in HEAVY_CLIPS)]
    by = "(+ {first} (* 64 ?1) (* 8 ?2) ?3)"
    return "".join(
        f"(defrule rule{number} {text.format(i=i, by=by.format(first=512 * number)).replace('?1', '?e1').replace('?2', '?e2').replace('?3', '?e3')})\n"
        for number, (i, text) in enumerate(rules)
    )


def check_bench(size):
    """A bench of at most `size` bytes, close to it: many rules, sums of a usual length, all members used."""
    text = """interface Pedal { event down : bool event held : whole }
interface Stage { attribute step : whole event pos : whole event speed : real action move ( whole ) action stop ( bool ) }
interface Log { attribute scale : real action keep ( whole ) action width ( real ) }
entity pedal : Pedal { }
entity stage : Stage { step = 25 }
entity log : Log { scale = 3r }
rules
"""
    small = "when event down from pedal value = true trigger action keep ( stage.pos - {k} ) on log end\n"
    clause = "event pos from s{v} : Stage with step = stage.step * {k} value = ( stage.pos + {k} ) * 2 - s{v}.step"
    call = "action width ( ( real ( s{v}.pos - {k} ) + log.scale ) * 2r ) on log"
    k = 0
    while k < 64:
        if size < 4096:
            rule = small.format(k=k)
        else:
            clauses = [clause.format(v=v, k=k) for v in range(3)] + ["event held from pedal value changed"]
            calls = [call.format(v=v, k=k) for v in range(3)]
            rule = "when " + "\n  and ".join(clauses) + "\n  trigger " + " ,\n    ".join(calls) + " end\n"
        if len(text) + len(rule) + 4 > size:
            break
        text += rule
        k += 1
    return text + "end\n"


def numbered(rng, count, readings):
    """Lines with their numbers; some are sent twice, some come with a wrong number, some with the last number and other readings."""
    n, last = 0, None
    for fields in readings:
        chance = rng.random()
        if last and chance < 0.005:
            yield n, last
        elif last and chance < 0.006:
            yield n + 7, fields
        elif last and chance < 0.007 and fields != last:
            yield n, fields
        n, last = n + 1, fields
        yield n, fields
        if n == count:
            return


def maybe(rng, chance, value):
    return value if rng.random() < chance else "-"


def pedal(rng):
    pos = 100
    while True:
        pos += rng.randrange(50)
        if pos > 2_000_000_000:
            pos = 100
        yield [maybe(rng, 0.8, rng.random() < 0.3), maybe(rng, 0.9, pos)]


def usual(rng):
    pos, edge, direction, count = 1000, 1000, 1, 0
    temps = [20.0, 21.0, 22.0, 23.0]
    while True:
        fields = []
        press = rng.random() < 0.3
        if press:
            edge, count = pos, count + 1
        if not press or rng.random() < 0.9:
            pos += direction * rng.randrange(200, 3000)
        if not 0 <= pos < 1_000_000:
            direction = -direction
            pos = max(0, min(pos, 1_000_000))
        fields += [pos, maybe(rng, 0.5, edge), maybe(rng, 0.2, direction), count if press else "-"]
        fields.append(maybe(rng, 0.3, rng.random() < 0.3))
        fields.append(maybe(rng, 0.9, rng.uniform(0.1, 3.0)) if press else ("?" if rng.random() < 0.1 else "-"))
        for k in range(4):
            temps[k] = round(temps[k] + rng.uniform(-0.5, 0.5), 1)
            fields.append(maybe(rng, 0.5, temps[k]))
            fields.append(maybe(rng, 0.2, rng.random() < 0.7))
        yield fields


def heavy(rng):
    while True:
        fields = []
        for _ in range(8):
            fields.append(maybe(rng, 0.7, rng.randrange(8)))
            fields.append(maybe(rng, 0.5, rng.random() < 0.5))
        for _ in range(8):
            fields.append(maybe(rng, 0.5, rng.random() < 0.5))
        for _ in range(8):
            fields.append(maybe(rng, 0.5, round(rng.uniform(0.0, 9.0), 2)))
        yield fields


def usual_quiet(rng):
    for fields in usual(rng):
        yield fields[:1] + ["-"] * (len(fields) - 1) if rng.random() < QUIET else fields


def heavy_quiet(rng):
    for pos, fields in enumerate(heavy(rng)):
        yield (["-"] * len(fields) if rng.random() < QUIET else fields) + [pos]


NAMES = {
    "pedal": "p.down s.pos",
    "usual": "stage.pos stage.edge stage.dir pedal.count pedal.held camera.width "
    + " ".join(f"probe{k}.temp probe{k}.ok" for k in range(1, 5)),
    "heavy": " ".join([f"s{k}.level s{k}.lit" for k in range(8)] + [f"g{k}.open" for k in range(8)] + [f"m{k}.flow" for k in range(8)]),
}
NAMES["usual-quiet"] = NAMES["usual"]
NAMES["heavy-quiet"] = NAMES["heavy"] + " s0.pos"
MAKERS = {"pedal": pedal, "usual": usual, "heavy": heavy, "usual-quiet": usual_quiet, "heavy-quiet": heavy_quiet}


def names_line(name):
    return "by n " + NAMES[name]


def values_line(n, fields, decimal):
    return " ".join([SENDER, str(n)] + [form(value, decimal) for value in fields])


def form(value, decimal):
    if isinstance(value, bool):
        return "true" if value else "false"
    if isinstance(value, float):
        return repr(value) if decimal else struct.pack(">d", value).hex()
    return "nil" if decimal and value == "?" else str(value)


def write(path, text):
    with open(path, "w", encoding="ascii", newline="\n") as file:
        file.write(text)


def main():
    folder, seed = sys.argv[1], int(sys.argv[2]) if len(sys.argv) > 2 else 1
    for name in LINES:
        os.makedirs(os.path.join(folder, name), exist_ok=True)
        kind = name.removesuffix("-quiet")
        if kind == "heavy":
            bench = heavy_bench(quiet=name != kind)
        else:
            with open(os.path.join(HERE, kind + ".txt"), encoding="ascii") as file:
                bench = file.read()
        write(os.path.join(folder, name, "bench.txt"), bench)
        if kind == "heavy":
            write(os.path.join(folder, name, "rules.clp"), heavy_clips())
        rng = random.Random(f"{seed} {name}")
        lines = list(numbered(rng, LINES[name], MAKERS[name](rng)))
        for file, decimal in (("readings.txt", False), ("decimal.txt", True)):
            text = [names_line(name)] + [values_line(n, fields, decimal) for n, fields in lines]
            write(os.path.join(folder, name, file), "\n".join(text) + "\n")
    os.makedirs(os.path.join(folder, "check"), exist_ok=True)
    for name, size in (("1k", 1024), ("32k", 32768)):
        write(os.path.join(folder, "check", name + ".txt"), check_bench(size))


if __name__ == "__main__":
    main()
