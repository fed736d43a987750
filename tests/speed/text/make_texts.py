"""Bench texts to measure readers with: make_texts.py FOLDER writes usual.txt (about 1 KB), deep.txt and names.txt (about 32 KB each)."""
import random
import sys

USUAL = """# the bench of the measuring room: stage, pedal, camera, lamps and the log of widths
interface Pedal { event down : bool event held : whole }
interface Stage { attribute step : whole event pos : whole event speed : real action move ( whole ) action stop ( bool ) }
interface Lamp { attribute level : whole event lit : bool action light ( whole ) }
interface Log { attribute scale : real action keep ( whole ) action width ( real ) }

entity pedal : Pedal { }
entity stage : Stage { step = 25 }
entity upper : Lamp { level = 80 }
entity lower : Lamp { level = -1 }
entity log : Log { scale = 3r }

rules
  # a press keeps the place and goes one step on
  when event down from pedal value = true
  trigger action keep ( stage.pos ) on log, action move ( stage.pos + stage.step ) on stage end
  when event pos from stage value changed and ( event lit from l : Lamp value = false or event held from pedal value = 3 * ( 2 - 1 ) )
  trigger action light ( l.level / 2 ) on l with level = upper.level,
    action width ( ( real ( stage.pos ) - 12r ) * log.scale ) on log end
  when event speed from stage value = -0r trigger action stop ( true ) on stage end
end
"""


def expression(rng, openers):
    """Terms of factors, with as many openers inside one another as may come."""
    shape = rng.randrange(8)
    if openers == 0 or shape == 0:
        return rng.choice(["stage.pos", "stage.step", "7", "2147483647", "log.scale", "12r", "true"])
    if shape == 1:
        return "- " + expression(rng, openers - 1)
    if shape == 2:
        return "real ( " + expression(rng, openers - 1) + " )"
    if shape < 6:
        return "( " + expression(rng, openers - 1) + " " + rng.choice("+-*/") + " " + rng.choice(["3", "stage.pos"]) + " )"
    return "stage.pos " + rng.choice("+-") + " ( " + expression(rng, openers - 1) + " )"


def clause(rng, openers):
    return "event pos from s : Stage with step = " + expression(rng, openers) + " value = " + expression(rng, openers)


def condition(rng, openers):
    """Clauses in brackets, the last ones deep inside."""
    if openers == 0:
        return clause(rng, 8)
    return "( " + clause(rng, 4) + rng.choice([" and ", " or "]) + condition(rng, openers - 1) + " )"


def deep(rng, size):
    """Many rules with deep expressions."""
    text = "interface Stage { attribute step : whole event pos : whole action move ( whole ) }\nentity stage : Stage { step = 25 }\nrules\n"
    while True:
        rule = "when " + condition(rng, 3) + "\ntrigger action move ( " + expression(rng, 16) + " ) on s,\n"
        rule += "action move ( " + expression(rng, 16) + " ) on stage with step = " + expression(rng, 12) + " end\n"
        if len(text) + len(rule) + 4 > size:
            return text + "end\n"
        text += rule


def name(rng):
    return rng.choice("abcdefghijklmnopqrstuvwxyz") + "".join(rng.choice("abcdefghijklmnopqrstuvwxyz0123456789_") for _ in range(23))


def names(rng, size):
    """Names of 24 bytes and long comments."""
    text = ""
    while len(text) < size - 1400:
        text += "# " + " ".join(name(rng) for _ in range(6)) + "\n"
        text += "interface " + name(rng) + " {\n"
        for _ in range(6):
            text += "  attribute " + name(rng) + " : whole # " + name(rng) + "\n"
        text += "}\n"
    text += "entity " + name(rng) + " : " + name(rng) + " {\n"
    while len(text) < size - 140:
        text += "  " + name(rng) + " = " + str(rng.randrange(2147483648)) + " # " + name(rng) + "\n"
    return text + "}\nrules end\n"


def main():
    rng = random.Random(1)
    for title, text in [("usual", USUAL), ("deep", deep(rng, 32768)), ("names", names(rng, 32768))]:
        with open(sys.argv[1] + "/" + title + ".txt", "w", encoding="ascii") as f:
            f.write(text)


main()
