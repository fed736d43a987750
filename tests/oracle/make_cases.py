"""Makes cases.json, bench texts and readings with the results of bench_oracle,
sheets.json, the same for the day sheet, tried.json, the same for the rules tried in each
cycle, and classes.txt, the class of every byte.

Every stored result comes from bench_oracle; next to each written case stands the
result worked out by hand from document 01 with orders 1 to 7 of document 02, and the two
must agree.  In a refused bench text the mark @ (no byte of any such text otherwise)
shows the expected place.

`python3 tests/oracle/make_cases.py`, or with --check, compares: it fails, and names
the first case or line that differs, if a file is not what is made here.  --write writes all four.
"""

import copy
import dataclasses
import json
import random
import sys
from itertools import product, zip_longest
from pathlib import Path

from bench_oracle import Bench, Reader, Real, byte_class, cells_read, check, clauses_of, cycles_of_lines, differ
from bench_oracle import entity_part, negation, operation, printed_classes, printed_sheet, printed_tried, run, sheet
from bench_oracle import state_after, stated_size, tried, words_of

SEED = 20240645
OUTPUT = Path(__file__).resolve().parent / "cases.json"
SHEETS_OUTPUT = OUTPUT.with_name("sheets.json")
TRIED_OUTPUT = OUTPUT.with_name("tried.json")
CLASSES_OUTPUT = OUTPUT.with_name("classes.txt")

CASES = []
SHEETS = []
TRIED = []


def add(name, bench, readings):
    """Stores a case with the oracle's results."""
    assert all(case["name"] != name for case in CASES), name
    text = bench.encode("ascii")
    printed = None if readings is None else run(text, readings.encode("ascii")).decode("ascii")
    CASES.append(
        {"name": name, "bench": bench, "readings": readings, "check": list(check(text)), "printed": printed}
    )
    return CASES[-1]


def accepted(name, bench):
    """A bench text that the check accepts."""
    case = add(name, bench, None)
    assert case["check"] == [0, 0], case


def refused(name, code, marked):
    """A bench text that the check refuses with this code at the mark @."""
    assert marked.count("@") == 1, name
    case = add(name, marked.replace("@", ""), None)
    assert case["check"] == [code, marked.index("@")], (case, code, marked.index("@"))


def ran(name, bench, table, last_feed=True):
    """A bench with readings; `table` has the lines of readings and of print, side by side."""
    readings = "\n".join(left for left, _ in table) + ("\n" if last_feed else "")
    printed = "".join(right + "\n" for _, right in table)
    ran_text(name, bench, readings, printed)


def ran_text(name, bench, readings, printed):
    """A bench with the whole text of its readings and of its print."""
    assert len(bench) <= 1200, name
    assert readings.count("\n") <= 13, name
    case = add(name, bench, readings)
    assert case["printed"] == printed, (name, case["printed"], printed)


# --------------------------------------------------------------------------
# Bench texts for the check alone: accepted
# --------------------------------------------------------------------------

FULL = """# everything once
interface Lamp {
	attribute room : whole
	attribute dim : real
	attribute spare : bool
	event seen : bool
	event level : real
	action set ( real )
	action mark ( bool )
}
interface Clock { event tick : whole action beep ( whole ) }
entity hall : Lamp { spare = false room = - 3 dim = 2r }
entity attic : Lamp { room = 4 dim = -0r spare = true }
entity clock : Clock { }
rules
  when event tick from clock value changed
   and ( event level from x : Lamp with room = clock.tick - 7 value = y.dim * 2r
      or event set from y : Lamp with spare = true value changed )
  trigger action set ( real ( clock.tick ) / ( x.level + -1r ) ) on y with dim = 2r ,
          action beep ( - ( clock.tick + clock.beep ) ) on c : Clock
  end
  when event mark from x : Lamp value = x.seen trigger action mark ( false ) on x end
end # no line feed here"""

LETTERS = "abcdefghijklmnopqrstuvwxyzABCDEFGHIJKLMNOPQRSTUVWXYZ"


def interfaces(letters):
    return "".join("interface %s { } " % letter for letter in letters)


def make_accepted():
    accepted(
        "accepted-tight-words",
        "interface a_1{attribute x:real event E:whole action K(real)}"
        "entity abcdefghijklmnopqrstuvwx:a_1{x=2147483647r}entity End:a_1{x=-0r}"
        "rules when event E from End value=0000000012trigger action K(1r*2r)on End with x=0rend end",
    )
    accepted("accepted-full", FULL)
    accepted(
        "accepted-sixteen-openers",
        "interface I { event r : real action k ( real ) } entity s : I { } rules "
        "when ( ( ( ( event r from s value = - ( - ( - real ( - ( - ( - ( 1 ) ) ) ) ) ) ) ) ) ) "
        "trigger action k ( " + "- " * 16 + "1r ) on s end end",
    )
    accepted("accepted-sixteen-interfaces", interfaces(LETTERS[:16]) + "rules end")


# --------------------------------------------------------------------------
# Words (12)
# --------------------------------------------------------------------------


def make_words():
    refused("word-bad-byte-after-grammar-fault", 12, "end rules 5 ( @_x )")
    refused("word-name-of-25-letters", 12, "interface @abcdefghijklmnopqrstuvwxy { } rules end")
    refused("word-eleven-digits", 12, "entity s : I { a = @00000000001 } rules end")
    refused("word-number-too-large", 12, "entity s : I { a = 2147483647r b = - @2147483648r } rules end")
    refused("word-bad-byte-in-comment", 12, "rules end # tab\t is fine\n# return is not@\r\n")


# --------------------------------------------------------------------------
# Bytes at each kind of place (document 02, order 4)
# --------------------------------------------------------------------------

# an accepted file, if what stands behind the 7 is left out
SEVEN = "interface I { attribute a : whole } entity s : I { a = 7%s } rules end"


def make_bytes():
    # every allowed byte but the line feed in one comment; outside it the ends of both alphabets at the beginning of a
    # name, inside one and right behind digits, all digits at the beginning of a number and in a name, `_` inside and at
    # the end of names, marks, blanks and `#` right behind names and digits; the text ends with an empty comment
    accepted(
        "byte-every-allowed-one",
        "interface aZ_{attribute bcdefghijklmnopqrstuvwxy:whole attribute Az_0:whole attribute a:whole "
        "attribute Z09a:whole attribute zA9:whole attribute BCDEFGHIJKLMNOPQRSTUVWXY:whole "
        "attribute a1234567890_:whole event z:whole action A(whole)}"
        "entity Z9:aZ_{bcdefghijklmnopqrstuvwxy=1Az_0=9a=90Z09a=09zA9=0#"
        "\t !\"#$%&'()*+,-./0123456789:;<=>?@ABCDEFGHIJKLMNOPQRSTUVWXYZ[\\]^_`abcdefghijklmnopqrstuvwxyz{|}~\n"
        "BCDEFGHIJKLMNOPQRSTUVWXY=2\ta1234567890_=3\n}"
        "rules\nwhen event z from Z9 value=Z9.a+4*Z9.Az_0-5/Z9.zA9+6-Z9.a*Z9.a/Z9.a\t"
        "trigger action A(7)on Z9 with a=8,action A(Z9.z)on Z9#,\nend end#",
    )
    # `_` neither goes on in a number nor begins a name behind it
    refused("byte-underscore-after-digits", 12, SEVEN % "@_0")
    # the byte before `a`, where a name should begin
    refused("byte-comments-only-begins", 12, "interface @`a { } rules end")
    # the byte after `Z`: the name ends before it and is a word, so the place is not the name's
    refused("byte-comments-only-after-name", 12, "interface Z@[ { } rules end")
    # `;` is neither a mark nor a blank
    refused("byte-comments-only-after-digits", 12, SEVEN % "@;")
    # a carriage return is no blank, not even before a line feed
    refused("byte-not-allowed-begins", 12, "rules @\r\nend\r\n")
    # a byte 0 does not end the text
    refused("byte-not-allowed-after-name", 12, "rules end@\0")
    # the byte before the space is no blank
    refused("byte-not-allowed-after-digits", 12, SEVEN % "@\x1f")


# --------------------------------------------------------------------------
# Grammar (13)
# --------------------------------------------------------------------------

OPEN_I = "interface I { attribute a : real event r : real action k ( real ) } entity s : I { a = 1r } rules "


def make_grammar():
    refused("grammar-early-end-blanks-comment", 13, "interface I { }\nrules\t # no end\n \t@")
    refused("grammar-word-after-end", 13, "rules end # done\n @interface I { }")
    refused("grammar-reserved-as-name", 13, "interface whole_ { event Value : whole event @value : bool attribute a : bool } rules end")
    refused("grammar-minus-true-literal", 13, "interface I { attribute a : bool } entity s : I { a = - @true } rules end")
    refused(
        "grammar-number-eats-r",
        13,
        OPEN_I + "when event r from s value = 1r@eal ( 1 ) trigger action k ( 1r ) on s end end",
    )
    refused(
        "grammar-seventeenth-opener-mixed",
        13,
        OPEN_I + "when ( ( ( ( ( event r from s value = - ( - ( - real ( - ( - ( - @( 1 ) ) ) ) ) ) ) ) ) ) ) "
        "trigger action k ( 1r ) on s end end",
    )
    refused(
        "grammar-seventeenth-opener-real-in-filter",
        13,
        OPEN_I + "when " + "( " * 16 + "event r from s with a = @real ( 1 ) value changed" + " )" * 16
        + " trigger action k ( 1r ) on s end end",
    )


# --------------------------------------------------------------------------
# Counts (14)
# --------------------------------------------------------------------------

EK = "interface I { event e : whole action k ( whole ) } entity s : I { } "
CLAUSE = "event e from s value changed"
CALL = "action k ( 1 ) on s"


def make_counts():
    refused("count-17-interfaces-of-one-name", 14, "interface A { } " * 16 + "@interface A { } rules end")
    refused(
        "count-13-members",
        14,
        "interface I { attribute a : whole attribute b : bool attribute c : real attribute d : whole "
        "event e : whole event f : bool event g : real event h : whole "
        "action i ( whole ) action j ( bool ) action k ( real ) action l ( whole ) @action m ( bool ) } rules end",
    )
    entities = ["entity %s : I { } " % letter for letter in LETTERS[:33]]
    refused("count-33-entities", 14, "interface I { } " + "".join(entities[:32]) + "@" + entities[32] + "rules end")
    rule = "when event e from s value changed trigger action k(1)on s end "
    refused("count-65-rules", 14, EK + "rules " + rule * 64 + "@" + rule + "end")
    refused(
        "count-4-variables-one-repeated",
        14,
        EK + "rules when event e from x : I value changed and event e from y : I value changed "
        "and event e from x value changed trigger action k ( 1 ) on x : I , action k ( 1 ) on @y : I end end",
    )
    refused(
        "count-9-clauses",
        14,
        EK + "rules when " + "( %s or %s ) and " % (CLAUSE, CLAUSE) * 4 + "@" + CLAUSE + " trigger " + CALL + " end end",
    )
    refused(
        "count-9-calls",
        14,
        EK + "rules when " + CLAUSE + " trigger " + (CALL + " , ") * 8 + "@action k ( 1 ) on x : Z end end",
    )


# --------------------------------------------------------------------------
# Names (15, 16, 17)
# --------------------------------------------------------------------------

TWO = (
    "interface I { attribute a : whole event e : whole action k ( whole ) } "
    "interface J { attribute c : bool event f : bool action m ( bool ) } "
    "entity s : I { a = 1 } entity t : J { c = true } "
)


def make_names():
    # 15
    refused("name-interface-twice", 15, "interface I { } interface J { } interface @I { } entity s : Z { } rules end")
    refused("name-member-twice-other-sort", 15, "interface I { attribute m : whole event n : bool action @m ( bool ) } rules end")
    refused(
        "name-variable-twice",
        15,
        TWO + "rules when event e from x : I value changed trigger action k ( x.e ) on @x : I end end",
    )
    refused(
        "name-variable-as-entity",
        15,
        TWO + "rules when event e from @s : I value changed trigger action k ( 1 ) on s end end",
    )
    refused("name-attribute-set-twice", 15, "interface I { attribute a : whole } entity s : I { a = 1 @a = 1 } rules end")
    # 16
    refused("name-entity-of-unknown-interface", 16, "interface I { } entity s : I { } entity t : @s { x = 1 } rules end")
    refused("name-place-is-interface", 16, TWO + "rules when event e from @I value changed trigger action k ( 1 ) on s end end")
    refused(
        "name-variable-of-other-rule",
        16,
        TWO + "rules when event e from x : I value changed trigger action k ( x.a ) on x end "
        "when event e from s value = @x.a trigger action k ( 1 ) on s end end",
    )
    refused(
        "name-filter-is-event",
        16,
        TWO + "rules when event k from x with a = 1 value changed trigger action k ( 1 ) on x : I with @e = 1 end end",
    )
    refused(
        "name-call-is-event",
        16,
        TWO + "rules when event k from s value changed trigger action k ( 1 ) on s , action @e ( 1 ) on s end end",
    )
    refused(
        "name-member-of-other-interface",
        16,
        TWO + "rules when event e from s value = s.a + s.k * s.e / s.@f trigger action k ( 1 ) on s end end",
    )
    # 17
    refused(
        "name-attribute-not-set",
        17,
        TWO + "entity u : J { c = false } entity v : I { @} rules when event e from v value = 1r trigger action k ( 1 ) on v end end",
    )


def make_mixed_names():
    refused(
        "mixed-17-before-16",
        17,
        "interface I { attribute a : whole attribute b : whole attribute c : bool } "
        "entity s : I { b = 1 c = 2 @} entity t : Z { } rules end",
    )
    refused(
        "mixed-17-before-15",
        17,
        "interface I { attribute a : whole attribute b : whole } entity s : I { b = 1 @} entity s : I { a = 1 b = 1 } rules end",
    )
    refused("mixed-15-before-16", 15, "interface I { } entity s : I { } entity @s : Z { } rules end")
    refused(
        "mixed-16-before-17",
        16,
        "interface I { attribute a : whole event e : whole } entity s : I { @e = 1 } rules end",
    )
    refused(
        "mixed-entity-before-variable",
        16,
        "interface I { attribute f : bool } interface J { event f : bool action m ( bool ) } "
        "entity s : I { f = true } entity t : J { } "
        "rules when event @f from s : J value changed trigger action m ( true ) on t end end",
    )
    refused(
        "mixed-first-variable-counts",
        16,
        TWO + "rules when event e from x value changed and event e from x : I value changed "
        "and event @f from x : J value changed trigger action m ( true ) on t end end",
    )
    refused(
        "mixed-unknown-interface-hides-members",
        16,
        TWO + "rules when event what from x : @Z with nope = 1 value = x.none trigger action never ( x.none ) on x end end",
    )


# --------------------------------------------------------------------------
# Kinds (18)
# --------------------------------------------------------------------------


def make_kinds():
    refused(
        "kind-assignment",
        18,
        "interface I { attribute a : bool attribute b : whole attribute c : real } "
        "entity s : I { c = -1r a = true b @= - 1r } entity t : I { a = 1 b = 1 c = 1 } rules end",
    )
    rule = TWO + "rules when event e from s %s trigger action k ( %s ) on s %s end end"
    refused("kind-clause-filter", 18, rule % ("with a @= t.c value changed", "true", ""))
    refused("kind-clause-value", 18, rule % ("with a = - 1 value @= real ( s.a )", "1", ""))
    refused("kind-operator", 18, rule % ("value = 1 + s.e * 3 @/ 2r - true", "1", ""))
    refused("kind-minus-of-bool", 18, rule % ("value = ( - @- t.f )", "1", ""))
    refused("kind-real-of-real", 18, rule % ("value changed", "@real ( 1r )", ""))
    refused(
        "kind-call-bracket",
        18,
        TWO + "rules when event e from s value changed trigger action k @( 1r / 2r ) on s end end",
    )
    refused("kind-call-filter", 18, rule % ("value changed", "1", "with a @= 2r"))
    refused(
        "kind-inner-fault-silences-outer",
        18,
        TWO + "rules when event f from t value = ( 3 - - real ( 1 @+ 2r ) ) * 4 trigger action m ( 1 ) on t end end",
    )
    refused(
        "kind-bool-beside-inner-fault",
        18,
        TWO + "rules when event f from t value = true @+ ( 1 + 2r ) trigger action m ( 1 ) on t end end",
    )


# --------------------------------------------------------------------------
# Ranks: bench texts (document 02, order 6)
# --------------------------------------------------------------------------

RULE = "when %s" + CLAUSE + " trigger " + CALL + " end "
RANKED = EK + "rules " + RULE + "end"
RANK_10 = "rules " + RULE % "rank @10 " + "end"


def make_ranks():
    for number in ("0", "9", "09", "009"):
        accepted("rank-" + number, RANKED % ("rank %s " % number))
    accepted("rank-before-bracket", EK + "rules when rank 3 ( " + CLAUSE + " or " + CLAUSE + " ) trigger " + CALL + " end end")
    # no opener: 16 stand behind it
    accepted("rank-is-no-opener", EK + "rules when rank 3" + "(" * 16 + CLAUSE + ")" * 16 + "trigger " + CALL + " end end")
    accepted("rank-of-some-rules", EK + "rules " + RULE % "rank 2 " + RULE % "" + RULE % "rank 2 " + "end")
    accepted("rank-tight-words", RANKED % "rank#9\n8")
    # case is kept, and a name is as long as can be
    accepted(
        "rank-in-longer-names",
        "interface Rank { attribute ranks : whole event rank_ : whole action rank1 ( whole ) } entity RANK : Rank { ranks = 1 } "
        "rules when rank 1 event rank_ from ranks : Rank value changed trigger action rank1 ( ranks.ranks ) on ranks end end",
    )
    # the grammar takes a number of any size, but only one, and a whole
    for number in ("10", "010", "2147483647"):
        refused("rank-" + number, 44, RANKED % ("rank @%s " % number))
    refused("rank-2147483648", 12, RANKED % "rank @2147483648 ")
    for name, text in (
        ("real", "rank @3r "),
        ("real-above-9", "rank @10r "),
        ("minus", "rank @-1 "),
        ("without-number", "rank @"),
        ("twice", "rank 1 @rank 2 "),
    ):
        refused("rank-" + name, 13, RANKED % text)
    refused("rank-before-when", 13, EK + "rules @rank 1 " + RULE % "" + "end")
    refused("rank-after-condition", 13, EK + "rules when " + CLAUSE + " @rank 1 trigger " + CALL + " end end")
    refused("rank-ends-the-text", 13, "rules when rank # 1\n@")
    # 13 before 44
    refused("rank-10-ends-the-text", 13, "rules when rank 10@")
    # reserved
    refused("rank-names-interface", 13, "interface @rank { } rules end")
    refused("rank-names-attribute", 13, "interface I { attribute @rank : whole } rules end")
    refused("rank-names-event", 13, "interface I { event @rank : whole } rules end")
    refused("rank-names-entity", 13, "interface I { } entity @rank : I { } rules end")
    refused("rank-names-variable", 13, EK + "rules when event e from @rank : I value changed trigger " + CALL + " end end")
    refused("rank-assigned", 13, "interface I { } entity s : I { @rank = 1 } rules end")


def make_order_of_ranks():
    # "The first rank above 9": not the greatest
    refused("rank-first-above-9", 44, EK + "rules " + RULE % "rank 9 " + RULE % "rank @11 " + RULE % "rank 12 " + RULE % "rank 10 " + "end")
    # "after 13", and so after 12
    refused("rank-after-12", 12, RANKED % "rank 10 " + " @;")
    refused("rank-after-13", 13, EK + "rules " + RULE % "rank 10 " + "when " + CLAUSE + " trigger @end end")
    refused("rank-after-13-of-a-rank", 13, EK + "rules " + RULE % "rank 10 " + RULE % "rank @9r " + "end")
    # "before 14", though what is beyond a count stands earlier
    refused("rank-before-14-interfaces", 44, "interface A { } " * 17 + RANK_10)
    refused(
        "rank-before-14-variables",
        44,
        EK + "rules when event e from x : I value changed and event e from y : I value changed "
        "trigger action k ( 1 ) on z : I , action k ( 1 ) on w : I end " + RULE % "rank @10 " + "end",
    )
    nine_clauses, nine_calls = " or ".join([CLAUSE] * 9), " , ".join([CALL] * 9)
    refused("rank-before-14-clauses", 44, EK + "rules when " + nine_clauses + " trigger " + CALL + " end " + RULE % "rank @10 " + "end")
    refused("rank-before-14-calls", 44, EK + "rules when " + CLAUSE + " trigger " + nine_calls + " end " + RULE % "rank @10 " + "end")
    # and before 15 to 18
    refused("rank-before-15", 44, "interface A { } interface A { } " + RANK_10)
    refused("rank-before-16", 44, "entity s : A { } " + RANK_10)
    refused("rank-before-17", 44, "interface A { attribute a : whole } entity s : A { } " + RANK_10)
    refused(
        "rank-before-18",
        44,
        "interface I { attribute a : bool event e : whole action k ( whole ) } entity s : I { a = 1 } " + RANK_10,
    )


# --------------------------------------------------------------------------
# Readings: the trial table, headers, refusals
# --------------------------------------------------------------------------

PEDAL = (
    "interface P { event down : bool } interface S { event pos : whole } interface L { action keep ( whole ) } "
    "entity p : P { } entity s : S { } entity k : L { } rules when event down from p value = true "
    "trigger action keep ( s.pos ) on k end end"
)

PLAIN = (
    "interface I { attribute a : whole event e : whole action k ( whole ) } entity s : I { a = 1 } "
    "rules when event e from s value changed trigger action k ( s.e ) on s end end"
)

FIRE = (
    "interface I { event e : whole action k ( whole ) } entity s : I { } "
    "rules when event e from s value changed trigger action k ( s.e ) on s end end"
)

NAMED_N = (
    "interface I { event n : bool action k ( bool ) } entity n : I { } "
    "rules when event n from n value changed trigger action k ( n.n ) on n end end"
)


def make_headers():
    ran_text("run-refused-bench", "", "by n\na 1\n", "refused 13 0\n")
    for name, header in (
        ("action", "by n s.e s.k"),
        ("attribute", "by n s.a"),
        ("column-twice", "by n s s.e s"),
        ("trailing-space", "by n s.e "),
        # document 02, order 5: "The line of names begins `by n`"
        ("without-by", "n s.e"),
        ("without-n", "by s.e"),
        ("n-before-by", "n by s.e"),
        ("by-alone", "by"),
    ):
        ran_text("run-header-" + name, PLAIN, header + "\na 1 1\n", "refused 22\n")
    ran_text("run-empty-readings", PLAIN, "", "refused 22\n")
    ran_text("run-header-only", PLAIN, "by n s s.e", "by n s.k\n")
    # no column: a line is a sender and its number
    ran("run-header-by-n-alone", PLAIN, [
        ("by n", "by n s.k"),
        ("a 1", "a 1 -"),
        ("a 1 -", "refused 21"),
        ("b 1", "b 1 -"),
        ("a 1", "a 1 -"),
        ("a 2", "a 2 -"),
        ("b", "refused 21"),
        ("2", "refused 21"),
    ])
    ran("run-entity-n-no-line-feed", NAMED_N, [
        ("by n n.n n", "by n n.k"),
        ("a 1 true -", "a 1 true"),
        ("a 2 false true", "a 2 false"),
        ("a 3 - false", "a 3 -"),
        ("a 4 true true", "a 4 true"),
    ], last_feed=False)
    ran_text("run-empty-lines", PLAIN, "by n s.e\n\na 1 5\n\n", "by n s.k\nrefused 21\na 1 5\nrefused 21\n")


def make_refused_lines():
    ran("run-numbers-alone", "rules end", [
        ("by n", "by n"),
        ("a 0", "refused 24"),
        ("a 01", "refused 21"),
        ("a 1", "a 1"),
        ("a 1", "a 1"),
        ("a 0", "refused 24"),
        ("a 00", "refused 21"),
        ("a 3", "refused 24"),
        ("a 2", "a 2"),
    ])
    ran("run-refused-21", PLAIN, [
        ("by n s.e", "by n s.k"),
        ("a 1", "refused 21"),
        ("a 1 5 6", "refused 21"),
        ("a 1  5", "refused 21"),
        ("a  1 5", "refused 21"),
        ("a 1 5 ", "refused 21"),
        ("a 1\t5", "refused 21"),
        ("a +1 5", "refused 21"),
        ("a 1\t 5", "refused 21"),
        ("a 01 5", "refused 21"),
        ("a 10000000000 5", "refused 21"),
        ("a n 5", "refused 21"),
        ("a 1 5", "a 1 5"),
    ])
    ran("run-refused-23-whole", PLAIN, [
        ("by n s.e", "by n s.k"),
        ("a 1 05", "refused 23"),
        ("a 1 -0", "refused 23"),
        ("a 1 00", "refused 23"),
        ("a 1 2147483648", "refused 23"),
        ("a 1 -2147483649", "refused 23"),
        ("a 1 +5", "refused 23"),
        ("a 1 5r", "refused 23"),
        ("a 1 --5", "refused 23"),
        ("a 1 true", "refused 23"),
        ("a 1 -2147483648", "a 1 -2147483648"),
        ("a 2 2147483647", "a 2 2147483647"),
        ("a 3 0", "a 3 0"),
    ])
    ran(
        "run-refused-23-real-bool",
        "interface I { event r : real event b : bool action k ( real ) action m ( bool ) } entity s : I { } "
        "rules when event r from s value changed or event b from s value changed "
        "trigger action k ( s.r ) on s , action m ( s.b ) on s end end",
        [
            ("by n s.r s.b", "by n s.k s.m"),
            ("a 1 3FF0000000000000 true", "refused 23"),
            ("a 1 3ff000000000000 true", "refused 23"),
            ("a 1 3ff00000000000000 true", "refused 23"),
            ("a 1 7ff0000000000000 true", "refused 23"),
            ("a 1 fff8000000000001 true", "refused 23"),
            ("a 1 1 true", "refused 23"),
            ("a 1 - True", "refused 23"),
            ("a 1 - 0", "refused 23"),
            ("a 1 7fefffffffffffff ?", "a 1 7fefffffffffffff -"),
            ("a 2 - false", "a 2 7fefffffffffffff false"),
            ("a 3 800000000000000f -", "a 3 800000000000000f false"),
            ("a 4 ? -", "a 4 - false"),
        ],
    )
    ran("run-refused-23-presence", PLAIN, [
        ("by n s.e s", "by n s.k"),
        ("a 1 5 ?", "refused 23"),
        ("a 1 5 1", "refused 23"),
        ("a 1 5 false", "refused 23"),
        ("a 1 ? false", "refused 23"),
        ("a 1 - false", "a 1 -"),
        ("a 2 5 -", "refused 23"),
        ("a 2 ? -", "refused 23"),
        ("a 2 5 false", "refused 23"),
        ("a 2 - false", "a 2 -"),
        ("a 3 ? true", "a 3 -"),
        ("a 4 5 true", "a 4 5"),
        ("a 5 7 -", "a 5 7"),
    ])
    ran("run-refused-24", PLAIN, [
        ("by n s.e", "by n s.k"),
        ("a 2 5", "refused 24"),
        ("a 4294967295 5", "refused 24"),
        ("a 1 5", "a 1 5"),
        ("a 0 5", "refused 24"),
        ("a 3 5", "refused 24"),
        ("a 2 6", "a 2 6"),
        ("a 1 5", "refused 24"),
        ("a 4294967296 6", "refused 24"),
        ("a 4294967298 6", "refused 24"),
        ("a 9999999999 6", "refused 24"),
        ("a 2 6", "a 2 6"),
        ("a 3 6", "a 3 -"),
    ])
    ran("run-refused-25", PEDAL, [
        ("by n p p.down s.pos", "by n k.keep"),
        ("a 1 - true 10", "a 1 10"),
        ("a 1 true true 10", "refused 25"),
        ("a 1 - true 11", "refused 25"),
        ("a 1 - - 10", "refused 25"),
        ("a 1 - true ?", "refused 25"),
        ("a 1 - true 10", "a 1 10"),
        ("a 2 - - ?", "a 2 -"),
        ("a 2 - - -", "refused 25"),
        ("a 2 - - ?", "a 2 -"),
        ("a 3 - - -", "a 3 -"),
        ("a 3 - - ?", "refused 25"),
        ("a 3 - - -", "a 3 -"),
    ])
    ran("run-refusal-order", PLAIN, [
        ("by n s.e", "by n s.k"),
        ("a 9 bad 5", "refused 21"),
        ("a 01 bad", "refused 21"),
        ("a 9 bad", "refused 23"),
        ("a 0 bad", "refused 23"),
        ("a 4294967296 bad", "refused 23"),
        ("a 9 5", "refused 24"),
        ("a 1 5", "a 1 5"),
        ("a 1 bad", "refused 23"),
        ("a 1 6", "refused 25"),
        ("a 1 6 7", "refused 21"),
        ("a 1 5", "a 1 5"),
        ("a 2 6", "a 2 6"),
    ])
    ran("run-absent-with-last-number", PLAIN, [
        ("by n s s.e", "by n s.k"),
        ("a 1 - 5", "a 1 5"),
        ("a 2 false -", "a 2 -"),
        ("a 2 - 5", "refused 23"),
        ("a 2 - -", "refused 25"),
        ("a 2 true 5", "refused 25"),
        ("a 2 false -", "a 2 -"),
        ("a 3 true 5", "a 3 5"),
        ("a 3 - 5", "refused 25"),
        ("a 3 false -", "refused 25"),
        ("a 3 false 5", "refused 23"),
        ("a 3 true 5", "a 3 5"),
        ("a 4 true 5", "a 4 -"),
    ])


# --------------------------------------------------------------------------
# Readings: presence, choices, writes
# --------------------------------------------------------------------------

OUT = "interface O { action o ( whole ) action p ( whole ) } "
GO = "interface G { event t : whole } "


def make_presence():
    ran(
        "run-leave-and-return",
        OUT + GO + "interface S { attribute id : whole event v : whole } "
        "entity g : G { } entity s : S { id = 7 } entity z : O { } "
        "rules when event t from g value changed trigger action o ( s.id ) on z , action p ( s.v ) on z end end",
        [
            ("by n g.t s s.v", "by n z.o z.p"),
            ("a 1 1 - 5", "a 1 7 5"),
            ("a 2 2 false -", "a 2 - -"),
            ("a 3 3 true -", "a 3 7 -"),
            ("a 4 4 - 6", "a 4 7 6"),
            ("a 5 5 false 6", "refused 23"),
            ("a 5 5 true -", "a 5 7 6"),
            ("a 6 6 false -", "a 6 - -"),
            ("a 7 7 true 8", "a 7 7 8"),
        ],
    )
    ran(
        "run-clause-at-absent-entity",
        OUT + "interface S { event v : whole } entity s : S { } entity z : O { } "
        "rules when event v from s value changed trigger action o ( 1 ) on z end "
        "when event v from s value = 5 trigger action p ( 2 ) on z end end",
        [
            ("by n s s.v", "by n z.o z.p"),
            ("a 1 - 5", "a 1 1 2"),
            ("a 2 false -", "a 2 - -"),
            ("a 3 false -", "a 3 - -"),
            ("a 4 true 5", "a 4 1 2"),
            ("a 5 - 5", "a 5 - -"),
            ("a 6 false -", "a 6 - -"),
            ("a 7 true -", "a 7 - -"),
            ("a 8 - 5", "a 8 1 2"),
            ("a 9 - ?", "a 9 1 -"),
        ],
    )
    ran(
        "run-choices-of-present-entities",
        "interface B { event p : bool action r ( whole ) } entity x : B { } entity y : B { } entity z : B { } "
        "rules when event p from v : B value = true trigger action r ( 1 ) on w : B end end",
        [
            ("by n x y z x.p z.p", "by n x.r y.r z.r"),
            ("a 1 - - - true -", "a 1 1 1 1"),
            ("a 2 - false - false -", "a 2 - - -"),
            ("a 3 - - - true -", "a 3 1 - 1"),
            ("a 4 false true - - false", "a 4 - - -"),
            ("a 5 - - - - true", "a 5 - 1 1"),
            ("a 6 true - false - -", "a 6 - - -"),
            ("a 7 - - - true -", "a 7 1 1 -"),
        ],
    )
    ran(
        "run-variable-only-in-call",
        OUT + GO + "interface B { action q ( whole ) } entity g : G { } entity z : O { } entity b : B { } entity c : B { } "
        "rules when event t from g value changed trigger action o ( g.t ) on z , action q ( 1 ) on y : B end end",
        [
            ("by n g.t b c z", "by n z.o z.p b.q c.q"),
            ("a 1 1 - - -", "a 1 1 - 1 1"),
            ("a 2 2 false - -", "a 2 2 - - 1"),
            ("a 3 3 - false -", "a 3 - - - -"),
            ("a 4 4 true - -", "a 4 4 - 1 -"),
            ("a 5 5 - - false", "a 5 - - 1 -"),
        ],
    )


def make_writes():
    ran(
        "run-order-of-choices",
        "interface O { action o ( whole ) action p ( whole ) action q ( whole ) } "
        "interface A { attribute n : whole event t : whole } interface B { attribute n : whole action w ( whole ) } "
        "entity b : B { n = 10 } entity a : A { n = 1 } entity c : A { n = 2 } entity d : B { n = 20 } entity z : O { } "
        "rules when event t from x : A value changed "
        "trigger action o ( x.n * 100 + y.n + 0 / ( 110 - x.n * 100 - y.n ) ) on z , "
        "action p ( x.n * 100 + y.n ) on z , action w ( x.n ) on y : B end end",
        [
            ("by n a.t c.t c", "by n b.w d.w z.o z.p z.q"),
            # 110, for which o is unset, then 120, 210, 220: the earliest write stands
            ("a 1 1 1 -", "a 1 1 1 120 110 -"),
            ("a 2 2 - -", "a 2 1 1 120 110 -"),
            ("a 3 - 2 -", "a 3 2 2 210 210 -"),
            ("a 4 3 - false", "a 4 1 1 120 110 -"),
            ("a 5 - - true", "a 5 - - - - -"),
        ],
    )
    ran(
        # document 02, order 6: "The case keep(1), keep(2) now leaves 1"
        "run-first-write-stands",
        "interface S { event e : whole action keep ( whole ) } entity s : S { } "
        "rules when event e from s value = 5 trigger action keep ( 1 / 0 ) on s , action keep ( 3 ) on s end "
        "when event e from s value changed trigger action keep ( 1 ) on s , action keep ( 2 ) on s end end",
        [
            ("by n s.e", "by n s.keep"),
            ("a 1 4", "a 1 1"),
            ("a 2 5", "a 2 3"),
            ("a 3 5", "a 3 -"),
            ("a 4 4", "a 4 1"),
        ],
    )


# --------------------------------------------------------------------------
# Readings: clauses
# --------------------------------------------------------------------------


def make_clauses():
    ran(
        "run-changed-and-unset",
        PLAIN.replace("action k ( s.e )", "action k ( 1 )"),
        [
            ("by n s.e", "by n s.k"),
            ("a 1 -", "a 1 -"),
            ("a 2 5", "a 2 1"),
            ("a 3 5", "a 3 -"),
            ("a 4 ?", "a 4 1"),
            ("a 5 ?", "a 5 -"),
            ("a 6 -", "a 6 -"),
            ("a 7 5", "a 7 1"),
            ("a 8 -", "a 8 -"),
            ("a 9 6", "a 9 1"),
        ],
    )
    ran(
        "run-two-zeros",
        OUT + "interface S { event r : real } entity s : S { } entity z : O { } "
        "rules when event r from s value changed trigger action o ( 1 ) on z end "
        "when event r from s value = 0r trigger action p ( 2 ) on z end end",
        [
            ("by n s.r", "by n z.o z.p"),
            ("a 1 0000000000000000", "a 1 1 2"),
            ("a 1 8000000000000000", "refused 25"),
            ("a 1 0000000000000000", "a 1 1 2"),
            ("a 2 8000000000000000", "a 2 - -"),
            ("a 3 0000000000000000", "a 3 - -"),
            ("a 4 0000000000000001", "a 4 1 -"),
            ("a 5 8000000000000000", "a 5 1 2"),
            ("a 6 ?", "a 6 1 -"),
            ("a 7 ?", "a 7 - -"),
            ("a 8 8000000000000000", "a 8 1 2"),
        ],
    )
    ran(
        "run-value-fires-once",
        "interface S { event e : whole event f : whole action k ( whole ) } entity s : S { } "
        "rules when event e from s value = s.f trigger action k ( s.e ) on s end end",
        [
            ("by n s.e s.f", "by n s.k"),
            ("a 1 1 2", "a 1 -"),
            ("a 2 2 -", "a 2 2"),
            ("a 3 3 3", "a 3 -"),
            ("a 4 - -", "a 4 -"),
            ("a 5 3 4", "a 5 -"),
            ("a 6 4 -", "a 6 4"),
            ("a 7 ? -", "a 7 -"),
            ("a 8 4 -", "a 8 4"),
            ("a 9 - ?", "a 9 -"),
            ("a 10 - 4", "a 10 4"),
        ],
    )
    ran(
        "run-clause-filter-reads-now",
        "interface G { event t : whole } interface S { attribute id : whole event v : whole action k ( whole ) } "
        "entity g : G { } entity s : S { id = 7 } "
        "rules when event v from s with id = g.t value changed trigger action k ( s.v ) on s end end",
        [
            ("by n g.t s.v s", "by n s.k"),
            ("a 1 7 1 -", "a 1 1"),
            ("a 2 8 2 -", "a 2 -"),
            ("a 3 7 3 -", "a 3 3"),
            ("a 4 - 4 -", "a 4 4"),
            ("a 5 - - false", "a 5 -"),
            ("a 6 - 5 true", "a 6 5"),
            ("a 7 - 6 -", "a 7 6"),
            ("a 8 ? 7 -", "a 8 -"),
            ("a 9 7 8 -", "a 9 8"),
        ],
    )
    ran(
        "run-call-filter-reads-now",
        "interface G { event t : whole } interface S { attribute id : whole action k ( whole ) } "
        "entity g : G { } entity s : S { id = 7 } entity r : S { id = 8 } "
        "rules when event t from g value changed trigger action k ( g.t ) on s with id = g.t , "
        "action k ( x.id ) on x : S with id = g.t + 0 end end",
        [
            ("by n g.t s", "by n s.k r.k"),
            ("a 1 7 -", "a 1 7 -"),
            ("a 2 8 -", "a 2 - 8"),
            ("a 3 9 -", "a 3 - -"),
            ("a 4 ? -", "a 4 - -"),
            ("a 5 7 -", "a 5 7 -"),
            ("a 6 8 false", "a 6 - 8"),
            ("a 7 7 -", "a 7 - -"),
            ("a 8 - true", "a 8 - -"),
            ("a 9 ? -", "a 9 - -"),
            ("a 10 7 -", "a 10 7 -"),
        ],
    )
    ran(
        "run-and-or",
        OUT + "interface S { event a : bool event b : bool event c : bool } entity s : S { } entity z : O { } "
        "rules when event a from s value = true or event b from s value = true and event c from s value = true "
        "trigger action o ( 1 ) on z end "
        "when ( event a from s value = true or event b from s value = true ) and event c from s value = true "
        "trigger action p ( 1 ) on z end end",
        [
            ("by n s.a s.b s.c", "by n z.o z.p"),
            ("a 1 true false false", "a 1 1 -"),
            ("a 2 false true true", "a 2 1 1"),
            ("a 3 false false true", "a 3 - -"),
            ("a 4 false true false", "a 4 - -"),
            ("a 5 true true true", "a 5 1 1"),
            ("a 6 false false false", "a 6 - -"),
            ("a 7 false false true", "a 7 - -"),
            ("a 8 false true true", "a 8 - -"),
            ("a 9 true - -", "a 9 1 -"),
        ],
    )


# --------------------------------------------------------------------------
# Readings: a clause's `with` (document 02, order 1)
# --------------------------------------------------------------------------


def make_filters():
    # p, of bay 2, fires in the line in which it joins, once; q, of bay 3, never
    ran(
        "run-filter-lamp-joins-late",
        "interface Lamp { attribute bay : whole event seen : bool action one ( whole ) action any ( whole ) } "
        "entity p : Lamp { bay = 2 } entity q : Lamp { bay = 3 } "
        "rules when event seen from p with bay = 2 value = true trigger action one ( 1 ) on p end "
        "when event seen from q with bay = 2 value = true trigger action one ( 1 ) on q end "
        "when event seen from l : Lamp with bay = 2 value changed trigger action any ( l.bay ) on l end end",
        [
            ("by n p q p.seen q.seen", "by n p.one p.any q.one q.any"),
            ("a 1 false false - -", "a 1 - - - -"),
            ("a 2 true true true true", "a 2 1 2 - -"),
            ("a 3 - - true true", "a 3 - - - -"),
            ("a 4 false - - false", "a 4 - - - -"),
            ("a 5 true - true true", "a 5 1 2 - -"),
            ("a 6 - - - -", "a 6 - - - -"),
            ("a 7 false - - -", "a 7 - - - -"),
            # joins without a reading: its event was unset as it left, so nothing changes yet
            ("a 8 true - - -", "a 8 - - - -"),
            ("a 9 - - true -", "a 9 1 2 - -"),
            ("a 10 - - false -", "a 10 - 2 - -"),
        ],
    )
    # 14 / g.t is 7 only for 2 (4 for 3); it is unset for 0 and for unset
    ran(
        "run-filter-sum-of-the-line",
        "interface G { event t : whole } interface S { attribute id : whole event v : whole action c ( whole ) action e ( whole ) } "
        "entity g : G { } entity s : S { id = 7 } "
        "rules when event v from s with id = 14 / g.t value changed trigger action c ( s.v ) on s end "
        "when event v from s with id = 14 / g.t value = 5 trigger action e ( g.t ) on s end end",
        [
            ("by n g.t s.v", "by n s.c s.e"),
            ("a 1 2 0", "a 1 0 -"),
            # 7 before, 4 now
            ("a 2 3 5", "a 2 - -"),
            ("a 3 - 0", "a 3 - -"),
            # 4 before, 7 now
            ("a 4 2 5", "a 4 5 2"),
            ("a 5 - 0", "a 5 0 -"),
            # 7 before, unset now
            ("a 6 0 5", "a 6 - -"),
            ("a 7 - 0", "a 7 - -"),
            # unset before, 7 now
            ("a 8 2 5", "a 8 5 2"),
            ("a 9 - 0", "a 9 0 -"),
            ("a 10 ? 5", "a 10 - -"),
            ("a 11 2 6", "a 11 6 -"),
        ],
    )
    # the filter is no part of what the two cycles are compared by
    ran(
        "run-filter-compares-two-cycles",
        "interface S { attribute id : whole event f : whole event v : whole event w : whole "
        "action c ( whole ) action e ( whole ) } entity s : S { id = 1 } "
        "rules when event v from s with id = s.f value changed trigger action c ( s.v ) on s end "
        "when event v from s with id = s.f value = s.w trigger action e ( s.w ) on s end end",
        [
            ("by n s.f s.v s.w", "by n s.c s.e"),
            ("a 1 0 5 5", "a 1 - -"),
            # the filter starts to hold, but v was 5 and equal to w already
            ("a 2 1 5 5", "a 2 - -"),
            # v and w go together: equal before by the w of then
            ("a 3 - 6 6", "a 3 6 -"),
            ("a 4 - - 7", "a 4 - -"),
            # v takes the w of before, which is no longer w
            ("a 5 - 7 8", "a 5 7 -"),
            # w comes to v: not equal before by the w of then
            ("a 6 - - 7", "a 6 - 7"),
            ("a 7 0 8 8", "a 7 - -"),
            # equal before, though the filter did not hold there
            ("a 8 1 9 9", "a 8 9 -"),
            ("a 9 0 ? ?", "a 9 - -"),
            # two unset values were not equal
            ("a 10 1 4 4", "a 10 4 4"),
        ],
    )
    # an action fired in one line is what a filter reads in the next line, and only there
    ran(
        "run-filter-reads-action-one-cycle-later",
        "interface H { event t : whole action pick ( whole ) } "
        "interface Lamp { attribute bay : whole event seen : bool action lit ( whole ) } "
        "entity h : H { } entity p : Lamp { bay = 2 } entity q : Lamp { bay = 3 } "
        "rules when event t from h value changed trigger action pick ( h.t ) on h end "
        "when event seen from l : Lamp with bay = h.pick value changed trigger action lit ( h.pick ) on l end end",
        [
            ("by n h.t p.seen q.seen", "by n h.pick p.lit q.lit"),
            ("a 1 2 true true", "a 1 2 - -"),
            ("a 2 3 false false", "a 2 3 2 -"),
            ("a 3 - true true", "a 3 - - 3"),
            ("a 4 - false false", "a 4 - - -"),
            ("a 5 2 true true", "a 5 2 - -"),
            ("a 5 2 true true", "a 5 2 - -"),
            ("a 6 - true false", "a 6 - - -"),
            ("a 7 3 false true", "a 7 3 - -"),
            ("a 8 - true false", "a 8 - - 3"),
        ],
    )
    # nothing fires at a lamp that leaves; of an absent one the filter's sum reads unset
    ran(
        "run-filter-lamp-leaves",
        "interface O { action o ( whole ) action p ( whole ) action q ( whole ) } "
        "interface Lamp { attribute bay : whole event seen : bool } "
        "entity a : Lamp { bay = 2 } entity b : Lamp { bay = 5 } entity z : O { } "
        "rules when event seen from a with bay = 2 value changed trigger action o ( 1 ) on z end "
        "when event seen from l : Lamp with bay = 2 value changed trigger action p ( 1 ) on z end "
        "when event seen from b with bay = a.bay + 3 value changed trigger action q ( 1 ) on z end end",
        [
            ("by n a a.seen b.seen", "by n z.o z.p z.q"),
            ("a 1 - true true", "a 1 1 1 1"),
            ("a 2 false - false", "a 2 - - -"),
            ("a 3 - - true", "a 3 - - -"),
            ("a 4 true - false", "a 4 - - 1"),
            ("a 5 - true -", "a 5 1 1 -"),
            ("a 6 false - -", "a 6 - - -"),
            ("a 7 true false true", "a 7 1 1 1"),
        ],
    )
    # the filter's sum reads another variable, whose lamp may be the one that joins
    ran(
        "run-filter-reads-variable-that-joins",
        "interface Lamp { attribute bay : whole attribute next : whole event seen : bool action lit ( whole ) } "
        "entity p : Lamp { bay = 1 next = 2 } entity q : Lamp { bay = 2 next = 1 } "
        "rules when event seen from x : Lamp with next = y.bay value = true trigger action lit ( x.bay ) on y : Lamp end end",
        [
            ("by n p q p.seen q.seen", "by n p.lit q.lit"),
            ("a 1 - false true -", "a 1 - -"),
            ("a 2 - true - true", "a 2 2 -"),
            ("a 3 - - false false", "a 3 - -"),
            ("a 4 - - true true", "a 4 2 1"),
            ("a 5 false - - false", "a 5 - -"),
            ("a 6 true - - true", "a 6 2 -"),
            ("a 7 - - true -", "a 7 - 1"),
        ],
    )


# --------------------------------------------------------------------------
# Readings: actions seen as events
# --------------------------------------------------------------------------


def make_actions():
    ran(
        "run-action-seen-one-cycle-later",
        OUT + "interface S { event e : whole action k ( whole ) } entity s : S { } entity z : O { } "
        "rules when event e from s value changed trigger action k ( s.e ) on s end "
        "when event k from s value changed trigger action o ( s.k ) on z , action p ( 1 ) on z end end",
        [
            ("by n s.e", "by n s.k z.o z.p"),
            ("a 1 5", "a 1 5 - -"),
            ("a 2 -", "a 2 - 5 1"),
            ("a 3 -", "a 3 - - 1"),
            ("a 4 -", "a 4 - - -"),
            ("a 5 6", "a 5 6 - -"),
            ("a 6 6", "a 6 - 6 1"),
            ("a 7 7", "a 7 7 - 1"),
            ("a 8 8", "a 8 8 7 1"),
            ("a 9 9", "a 9 9 8 1"),
        ],
    )
    ran(
        "run-action-feeds-itself",
        "interface S { event e : bool action k ( whole ) } entity s : S { } "
        "rules when event e from s value = true trigger action k ( 1 ) on s end "
        "when event k from s value changed trigger action k ( s.k * 2 ) on s end end",
        [
            ("by n s s.e", "by n s.k"),
            ("a 1 - true", "a 1 1"),
            ("a 2 - -", "a 2 2"),
            ("a 2 - -", "a 2 2"),
            ("a 2 - true", "refused 25"),
            ("a 3 - -", "a 3 4"),
            ("a 4 - -", "a 4 8"),
            ("a 5 false -", "a 5 -"),
            ("a 5 false -", "a 5 -"),
            ("a 6 true -", "a 6 -"),
            ("a 7 - true", "a 7 1"),
            ("a 8 true true", "a 8 2"),
        ],
    )


# --------------------------------------------------------------------------
# Readings: sums
# --------------------------------------------------------------------------


def sums(kind, parameters):
    """A bench whose action cells a, b, .. take these sums when c.t becomes true."""
    letters = LETTERS[: len(parameters)]
    actions = " ".join("action %s ( %s )" % (letter, kind) for letter in letters)
    calls = " , ".join("action %s ( %s ) on o" % pair for pair in zip(letters, parameters))
    return (
        "interface C { event t : bool } interface O { %s } entity c : C { } entity o : O { } "
        "rules when event t from c value = true trigger %s end end" % (actions, calls)
    )


def sums_table(results):
    names = " ".join("o." + letter for letter in LETTERS[: len(results)])
    nothing = " ".join("-" for _ in results)
    row = " ".join(results)
    return [
        ("by n c.t", "by n " + names),
        ("a 1 true", "a 1 " + row),
        ("a 2 false", "a 2 " + nothing),
        ("a 3 true", "a 3 " + row),
        ("a 3 true", "a 3 " + row),
    ]


def ran_sums(name, kind, table):
    ran(name, sums(kind, [left for left, _ in table]), sums_table([right for _, right in table]))


def make_sums():
    ran_sums("run-whole-limits", "whole", [
        ("2147483647 + 1", "-"),
        ("-7 / 2", "-4"),
        ("7 / 0", "-"),
        ("(-2147483647 - 1) / -1", "-"),
        ("-2147483647 - 1", "-2147483648"),
        ("7 / -2", "-4"),
        ("-(-2147483647 - 1)", "-"),
        ("-65536 * 32768", "-2147483648"),
    ])
    ran_sums("run-whole-grouping", "whole", [
        ("10 - 3 - 4", "3"),
        ("100 / 10 / 2", "5"),
        ("2 + 3 * 4", "14"),
        ("2147483647 + 1 - 1", "-"),
        ("7 / 2 * 2", "6"),
        ("65536 * 32768", "-"),
        ("0 * (1 / 0)", "-"),
        ("-0 - - - 5", "-5"),
    ])
    ran_sums("run-real-sums", "real", [
        ("1r / 3r", "3fd5555555555555"),
        ("real ( 7 ) / 2r", "400c000000000000"),
        ("-0r", "8000000000000000"),
        ("0r - 0r", "0000000000000000"),
        ("0r * -1r", "8000000000000000"),
        ("1r / 0r", "-"),
        ("0r / 0r", "-"),
        ("real ( -3 / 2 * 2147483647 / 0 ) + 1r", "-"),
    ])
    ran(
        "run-real-rounding",
        "interface S { event x : real event y : real action a ( real ) action b ( real ) action c ( real ) "
        "action d ( real ) action f ( real ) } entity s : S { } rules when event x from s value changed trigger "
        "action a ( s.x + s.y ) on s , action b ( s.x - s.y ) on s , action c ( s.x * s.y ) on s , "
        "action d ( s.x / s.y ) on s , action f ( - s.x ) on s end end",
        [
            ("by n s.x s.y", "by n s.a s.b s.c s.d s.f"),
            # greatest finite twice: the sum and the product overflow
            ("a 1 7fefffffffffffff 7fefffffffffffff", "a 1 - 0000000000000000 - 3ff0000000000000 ffefffffffffffff"),
            # least positive and 2: half of the least rounds to even, to zero
            ("a 2 0000000000000001 4000000000000000",
             "a 2 4000000000000000 c000000000000000 0000000000000002 0000000000000000 8000000000000001"),
            # 0.1 and 0.2
            ("a 3 3fb999999999999a 3fc999999999999a",
             "a 3 3fd3333333333334 bfb999999999999a 3f947ae147ae147c 3fe0000000000000 bfb999999999999a"),
            # minus zero and zero
            ("a 4 8000000000000000 0000000000000000",
             "a 4 0000000000000000 8000000000000000 8000000000000000 - 0000000000000000"),
            # greatest finite by the least: the quotient overflows
            ("a 5 7fefffffffffffff 0000000000000001",
             "a 5 7fefffffffffffff 7fefffffffffffff 3ccfffffffffffff - ffefffffffffffff"),
        ],
    )


# --------------------------------------------------------------------------
# Readings: whole quotients (document 02, order 2)
# --------------------------------------------------------------------------

QUOTIENT = (
    "interface S { event x : whole event y : whole action q ( whole ) action r ( whole ) } entity s : S { } "
    "rules when event x from s value changed or event y from s value changed "
    "trigger action q ( s.x / s.y ) on s , action r ( s.x - s.x / s.y * s.y ) on s end end"
)


def make_quotients():
    # q is rounded toward minus infinity, so what is left over, r, has the sign of the divisor or is 0
    ran("run-quotient-of-all-signs", QUOTIENT, [
        ("by n s.x s.y", "by n s.q s.r"),
        # 3.5 and -3.5, from both signs of each
        ("a 1 7 2", "a 1 3 1"),
        ("a 2 -7 2", "a 2 -4 1"),
        ("a 3 7 -2", "a 3 -4 -1"),
        ("a 4 -7 -2", "a 4 3 -1"),
        # exact: no step down
        ("a 5 6 -3", "a 5 -2 0"),
        ("a 6 -6 3", "a 6 -2 0"),
        ("a 7 -6 -3", "a 7 2 0"),
        ("a 8 0 -5", "a 8 0 0"),
        # nearer to zero than to -1, and yet -1
        ("a 9 -1 3", "a 9 -1 2"),
        ("a 10 1 -3", "a 10 -1 -2"),
        # between 0 and 1
        ("a 11 -1 -3", "a 11 0 -1"),
        # no quotient
        ("a 12 -5 0", "a 12 - -"),
    ])
    # no number of a bench text is -2147483648, but a reading can be; r is unset where the
    # product of quotient and divisor leaves the 32 bits, the quotient itself in line 1 (and by the zero divisor of line 12)
    ran("run-quotient-at-the-ends", QUOTIENT, [
        ("by n s.x s.y", "by n s.q s.r"),
        ("a 1 -2147483648 -1", "a 1 - -"),
        ("a 2 -2147483648 1", "a 2 -2147483648 0"),
        ("a 3 -2147483647 -1", "a 3 2147483647 0"),
        # -1073741823.5; the product is -2147483648, just within
        ("a 4 -2147483647 2", "a 4 -1073741824 1"),
        # -1073741823.5 again; the product is 2147483648
        ("a 5 2147483647 -2", "a 5 -1073741824 -"),
        # a little below -1; the product is -4294967294
        ("a 6 -2147483648 2147483647", "a 6 -2 -"),
        # a little above -1; the product is 2147483648
        ("a 7 2147483647 -2147483648", "a 7 -1 -"),
        ("a 8 -2147483648 -2147483648", "a 8 1 0"),
        ("a 9 -1 2147483647", "a 9 -1 2147483646"),
        ("a 10 -1 -2147483648", "a 10 0 -1"),
        ("a 11 0 -2147483648", "a 11 0 0"),
        ("a 12 -2147483648 0", "a 12 - -"),
    ])
    # half goes down by one every second line and back goes up so, across zero too; two
    # further to the right the half is always one more
    ran(
        "run-halving-across-zero",
        "interface Stage { attribute by : whole event pos : whole "
        "action half ( whole ) action back ( whole ) action step ( whole ) } entity s : Stage { by = -2 } "
        "rules when event pos from s value changed trigger action half ( s.pos / 2 ) on s , "
        "action back ( s.pos / s.by ) on s , action step ( ( s.pos + 2 ) / 2 - s.pos / 2 ) on s end end",
        [
            ("by n s.pos", "by n s.half s.back s.step"),
            ("a 1 3", "a 1 1 -2 1"),
            ("a 2 2", "a 2 1 -1 1"),
            ("a 3 1", "a 3 0 -1 1"),
            ("a 4 0", "a 4 0 0 1"),
            ("a 5 -1", "a 5 -1 0 1"),
            ("a 6 -2", "a 6 -1 1 1"),
            ("a 7 -3", "a 7 -2 1 1"),
            ("a 8 -4", "a 8 -2 2 1"),
        ],
    )
    # halved again and again, a negative value comes to rest at -1 and a positive one at 0;
    # the value at rest is fired once more, and then k no longer changes
    ran(
        "run-halving-feeds-itself",
        "interface S { event e : whole action k ( whole ) } entity s : S { } "
        "rules when event e from s value changed trigger action k ( s.e ) on s end "
        "when event k from s value changed trigger action k ( s.k / 2 ) on s end end",
        [
            ("by n s.e", "by n s.k"),
            ("a 1 -5", "a 1 -5"),
            ("a 2 -", "a 2 -3"),
            ("a 3 -", "a 3 -2"),
            ("a 4 -", "a 4 -1"),
            ("a 5 -", "a 5 -1"),
            ("a 6 -", "a 6 -"),
            # k was -1 and is unset, which has no half
            ("a 7 -", "a 7 -"),
            ("a 8 5", "a 8 5"),
            ("a 9 -", "a 9 2"),
            ("a 10 -", "a 10 1"),
            ("a 11 -", "a 11 0"),
            ("a 12 -", "a 12 0"),
        ],
    )
    # e by `value = sum`, f by a clause's filter, g by a call's filter with a negative divisor
    ran(
        "run-quotient-in-conditions",
        "interface S { attribute id : whole event u : whole event v : whole "
        "action e ( whole ) action f ( whole ) action g ( whole ) } entity s : S { id = -4 } "
        "rules when event v from s value = s.u / 2 trigger action e ( s.v ) on s end "
        "when event v from s with id = s.u / 2 value changed trigger action f ( s.v ) on s end "
        "when event u from s value changed trigger action g ( s.u ) on s with id = s.u / -2 end end",
        [
            ("by n s.u s.v", "by n s.e s.f s.g"),
            # -7 / 2 is not -3, but is the id
            ("a 1 -7 -3", "a 1 - -3 -"),
            ("a 2 - -4", "a 2 -4 -4 -"),
            # -8 / 2 is -4 as well, so v was equal one cycle before
            ("a 3 -8 -", "a 3 - - -"),
            # v goes with -9 / 2, which is -5 and no longer the id
            ("a 4 -9 -5", "a 4 - - -"),
            # 7 / -2 is the id
            ("a 5 7 4", "a 5 - - 7"),
            # 9 / -2 is -5; v comes to be 9 / 2
            ("a 6 9 -", "a 6 4 - -"),
            # 8 / -2 is the id; v was equal to 9 / 2 before
            ("a 7 8 -", "a 7 - - 8"),
            ("a 8 ? -", "a 8 - - -"),
            # -1 / 2 is not 0
            ("a 9 -1 0", "a 9 - - -"),
            ("a 10 - -1", "a 10 -1 - -"),
        ],
    )
    # each quotient is rounded before the next operator takes it, from left to right
    ran_sums("run-quotient-in-longer-sums", "whole", [
        ("-7 / 2 * 2", "-8"),
        ("2 * -7 / 2", "-7"),
        # -5, then -3
        ("-9 / 2 / 2", "-3"),
        # by -3
        ("100 / (-7 / 3)", "-34"),
        # 1 + 4 - 3
        ("1 - 7 / -2 - -7 / -2", "2"),
        ("-7 - -7 / 2 * 2", "1"),
        # -1073741824 twice is within 32 bits, and not so its opposite
        ("-2147483647 / 2 * 2", "-2147483648"),
        ("2147483647 / -2 * -2", "-"),
    ])
    # a minus on the operand against one on the result; a divisor that is zero, or is not, by rounding
    ran_sums("run-quotient-and-minus", "whole", [
        ("-7 / 2", "-4"),
        ("-(7 / 2)", "-3"),
        ("7 / -2", "-4"),
        ("-7 / -2", "3"),
        ("-(-7 / 2)", "4"),
        ("-(-7) / 2", "3"),
        # by -1
        ("7 / (-1 / 2)", "-7"),
        # by 4 - 4
        ("0 / (4 + -7 / 2)", "-"),
    ])
    # reals stay: -3.5 and 3.5, a third below zero, minus zero; but a whole quotient is rounded before `real`
    ran_sums("run-real-quotients-stay", "real", [
        ("-7r / 2r", "c00c000000000000"),
        ("7r / -2r", "c00c000000000000"),
        ("-7r / -2r", "400c000000000000"),
        ("-1r / 3r", "bfd5555555555555"),
        ("0r / -5r", "8000000000000000"),
        ("-1r / 0r", "-"),
        ("real ( -7 / 2 )", "c010000000000000"),
        ("real ( -7 ) / real ( 2 )", "c00c000000000000"),
    ])


# --------------------------------------------------------------------------
# Readings: senders (document 02, order 5)
# --------------------------------------------------------------------------


def make_two_senders():
    # s.k takes s.e where it changes, whoever sends it
    ran("run-senders-interleaved", PLAIN, [
        ("by n s.e", "by n s.k"),
        ("a 1 5", "a 1 5"),
        # the same number and readings of another sender are no line sent again
        ("b 1 5", "b 1 -"),
        ("b 2 6", "b 2 6"),
        ("b 3 7", "b 3 7"),
        ("a 2 7", "a 2 -"),
        ("b 4 -", "b 4 -"),
        ("a 3 8", "a 3 8"),
        # c is the third, and begins at 1
        ("c 1 9", "c 1 9"),
        ("b 5 8", "b 5 8"),
        ("c 2 -", "c 2 -"),
        ("a 4 ?", "a 4 -"),
    ])
    # each is given its own row, not that of the cells now; e stays as the last taken line has left it
    ran("run-senders-late-resend", PLAIN, [
        ("by n s.e", "by n s.k"),
        ("a 1 5", "a 1 5"),
        ("b 1 6", "b 1 6"),
        ("a 1 5", "a 1 5"),
        ("b 1 6", "b 1 6"),
        # once more
        ("a 1 5", "a 1 5"),
        # e is 6 still
        ("a 2 6", "a 2 -"),
        ("b 1 6", "b 1 6"),
        ("b 2 5", "b 2 5"),
        # nothing was fired then, though k is 5 now
        ("a 2 6", "a 2 -"),
        ("b 2 5", "b 2 5"),
        ("a 3 6", "a 3 6"),
        ("a 3 6", "a 3 6"),
    ])
    # - -0 is 0; the kept line is compared bit by bit, and what was fired is kept as it was
    ran(
        "run-senders-resend-of-all-kinds",
        "interface A { event w : whole action k ( whole ) action f ( bool ) } "
        "interface R { event r : real action g ( real ) } entity x : A { } entity y : R { } "
        "rules when event w from x value changed trigger action k ( x.w ) on x , action f ( true ) on x end "
        "when event r from y value changed trigger action g ( - y.r ) on y end end",
        [
            ("by n x.w y.r", "by n x.k x.f y.g"),
            ("a 1 5 8000000000000000", "a 1 5 true 0000000000000000"),
            ("b 1 - 3ff0000000000000", "b 1 - - bff0000000000000"),
            ("c 1 -3 -", "c 1 -3 true -"),
            ("a 1 5 0000000000000000", "refused 25"),
            ("a 1 5 8000000000000000", "a 1 5 true 0000000000000000"),
            ("b 1 - 3ff0000000000000", "b 1 - - bff0000000000000"),
            # r changes, but there is no value to write
            ("d 1 - ?", "d 1 - - -"),
            ("c 1 -3 ?", "refused 25"),
            ("c 1 -3 -", "c 1 -3 true -"),
            ("d 1 - -", "refused 25"),
            ("d 1 - ?", "d 1 - - -"),
        ],
    )
    # a resent line starts no cycle and writes no cell: k, which z.o follows, is not put back
    ran(
        "run-senders-resend-starts-no-cycle",
        "interface S { event e : whole action k ( whole ) } interface O { action o ( whole ) } "
        "entity s : S { } entity z : O { } "
        "rules when event e from s value changed trigger action k ( s.e ) on s end "
        "when event k from s value changed trigger action o ( 1 ) on z end end",
        [
            ("by n s.e", "by n s.k z.o"),
            ("a 1 5", "a 1 5 -"),
            # k is seen
            ("b 1 -", "b 1 - 1"),
            ("a 1 5", "a 1 5 -"),
            # k was seen one cycle before and is unset now
            ("b 2 -", "b 2 - 1"),
            ("b 2 -", "b 2 - 1"),
            ("a 2 -", "a 2 - -"),
            ("b 3 7", "b 3 7 -"),
            ("a 2 -", "a 2 - -"),
            ("b 3 7", "b 3 7 -"),
            ("a 3 -", "a 3 - 1"),
            ("b 3 7", "b 3 7 -"),
            ("b 4 7", "b 4 - 1"),
        ],
    )
    # refused lines are kept for nobody
    ran("run-senders-refused-between", PLAIN, [
        ("by n s.e", "by n s.k"),
        ("a 1 5", "a 1 5"),
        ("a 2 x", "refused 23"),
        ("a 1 5", "a 1 5"),
        ("b 3 6", "refused 24"),
        ("a 1 6", "refused 25"),
        ("a 1 5", "a 1 5"),
        ("b 1 6", "b 1 6"),
        ("a 3 6", "refused 24"),
        ("b 1 5", "refused 25"),
        ("a 1 5", "a 1 5"),
        ("b 1 6", "b 1 6"),
        ("a 2 6", "a 2 -"),
    ])


def make_senders_and_absence():
    # "Being resent is tested before the check on absent entities": a's line reads s, which b has made leave
    ran("run-senders-resend-after-leaving", PLAIN, [
        ("by n s s.e", "by n s.k"),
        ("a 1 - 5", "a 1 5"),
        ("b 1 false -", "b 1 -"),
        ("a 1 - 5", "a 1 5"),
        # the same readings under the next number
        ("a 2 - 5", "refused 23"),
        # and from another sender, and under a number too great
        ("c 1 - 5", "refused 23"),
        ("a 4294967296 - 5", "refused 23"),
        ("a 1 - 5", "a 1 5"),
        ("b 1 false -", "b 1 -"),
        ("a 2 - -", "a 2 -"),
        # e was unset as s left, so it changes
        ("b 2 true 5", "b 2 5"),
        ("a 3 - 6", "a 3 6"),
        ("b 2 true 5", "b 2 5"),
    ])
    # a's line says itself that s is there; sent again it leaves s away, under the next number it does not
    ran("run-senders-resend-of-presence", PLAIN, [
        ("by n s s.e", "by n s.k"),
        ("a 1 true 5", "a 1 5"),
        ("b 1 false -", "b 1 -"),
        ("a 1 true 5", "a 1 5"),
        ("b 2 - 6", "refused 23"),
        ("a 1 - 5", "refused 23"),
        ("a 2 true 5", "a 2 5"),
        # s stays there
        ("b 1 false -", "b 1 -"),
        ("b 2 - 6", "b 2 6"),
        ("a 2 true 5", "a 2 5"),
        ("a 3 false -", "a 3 -"),
        ("b 2 - 6", "b 2 6"),
        ("b 2 true 6", "refused 25"),
    ])


def make_numbers_of_senders():
    ran("run-senders-first-number", PLAIN, [
        ("by n s.e", "by n s.k"),
        ("a 2 5", "refused 24"),
        # 24 before 25: 0 is the last number of a sender that is not known
        ("a 0 5", "refused 24"),
        # nor is it resent, with no readings as before the first line
        ("a 0 -", "refused 24"),
        ("a 1 5", "a 1 5"),
        ("b 2 5", "refused 24"),
        ("b 0 -", "refused 24"),
        ("a 0 5", "refused 24"),
        ("a 2 6", "a 2 6"),
        # a's last number
        ("b 2 6", "refused 24"),
        ("b 3 6", "refused 24"),
        ("b 1 6", "b 1 -"),
        ("b 1 6", "b 1 -"),
    ])
    ran("run-senders-own-numbers", PLAIN, [
        ("by n s.e", "by n s.k"),
        ("a 1 5", "a 1 5"),
        ("a 2 6", "a 2 6"),
        ("a 3 -", "a 3 -"),
        ("b 1 7", "b 1 7"),
        # the readings of a's last line, then that line's number too
        ("b 1 -", "refused 25"),
        ("b 3 -", "refused 24"),
        # the readings of b's last line, then that line's number too
        ("a 3 7", "refused 25"),
        ("a 1 7", "refused 24"),
        ("a 4 7", "a 4 -"),
        # a's next number, a's last one, b's own next
        ("b 5 8", "refused 24"),
        ("b 4 8", "refused 24"),
        ("b 2 8", "b 2 8"),
    ])


def make_names_of_senders():
    # "form as in bench files": a letter, then letters, digits or `_`, 24 bytes at most
    ran("run-senders-ill-formed", PLAIN, [
        ("by n s.e", "by n s.k"),
        ("1a 1 5", "refused 43"),
        ("_a 1 5", "refused 43"),
        ("s.e 1 5", "refused 43"),
        ("- 1 5", "refused 43"),
        ("a-b 1 5", "refused 43"),
        # a tab parts no fields
        ("a\t 1 5", "refused 43"),
        ("abcdefghijklmnopqrstuvwxy 1 5", "refused 43"),
        ("abcdefghijklmnopqrstuvwx 1 5", "abcdefghijklmnopqrstuvwx 1 5"),
        # all 24 bytes count
        ("abcdefghijklmnopqrstuvwX 1 6", "abcdefghijklmnopqrstuvwX 1 6"),
        ("abcdefghijklmnopqrstuvwx 1 5", "abcdefghijklmnopqrstuvwx 1 5"),
        ("Z_9 1 7", "Z_9 1 7"),
        ("Z_9 2 -", "Z_9 2 -"),
    ])
    # "reserved words allowed"; s is an entity, `by` and `n` begin the names
    ran("run-senders-words-of-all-sorts", PLAIN, [
        ("by n s.e", "by n s.k"),
        ("when 1 5", "when 1 5"),
        ("true 1 6", "true 1 6"),
        ("s 1 7", "s 1 7"),
        ("by 1 8", "by 1 8"),
        ("n 1 9", "n 1 9"),
        # a row, and no line that is refused
        ("refused 1 10", "refused 1 10"),
        ("by n 8", "refused 21"),
        ("n 1 9", "n 1 9"),
        ("by 1 8", "by 1 8"),
        ("s 1 7", "s 1 7"),
        ("when 1 5", "when 1 5"),
        ("true 2 6", "true 2 6"),
    ])
    # one beginning with another, capitals, a sender told apart by its end alone
    alike = [(line, line) for line in ("ab 1 1", "a 1 2", "abc 1 3", "aB 1 4", "a_ 1 5", "a1 1 6")]
    ran("run-senders-alike", PLAIN, [("by n s.e", "by n s.k"), *alike, *alike])
    # the columns begin after `by n`, so both may be entities too
    ran(
        "run-entities-by-and-n",
        "interface I { event n : bool event by : bool action k ( bool ) } entity by : I { } entity n : I { } "
        "rules when event n from by value changed trigger action k ( by.n ) on n end "
        "when event by from n value changed trigger action k ( n.by ) on by end end",
        [
            ("by n n by by.n n.by", "by n by.k n.k"),
            ("by 1 - - true -", "by 1 - true"),
            ("n 1 - - - false", "n 1 false -"),
            ("by 1 - - true -", "by 1 - true"),
            ("n 2 false - - -", "n 2 - -"),
            ("by 2 - - - true", "refused 23"),
            # at the absent n nothing is written
            ("by 2 - - false -", "by 2 - -"),
            ("n 2 false - - -", "n 2 - -"),
            ("n 3 - false - -", "n 3 - -"),
            # of both the events were unset as they left
            ("by 3 true true - true", "by 3 true -"),
            ("n 4 - - true -", "n 4 - true"),
            ("by 3 true true - true", "by 3 true -"),
        ],
    )
    ran("run-senders-missing-fields", PLAIN, [
        ("by n s.e", "by n s.k"),
        # no sender, no number, no value
        ("1 5", "refused 21"),
        ("a 5", "refused 21"),
        ("a 1", "refused 21"),
        # an empty one
        (" 1 5", "refused 21"),
        ("a  5", "refused 21"),
        ("a 1 ", "refused 21"),
        # one too many at either end
        (" a 1 5", "refused 21"),
        ("a 1 5 ", "refused 21"),
        # sender and number have changed places; no sender again, and the right number of fields
        ("1 a 5", "refused 21"),
        ("1 1 5", "refused 43"),
        ("a 1 5", "a 1 5"),
    ])


def make_order_of_refusals():
    ran("run-senders-refusal-order", PLAIN, [
        ("by n s s.e", "by n s.k"),
        ("a 1 - 5", "a 1 5"),
        ("b 1 false -", "b 1 -"),
        # 21 before 43; 43 before 23, ill formed and of an absent entity, and before 24
        ("a- 01 - 5", "refused 21"),
        ("a- 4294967296 - x", "refused 43"),
        ("a- 0 - 5", "refused 43"),
        # 23 before the test for resent: 05 would be 5
        ("a 1 - 05", "refused 23"),
        ("a 1 - 5", "a 1 5"),
        # 23 by the absent entity before 24, for a number too early and for 0, and before 25
        ("a 3 - 5", "refused 23"),
        ("a 0 - 5", "refused 23"),
        ("a 1 - 6", "refused 23"),
        ("a 3 - -", "refused 24"),
        ("a 1 - -", "refused 25"),
    ])


def first_lines(senders):
    """The first line of each, reading 1, 2, .., and its row."""
    return [("%s 1 %d" % (sender, value), "%s 1 %d" % (sender, value)) for value, sender in enumerate(senders, 1)]


def make_nine_senders():
    # the eighth is taken and the ninth not; a known one goes on
    ran("run-nine-senders", FIRE, [
        ("by n s.e", "by n s.k"),
        *first_lines("abcdefgh"),
        ("i 1 9", "refused 42"),
        ("a 2 9", "a 2 9"),
    ])
    # refused, the ninth is not known either, nor does it take another's place
    ran("run-nine-senders-ninth-stays-unknown", FIRE, [
        ("by n s.e", "by n s.k"),
        *first_lines("abcdefgh"),
        ("A 1 9", "refused 42"),
        ("A 1 9", "refused 42"),
    ])
    # known from the first line that is taken, so y and z leave room for eight
    ran("run-nine-senders-refused-first", FIRE, [
        ("by n s.e", "by n s.k"),
        ("z 2 9", "refused 24"),
        ("y 1 x", "refused 23"),
        *first_lines("abcdefgh"),
    ])
    # the first and the last of eight send again
    ran("run-nine-senders-resend", FIRE, [
        ("by n s.e", "by n s.k"),
        *first_lines("abcdefgh"),
        ("a 1 1", "a 1 1"),
        ("h 1 8", "h 1 8"),
    ])
    # 43 before 42, and 21 before both
    ran("run-nine-senders-43-before-42", FIRE, [
        ("by n s.e", "by n s.k"),
        *first_lines("abcdefgh"),
        ("9 1 9", "refused 43"),
        ("i 01 9", "refused 21"),
    ])
    # 42 before 23 and before 24; the ninth's name begins one that is known
    ran("run-nine-senders-42-before-23", FIRE, [
        ("by n s.e", "by n s.k"),
        *first_lines(["aa", "b", "c", "d", "e", "f", "g", "h"]),
        ("a 1 x", "refused 42"),
        ("a 0 -", "refused 42"),
    ])


# --------------------------------------------------------------------------
# Readings: ranks (document 02, order 6)
# --------------------------------------------------------------------------

BOX = "interface B { event x : whole event y : whole event z : whole } "
LAMP = "interface L { action set ( whole ) } "


def bench_of(interfaces, entities, *rules):
    """A bench with a box b, whose events x, y and z the rules read."""
    return BOX + interfaces + "entity b : B { } " + entities + "rules " + " ".join(rules) + " end"


def lamp_bench(*rules):
    """A lamp l that the rules set."""
    return bench_of(LAMP, "entity l : L { } ", *rules)


def follows(event, rank=""):
    """A rule by which the lamp follows an event of the box."""
    return "when %sevent %s from b value changed trigger action set ( b.%s ) on l end" % (rank, event, event)


def make_ranks_of_two_rules():
    # x is of higher rank
    table = [
        ("by n b.x b.y", "by n l.set"),
        ("a 1 1 2", "a 1 1"),
        ("a 2 - 3", "a 2 3"),
        ("a 3 4 -", "a 3 4"),
        ("a 4 5 6", "a 4 5"),
        ("a 5 - -", "a 5 -"),
        ("a 6 ? 7", "a 6 7"),
    ]
    ran("run-rank-higher-first", lamp_bench(follows("x", "rank 5 "), follows("y", "rank 2 ")), table)
    ran("run-rank-higher-last", lamp_bench(follows("y", "rank 2 "), follows("x", "rank 5 ")), table)
    # y is written earlier; of two ranks that are equal, and not 0
    ran("run-rank-equal", lamp_bench(follows("y", "rank 4 "), follows("x", "rank 4 ")), [
        ("by n b.x b.y", "by n l.set"),
        ("a 1 1 2", "a 1 2"),
        ("a 2 3 -", "a 2 3"),
        ("a 3 - 4", "a 3 4"),
        ("a 4 5 6", "a 4 6"),
        # y changes, but there is no value to write
        ("a 5 6 ?", "a 5 6"),
    ])
    bench = lamp_bench(follows("x", "rank 9 "), follows("y", "rank 10 "))
    ran_text("run-rank-refused-bench", bench, "by n b.x\na 1 1\n", "refused 44 %d\n" % bench.index("10"))


def make_ranks_of_three_rules():
    # "without it the rank is 0": none is before 0, and 0 before none
    ran("run-rank-0-and-none", lamp_bench(follows("x"), follows("y", "rank 0 "), follows("z")), [
        ("by n b.x b.y b.z", "by n l.set"),
        ("a 1 1 2 3", "a 1 1"),
        ("a 2 - 4 5", "a 2 4"),
        ("a 3 6 - 7", "a 3 6"),
        ("a 4 - - 8", "a 4 8"),
    ])
    ran("run-rank-earliest-of-the-highest", lamp_bench(follows("x", "rank 5 "), follows("y", "rank 9 "), follows("z", "rank 9 ")), [
        ("by n b.x b.y b.z", "by n l.set"),
        ("a 1 1 2 3", "a 1 2"),
        ("a 2 4 - 5", "a 2 5"),
        ("a 3 6 7 -", "a 3 7"),
        ("a 4 8 - -", "a 4 8"),
        ("a 5 - 9 10", "a 5 9"),
    ])
    # the numbers are compared, not their digits
    ran("run-rank-leading-zeros", lamp_bench(follows("x", "rank 8 "), follows("y", "rank 09 "), follows("z", "rank 0000000009 ")), [
        ("by n b.x b.y b.z", "by n l.set"),
        ("a 1 1 2 3", "a 1 2"),
        ("a 2 4 - 5", "a 2 5"),
        ("a 3 6 - -", "a 3 6"),
        ("a 4 - 7 8", "a 4 7"),
    ])
    # "lab managers want the safety rule to stand wherever it is written"
    safety = "when rank 9 event z from b value = 1 trigger action set ( 0 ) on l end"
    for place, name in enumerate(("first", "in-the-middle", "last")):
        rules = [follows("x", "rank 1 "), follows("y")]
        rules.insert(place, safety)
        ran("run-rank-safety-" + name, lamp_bench(*rules), [
            ("by n b.x b.y b.z", "by n l.set"),
            ("a 1 5 6 0", "a 1 5"),
            ("a 2 7 8 1", "a 2 0"),
            # z stays
            ("a 3 9 - 1", "a 3 9"),
            ("a 4 - 10 0", "a 4 10"),
            ("a 5 - - 1", "a 5 0"),
            ("a 6 11 12 ?", "a 6 11"),
            ("a 7 13 14 1", "a 7 0"),
            ("a 7 13 14 1", "a 7 0"),
        ])


BOXES_OF_BAYS = (
    "interface B { attribute id : whole event t : whole } interface L { action set ( whole ) } "
    "entity c : B { id = 2 } entity b : B { id = 1 } entity d : B { id = 3 } entity l : L { } rules "
)


def make_ranks_of_choices_and_calls():
    # c stands first in the file
    ran(
        "run-rank-first-choice-stands",
        BOXES_OF_BAYS + "when rank 3 event t from x : B value changed trigger action set ( x.id ) on l end end",
        [
            ("by n b.t c.t d.t c", "by n l.set"),
            ("a 1 1 1 1 -", "a 1 2"),
            ("a 2 2 - 2 -", "a 2 1"),
            ("a 3 - - 3 -", "a 3 3"),
            ("a 4 3 - 4 false", "a 4 1"),
            ("a 5 - 4 5 true", "a 5 2"),
        ],
    )
    # a later choice of the second rule stands over the first one of the first rule
    ran(
        "run-rank-choices-of-two-rules",
        BOXES_OF_BAYS + "when rank 1 event t from x : B value changed trigger action set ( x.id ) on l end "
        "when rank 2 event t from x : B value = 7 trigger action set ( x.id * 10 ) on l end end",
        [
            ("by n b.t c.t d.t", "by n l.set"),
            ("a 1 7 1 7", "a 1 10"),
            ("a 2 1 7 1", "a 2 20"),
            ("a 3 2 3 4", "a 3 2"),
            ("a 4 - - 7", "a 4 30"),
            ("a 5 7 - -", "a 5 10"),
            # d stays 7
            ("a 6 8 7 7", "a 6 20"),
        ],
    )
    # of one rule the first call with a value; y's rule is written earlier
    ran(
        "run-rank-first-call-stands",
        lamp_bench(
            follows("y", "rank 2 "),
            "when rank 7 event x from b value changed "
            "trigger action set ( 12 / b.x ) on l , action set ( b.x ) on l , action set ( 99 ) on l end",
        ),
        [
            ("by n b.x b.y", "by n l.set"),
            ("a 1 4 1", "a 1 3"),
            ("a 2 0 2", "a 2 0"),
            ("a 3 ? 3", "a 3 99"),
            ("a 4 - 5", "a 4 5"),
            ("a 5 -5 6", "a 5 -3"),
        ],
    )


def make_ranks_that_write_nothing():
    # "An unset parameter writes nothing", so the lower rank stands
    ran(
        "run-rank-unset-parameter",
        lamp_bench("when rank 9 event x from b value changed trigger action set ( 12 / b.x ) on l end", follows("y")),
        [
            ("by n b.x b.y", "by n l.set"),
            ("a 1 0 5", "a 1 5"),
            ("a 2 3 6", "a 2 4"),
            ("a 3 ? 7", "a 3 7"),
            ("a 4 2 -", "a 4 6"),
            ("a 5 0 -", "a 5 -"),
            ("a 6 - 8", "a 6 8"),
        ],
    )
    ran(
        "run-rank-call-filter",
        bench_of(
            "interface L { attribute id : whole action set ( whole ) } ",
            "entity l : L { id = 2 } ",
            "when rank 9 event x from b value changed trigger action set ( 0 ) on l with id = b.z end",
            follows("y", "rank 8 "),
        ),
        [
            ("by n b.x b.y b.z", "by n l.set"),
            ("a 1 1 5 2", "a 1 0"),
            ("a 2 2 6 3", "a 2 6"),
            ("a 3 3 7 2", "a 3 0"),
            ("a 4 4 8 ?", "a 4 8"),
            ("a 5 5 - -", "a 5 -"),
            ("a 6 - 9 2", "a 6 9"),
        ],
    )
    # a named guard, and any guard, that may be away
    ran(
        "run-rank-absent-guard",
        bench_of(
            LAMP + "interface G { event stop : bool } ",
            "entity l : L { } entity g : G { } entity h : G { } ",
            follows("x"),
            "when rank 9 event stop from g value = true trigger action set ( 0 ) on l end",
            "when rank 5 event stop from v : G value = true trigger action set ( 1 ) on l end",
        ),
        [
            ("by n b.x g g.stop h.stop", "by n l.set"),
            ("a 1 5 - true false", "a 1 0"),
            ("a 2 6 false - true", "a 2 1"),
            ("a 3 7 - - -", "a 3 7"),
            ("a 4 8 true true false", "a 4 0"),
            ("a 5 9 - false true", "a 5 1"),
            ("a 6 10 false - -", "a 6 10"),
            ("a 7 11 - true -", "refused 23"),
            ("a 7 11 - - -", "a 7 11"),
        ],
    )
    # at the absent lamp neither rank writes; y's rule does not write to the other lamp
    ran(
        "run-rank-absent-lamp",
        bench_of(
            LAMP,
            "entity l : L { } entity m : L { } ",
            "when event x from b value changed trigger action set ( b.x ) on v : L end",
            "when rank 9 event y from b value changed trigger action set ( 0 ) on l end",
        ),
        [
            ("by n b.x b.y l", "by n l.set m.set"),
            ("a 1 1 1 -", "a 1 0 1"),
            ("a 2 2 2 false", "a 2 - 2"),
            ("a 3 - 3 -", "a 3 - -"),
            ("a 4 3 4 true", "a 4 0 3"),
            ("a 5 4 - -", "a 5 4 4"),
            ("a 6 - 5 -", "a 6 0 -"),
        ],
    )


def make_ranks_of_cells():
    # rank decides for each cell: y's rule writes p alone
    both = "when rank %d event %s from b value changed trigger action o ( b.%s ) on z , action p ( b.%s ) on z end"
    ran(
        "run-rank-for-each-cell",
        bench_of(
            OUT,
            "entity z : O { } ",
            both % (2, "x", "x", "x"),
            "when rank 3 event y from b value changed trigger action p ( b.y ) on z end",
            both % (1, "z", "z", "z"),
        ),
        [
            ("by n b.x b.y b.z", "by n z.o z.p"),
            ("a 1 1 2 3", "a 1 1 2"),
            ("a 2 - 4 5", "a 2 5 4"),
            ("a 3 6 - 7", "a 3 6 6"),
            ("a 4 - 8 -", "a 4 - 8"),
            ("a 5 - - 9", "a 5 9 9"),
            ("a 6 ? 10 11", "a 6 11 10"),
        ],
    )
    # zeros and truths are not compared, only ranks
    ran(
        "run-rank-of-all-kinds",
        "interface B { event r : real event s : real event p : bool event q : bool } "
        "interface L { action glow ( real ) action lit ( bool ) } entity b : B { } entity l : L { } "
        "rules when event r from b value changed trigger action glow ( b.r ) on l , action lit ( b.p ) on l end "
        "when rank 1 event s from b value changed trigger action glow ( b.s ) on l , action lit ( b.q ) on l end end",
        [
            ("by n b.r b.s b.p b.q", "by n l.glow l.lit"),
            ("a 1 0000000000000000 8000000000000000 true false", "a 1 8000000000000000 false"),
            # s is the other zero, which is no change
            ("a 2 3ff0000000000000 0000000000000000 - -", "a 2 3ff0000000000000 true"),
            ("a 3 - bff0000000000000 false ?", "a 3 bff0000000000000 -"),
            # s has no value to write, q has
            ("a 4 4000000000000000 ? - true", "a 4 4000000000000000 true"),
        ],
    )
    # the rank is the whole condition's
    ran(
        "run-rank-of-whole-condition",
        lamp_bench(
            follows("x", "rank 1 "),
            "when rank 2 ( event x from b value changed or event y from b value changed ) and event z from b value changed "
            "trigger action set ( 0 ) on l end",
        ),
        [
            ("by n b.x b.y b.z", "by n l.set"),
            ("a 1 1 - 1", "a 1 0"),
            ("a 2 2 - -", "a 2 2"),
            ("a 3 - 1 2", "a 3 0"),
            ("a 4 - 2 -", "a 4 -"),
            ("a 5 3 4 3", "a 5 0"),
            ("a 6 - - 4", "a 6 -"),
        ],
    )


def make_ranks_over_cycles():
    # what stands is seen, one cycle later, also by the highest rank
    ran(
        "run-rank-action-seen-one-cycle-later",
        bench_of(
            "interface L { action set ( whole ) action o ( whole ) } ",
            "entity l : L { } ",
            "when rank 9 event set from l value changed trigger action o ( l.set ) on l end",
            follows("x"),
            follows("y", "rank 5 "),
        ),
        [
            ("by n b.x b.y", "by n l.set l.o"),
            ("a 1 1 2", "a 1 2 -"),
            ("a 2 3 -", "a 2 3 2"),
            ("a 3 4 5", "a 3 5 3"),
            ("a 4 - -", "a 4 - 5"),
            # set has become unset: there is no value to write
            ("a 5 - -", "a 5 - -"),
            ("a 6 6 -", "a 6 6 -"),
            ("a 7 7 7", "a 7 7 6"),
        ],
    )
    # from line 2 on the lamp counts down, and x is not heard before the lamp has left
    ran(
        "run-rank-feeds-itself",
        lamp_bench(follows("x"), "when rank 9 event set from l value changed trigger action set ( l.set - 1 ) on l end"),
        [
            ("by n b.x l", "by n l.set"),
            ("a 1 5 -", "a 1 5"),
            ("a 2 9 -", "a 2 4"),
            ("a 3 - -", "a 3 3"),
            ("a 4 7 -", "a 4 2"),
            ("a 4 7 -", "a 4 2"),
            ("a 5 - -", "a 5 1"),
            ("a 6 - false", "a 6 -"),
            ("a 7 8 true", "a 7 8"),
            ("a 8 9 -", "a 8 7"),
        ],
    )
    ran("run-rank-resent", lamp_bench(follows("y"), follows("x", "rank 1 ")), [
        ("by n b.x b.y", "by n l.set"),
        ("a 1 1 2", "a 1 1"),
        ("c 1 - 3", "c 1 3"),
        ("a 1 1 2", "a 1 1"),
        ("c 1 - 3", "c 1 3"),
        ("a 1 1 3", "refused 25"),
        ("c 2 4 5", "c 2 4"),
        ("a 1 1 2", "a 1 1"),
        ("a 2 - 6", "a 2 6"),
        ("c 2 4 5", "c 2 4"),
    ])


# --------------------------------------------------------------------------
# Readings drawn at random
# --------------------------------------------------------------------------

MAZE = (
    "interface D { attribute id : whole event on_ : bool event v : whole action set ( whole ) action flag ( bool ) } "
    "interface H { event w : whole action sum ( whole ) } "
    "entity a : D { id = 1 } entity b : D { id = 2 } entity h : H { } "
    "rules when event v from x : D value changed and ( event on_ from y : D with id = 3 - x.id value changed "
    "or event w from h value = x.v ) trigger action sum ( x.v * 10 + y.id ) on h , action flag ( y.on_ ) on x with id = 1 end "
    "when event sum from h value changed trigger action set ( h.sum - z.v ) on z : D end "
    "when event set from x : D value = x.v or event flag from a value = true trigger action sum ( - h.w / x.id ) on h end end"
)


def random_field(draw, column):
    if column in ("a", "b"):
        return draw.choice(["-", "-", "-", "-", "true", "false"])
    if column.endswith("on_"):
        return draw.choice(["-", "true", "false", "true", "false", "?"])
    return draw.choice(["-", "0", "1", "1", "2", "2", "-3", "?"])


BOXES = ["west", "east", "x_1"]


def random_readings(draw, columns):
    """Twelve lines of three senders: mostly the next number of one, now and then its last line once more or its last
    number with other readings."""
    lines = ["by n " + " ".join(columns)]
    last = {}  # the number and the fields of each sender's last taken line
    for _ in range(12):
        fresh = " ".join(random_field(draw, column) for column in columns)
        sender = draw.choice(BOXES)
        number, fields = last.get(sender, (0, ""))
        turn = draw.random()
        if number > 0 and turn < 0.3:
            lines.append("%s %d %s" % (sender, number, fields))
        elif number > 0 and turn < 0.4:
            lines.append("%s %d %s" % (sender, number, fresh))
        else:
            lines.append("%s %d %s" % (sender, number + 1, fresh))
            if not run(MAZE.encode(), "\n".join(lines).encode()).split(b"\n")[-2].startswith(b"refused"):
                last[sender] = (number + 1, fresh)
    return "\n".join(lines) + "\n"


def make_random():
    draw = random.Random(SEED)
    columns = ["a", "a.on_", "a.v", "b", "b.on_", "b.v", "h.w"]
    draw.shuffle(columns)
    case = add("run-random", MAZE, random_readings(draw, columns))
    # worked out by hand.  Order 6: the earlier choice stands in west 1 (-29 before -28), in x_1 2, which sees a.flag
    # true (- h.w / a.id before - h.w / b.id), and the earlier rule in west 2 (22 and 21 before 0).  Order 2: -1 / 2 is -1.
    # Order 5: after east's line the lines of west, which was the first, and of x_1 are sent again
    assert "\nx_1 2 ? - true - ? -3 1\neast 1 false - ? true 1 -3 2\nwest 1 " in case["readings"], case
    assert case["printed"].split("\n")[2:13] == [
        "west 1 - - - - -29",
        "x_1 1 -31 true -29 - 22",
        "x_1 2 25 - - - -1",
        "east 1 2 - -2 - 11",
        "west 1 - - - - -29",
        "x_1 2 25 - - - -1",
        "x_1 2 25 - - - -1",
        "west 1 - - - - -29",
        "refused 23",
        "west 2 9 false 9 - 22",
        "east 2 22 - 20 - -",
    ], case


# --------------------------------------------------------------------------
# Day sheets (document 02, order 3)
# --------------------------------------------------------------------------


def add_sheet(name, bench, before, readings, cells):
    """Stores a sheet with the oracle's result; `before` is run from the fresh state to make the lent one."""
    assert name.startswith("sheet-") and all(case["name"] != name for case in SHEETS), name
    assert len(bench) <= 600 and readings.count("\n") <= 13, name
    text, day, chosen = bench.encode("ascii"), readings.encode("ascii"), cells.encode("ascii")
    assert check(text) == (0, 0), name
    lent = state_after(text, before.encode("ascii"))
    kept = copy.deepcopy(lent)
    number, printed = sheet(text, lent, day, chosen)
    assert lent == kept, name  # "the lent state, which stays as lent"
    assert len(printed) <= stated_size(day), name
    if before == "":
        refusal = b"refused %d\n" % number
        assert sheet(text, None, day, chosen) == (number, printed), name
        assert printed_sheet(text, day, chosen) == (refusal if number else printed), name
    else:
        assert lent.senders, name
    SHEETS.append({
        "name": name, "bench": bench, "before": before, "readings": readings, "cells": cells,
        "number": number, "sheet": printed.decode("ascii"),
    })
    return SHEETS[-1]


def text_of_rows(rows):
    """A sheet of rows that are written from column 1 on: filled to 80 columns, closed by line feeds."""
    assert all(len(row) <= 80 and row == row.rstrip(" ") for row in rows), rows
    return "".join(row.ljust(80) + "\n" for row in rows)


def sheeted(name, bench, readings, cells, rows, before=""):
    """A sheet that is printed."""
    case = add_sheet(name, bench, before, readings, cells)
    assert (case["number"], case["sheet"]) == (0, text_of_rows(rows)), (name, case["number"], case["sheet"].split("\n"))


def sheet_refused(name, number, bench, readings, cells, before=""):
    """A sheet that is refused by this number."""
    case = add_sheet(name, bench, before, readings, cells)
    assert (case["number"], case["sheet"]) == (number, ""), (name, case)


ONE_WHOLE = "interface I { event e : whole } entity s : I { } rules end"

ONE_REAL = "interface I { event x : real } entity s : I { } rules end"

TWO_REALS = "interface I { event x : real event y : real } entity s : I { } rules end"

def make_sheets_of_lines():
    # -2147483648 is kept by `-` in line 3, and `?` makes e unset in line 5
    sheeted(
        "sheet-one-whole-cell",
        ONE_WHOLE,
        "by n s.e\na 1 5\na 2 -2147483648\na 3 -\na 4 2147483647\na 5 ?\na 6 0\n",
        "s.e",
        [
            #....:....1....:....2....
            "         1             5",
            "         2   -2147483648",
            "         3   -2147483648",
            "         4    2147483647",
            "         5             -",
            "         6             0",
        ],
    )
    # pi, and f is its half; b stays in line 2, so nothing is fired; in line 3 r is unset, so f is not written,
    # and the line has no set real; no last line feed
    sheeted(
        "sheet-five-cells-of-all-sorts",
        "interface M { attribute a : whole event b : bool event r : real action f ( real ) action g ( bool ) } "
        "entity m : M { a = -40 } rules when event b from m value changed "
        "trigger action f ( m.r / 2r ) on m , action g ( m.b ) on m end end",
        "by n m.b m.r\na 1 true 400921fb54442d18\na 2 - c00400000000000b\na 3 false ?",
        "m.f m.a m.g m.r m.b",
        [
            #....:....1....:....2....:....3....:....4....:....5....:....6....:....7....:....8
            "         1      3ff921fb           -40          true      400921fb          true",
            "                54442d18                                  54442d18",
            "         2             -           -40             -      c0040000          true",
            "                                                          0000000b",
            "         3             -           -40         false             -         false",
            # f: lowest, highest and last are one value
            "                3ff921fb",
            "                54442d18",
            "                3ff921fb",
            "                54442d18",
            "                3ff921fb",
            "                54442d18",
            # r: lowest, highest, last set
            "                                                          c0040000",
            "                                                          0000000b",
            "                                                          400921fb",
            "                                                          54442d18",
            "                                                          c0040000",
            "                                                          0000000b",
        ],
    )
    # lines 1, 3 and 6 have no set real; line 5 has one, which is no reading of that line
    sheeted(
        "sheet-second-row-of-set-reals",
        "interface I { event x : real event w : whole } entity s : I { } rules end",
        "by n s.x s.w\na 1 - 3\na 2 3fb999999999999a -\na 3 ? 4\na 4 bfe0000000000001 ?\na 5 - 9\na 6 ? -\n",
        "s.x s.w",
        [
            #....:....1....:....2....:....3....:...
            "         1             -             3",
            "         2      3fb99999             3",
            "                9999999a",
            "         3             -             4",
            "         4      bfe00000             -",
            "                00000001",
            "         5      bfe00000             9",
            "                00000001",
            "         6             -             9",
            # -0.5 and 0.1; the last set value is not of the last line
            "                bfe00000",
            "                00000001",
            "                3fb99999",
            "                9999999a",
            "                bfe00000",
            "                00000001",
        ],
    )
    # resent: line 2 once, line 3 twice; k is shown at its line alone
    sheeted("sheet-resent-in-the-middle", FIRE, "by n s.e\na 1 5\na 2 -\na 2 -\na 3 6\na 3 6\na 3 6\na 4 6\n", "s.k s.e", [
        #....:....1....:....2....:....3....:...
        "         1             5             5",
        "         2             -             5",
        "         3             6             6",
        "         4             -             6",
    ])
    # passed over: 24, after line 1 an empty line (21), 25, 23, 24, 21, after line 2 24, after line 3 24
    # and an empty line
    sheeted(
        "sheet-refused-lines-passed-over",
        FIRE,
        "by n s.e\na 2 4\na 1 5\n\na 1 6\na 2 x\na 3 6\na 2\na 2 6\na 0 6\na 3 -\na 9 9\n\n",
        "s.e s.k",
        [
            #....:....1....:....2....:....3....:...
            "         1             5             5",
            "         2             6             6",
            "         3             6             -",
        ],
    )
    # d is absent in lines 2 and 3; its event was unset as it left, so nothing is fired in line 4;
    # r is -(2 to the 31st - 1): 30 ones of the fraction stand first
    sheeted(
        "sheet-absent-entity",
        "interface D { attribute a : whole attribute r : real event e : whole action k ( whole ) } "
        "entity d : D { a = 7 r = -2147483647r } "
        "rules when event e from d value changed trigger action k ( d.e ) on d end end",
        "by n d d.e\na 1 - 5\na 2 false -\na 3 - -\na 4 true -\na 5 - 6\n",
        "d.a d.e d.r d.k",
        [
            #....:....1....:....2....:....3....:....4....:....5....:....6....:.
            "         1             7             5      c1dfffff             5",
            "                                            ffc00000",
            "         2             -             -             -             -",
            "         3             -             -             -             -",
            "         4             7             -      c1dfffff             -",
            "                                            ffc00000",
            "         5             7             6      c1dfffff             6",
            "                                            ffc00000",
            "                                            c1dfffff",
            "                                            ffc00000",
            "                                            c1dfffff",
            "                                            ffc00000",
            "                                            c1dfffff",
            "                                            ffc00000",
        ],
    )


def make_sheets_of_closing_rows():
    # -1 and a little, 2 and a little, then more; -2 less more, then less; 1: of two negative reals the lower
    # has the greater bits, and a negative one has greater bits than a positive one
    sheeted(
        "sheet-lowest-highest-last",
        ONE_REAL,
        "by n s.x\na 1 bff0000000000001\na 2 4000000000000002\na 3 400000000000000a\n"
        "a 4 c000000000000003\na 5 c000000000000002\na 6 3ff0000000000004\n",
        "s.x",
        [
            #....:....1....:....2....
            "         1      bff00000",
            "                00000001",
            "         2      40000000",
            "                00000002",
            "         3      40000000",
            "                0000000a",
            "         4      c0000000",
            "                00000003",
            "         5      c0000000",
            "                00000002",
            "         6      3ff00000",
            "                00000004",
            # lowest, of line 4
            "                c0000000",
            "                00000003",
            # highest, of line 3
            "                40000000",
            "                0000000a",
            # last
            "                3ff00000",
            "                00000004",
        ],
    )
    # y is chosen before x, so its block stands first; in line 1 y is unset, in line 2 x
    sheeted(
        "sheet-two-real-columns",
        TWO_REALS,
        "by n s.x s.y\na 1 4010000000000004 -\na 2 ? c010000000000007\n"
        "a 3 4030000000000003 4020000000000002\na 4 4020000000000005 -\n",
        "s.y s.x",
        [
            #....:....1....:....2....:....3....:...
            "         1             -      40100000",
            "                              00000004",
            "         2      c0100000             -",
            "                00000007",
            "         3      40200000      40300000",
            "                00000002      00000003",
            "         4      40200000      40200000",
            "                00000002      00000005",
            # y: -4, 8, 8 and a little each
            "                c0100000",
            "                00000007",
            "                40200000",
            "                00000002",
            "                40200000",
            "                00000002",
            # x: 4, 16, 8
            "                              40100000",
            "                              00000004",
            "                              40300000",
            "                              00000003",
            "                              40200000",
            "                              00000005",
        ],
    )
    # x is never set, y once, w is no real
    sheeted(
        "sheet-real-never-set",
        "interface I { event w : whole event x : real event y : real } entity s : I { } rules end",
        "by n s.w s.y\na 1 8 -\na 2 - 7fefffffffffffff\n",
        "s.w s.x s.y",
        [
            #....:....1....:....2....:....3....:....4....:....5..
            "         1             8             -             -",
            "         2             8             -      7fefffff",
            "                                            ffffffff",
            "                                     -",
            "                                     -",
            "                                     -",
            "                                            7fefffff",
            "                                            ffffffff",
            "                                            7fefffff",
            "                                            ffffffff",
            "                                            7fefffff",
            "                                            ffffffff",
        ],
    )
    # x is 0 and then -0, y the other way round
    sheeted(
        "sheet-two-zeros",
        TWO_REALS,
        "by n s.x s.y\na 1 0000000000000000 8000000000000000\na 2 8000000000000000 0000000000000000\n",
        "s.x s.y",
        [
            #....:....1....:....2....:....3....:...
            "         1      00000000      80000000",
            "                00000000      00000000",
            "         2      80000000      00000000",
            "                00000000      00000000",
            # x: the zero of line 1 twice, then that of line 2
            "                00000000",
            "                00000000",
            "                00000000",
            "                00000000",
            "                80000000",
            "                00000000",
            # y the same
            "                              80000000",
            "                              00000000",
            "                              80000000",
            "                              00000000",
            "                              00000000",
            "                              00000000",
        ],
    )
    # two cells five times; without a last line feed the sheet is as long as its stated size
    sheeted(
        "sheet-five-reals-of-two-cells",
        "interface I { attribute a : real event x : real } entity s : I { a = -2147483647r } rules end",
        "by n s.x\na 1 3fd5555555555556",
        "s.x s.a s.x s.a s.x",
        [
            #....:....1....:....2....:....3....:....4....:....5....:....6....:....7....:....8
            "         1      3fd55555      c1dfffff      3fd55555      c1dfffff      3fd55555",
            "                55555556      ffc00000      55555556      ffc00000      55555556",
            *[
                "                3fd55555",
                "                55555556",
            ] * 3,
            *[
                "                              c1dfffff",
                "                              ffc00000",
            ] * 3,
            *[
                "                                            3fd55555",
                "                                            55555556",
            ] * 3,
            *[
                "                                                          c1dfffff",
                "                                                          ffc00000",
            ] * 3,
            *[
                "                                                                        3fd55555",
                "                                                                        55555556",
            ] * 3,
        ],
    )


def make_sheets_of_lent_states():
    # e is 7 and k was fired in line 8, t has left and u has not; e stays in line 9, so nothing is fired
    sheeted(
        "sheet-goes-on-from-lent-state",
        "interface I { event e : whole action k ( whole ) } interface A { attribute a : bool } "
        "entity s : I { } entity t : A { a = true } entity u : A { a = false } "
        "rules when event e from s value changed trigger action k ( s.e ) on s end end",
        "by n t s.e\na 9 - 7\na 10 true 8\na 11 - -\n",
        "s.e s.k t.a u.a",
        [
            #....:....1....:....2....:....3....:....4....:....5....:....6....:.
            "         9             7             -             -         false",
            "        10             8             8          true         false",
            "        11             8             -          true         false",
        ],
        before="by n s.e t\na 1 5 -\na 2 - -\na 3 - -\na 4 - -\na 5 - -\na 6 - -\na 7 - -\na 8 7 false\n",
    )
    # line 2 is resent, with a column more; -3 is no value of the day
    sheeted(
        "sheet-resent-as-first-line",
        ONE_REAL,
        "by n s s.x\na 2 - c008000000000002\na 3 - 4000000000000003\na 4 - 3ff0000000000004\n",
        "s.x",
        [
            #....:....1....:....2....
            "         3      40000000",
            "                00000003",
            "         4      3ff00000",
            "                00000004",
            "                3ff00000",
            "                00000004",
            "                40000000",
            "                00000003",
            "                3ff00000",
            "                00000004",
        ],
        before="by n s.x\na 1 c000000000000001\na 2 c008000000000002\n",
    )
    # line 1 is resent and 3 is refused by 24: a and x are set, but in no printed line
    sheeted(
        "sheet-no-line-and-two-reals",
        "interface I { attribute a : real event w : whole event x : real } entity s : I { a = 3r } rules end",
        "by n s.w s.x\na 1 4 3ff0000000000000\na 3 - -\n",
        "s.a s.w s.x",
        [
            #....:....1....:....2....:....3....:....4....:....5..
            "                       -",
            "                       -",
            "                       -",
            "                                                   -",
            "                                                   -",
            "                                                   -",
        ],
        before="by n s.x s.w\na 1 3ff0000000000000 4\n",
    )
    sheeted("sheet-no-line-and-no-real", ONE_WHOLE, "by n s.e", "s.e", [], before="by n s.e\na 1 5\n")


# document 02, order 5: "the day sheet shows the number alone"


def make_sheets_of_senders():
    # resent, and not printed: line 1 of a and line 1 of b after lines of the other, line 2 of a
    sheeted(
        "sheet-two-senders",
        FIRE,
        "by n s.e\na 1 5\nb 1 6\na 1 5\na 2 -\nb 1 6\nb 2 7\na 2 -\nb 3 -\n",
        "s.k s.e",
        [
            #....:....1....:....2....:....3....:...
            "         1             5             5",
            "         1             6             6",
            "         2             -             6",
            "         2             7             7",
            "         3             -             7",
        ],
    )
    # both go on from numbers of their own, and c is new; before that both send their last lines again, whose
    # -2 and -3 are no values of the day; then line 3 of b comes again, after line 3 of a
    sheeted(
        "sheet-two-senders-in-lent-state",
        ONE_REAL,
        "by n s.x\na 1 c000000000000002\nb 2 c008000000000003\nb 3 4000000000000004\na 2 3ff0000000000005\n"
        "b 3 4000000000000004\nc 1 -\n",
        "s.x",
        [
            #....:....1....:....2....
            "         3      40000000",
            "                00000004",
            "         2      3ff00000",
            "                00000005",
            "         1      3ff00000",
            "                00000005",
            "                3ff00000",
            "                00000005",
            "                40000000",
            "                00000004",
            "                3ff00000",
            "                00000005",
        ],
        before="by n s.x\nb 1 c010000000000001\na 1 c000000000000002\nb 2 c008000000000003\n",
    )
    # passed over: 43 and 24 before line 1 of a, 23 and 24 after s has left; line 1 of a is resent, and does not bring s back
    sheeted(
        "sheet-senders-refused-or-absent",
        FIRE,
        "by n s s.e\n1 1 - 4\na 2 - 4\na 1 - 5\nb 1 false -\na 1 - 5\na 2 - 5\nb 3 - -\na 2 - -\nb 2 true 6\n",
        "s.e s.k",
        [
            #....:....1....:....2....:....3....:...
            "         1             5             5",
            "         1             -             -",
            "         2             -             -",
            "         2             6             6",
        ],
    )
    # eight are known in the lent state, so 42 passes the ninth over
    sheeted(
        "sheet-ninth-sender",
        ONE_WHOLE,
        "by n s.e\ni 1 9\n",
        "s.e",
        [],
        before="by n s.e\na 1 1\nb 1 2\nc 1 3\nd 1 4\ne 1 5\nf 1 6\ng 1 7\nh 1 8\n",
    )


CHOICE = (
    "interface I { event pos : whole } interface J { event dir : whole } "
    "entity st : I { } entity sta : J { } rules end"
)


def make_refused_sheets():
    sheet_refused("sheet-readings-empty", 22, FIRE, "", "s.k", before="by n s.e\na 1 5\n")
    # an action is no column of readings
    sheet_refused("sheet-names-wrong", 22, FIRE, "by n s.k\na 1 5\n", "s.k s.e")
    for name, cells in (
        ("empty-text", ""),
        ("six", "st.pos sta.dir st.pos sta.dir st.pos sta.dir"),
        ("two-spaces", "st.pos  sta.dir"),
        ("leading-space", " st.pos"),
        ("trailing-space", "st.pos "),
        ("unknown-entity", "s.pos st.pos"),
        ("entity-alone", "st"),
        ("three-parts", "st.pos.pos"),
        ("empty-member", "st."),
    ):
        sheet_refused("sheet-cells-" + name, 41, CHOICE, "by n st.pos\na 1 5\n", cells)
    # the names are wrong as well: 41 is "before any line is read"
    sheet_refused("sheet-cells-unknown-member-before-22", 41, CHOICE, "by st.pos n\na 1 5\n", "st.pos sta.pos")


# --------------------------------------------------------------------------
# Rules at rest (document 02, order 7): the rules tried in each cycle
# --------------------------------------------------------------------------


def tried_rules(name, bench, names, table):
    """A bench with readings; `table` has the lines of values and beside each the numbers of the rules tried, None
    beside a line that makes no cycle."""
    assert name.startswith("tried-") and all(case["name"] != name for case in TRIED), name
    assert len(bench) <= 420 and len(table) <= 9, name
    readings = "".join(line + "\n" for line in [names] + [line for line, _ in table])
    text, lines = bench.encode("ascii"), readings.encode("ascii")
    assert check(text) == (0, 0), (name, check(text))
    assert all(row != b"refused 22" for row in run(text, lines).split(b"\n")), name
    found = tried(text, lines)
    assert found == [rules for _, rules in table if rules is not None], (name, found)
    printed = ["%s:%s" % (" ".join(line.split()[:2]), "".join(" %d" % rule for rule in rules))
               for line, rules in table if rules is not None]
    assert printed_tried(text, lines).decode("ascii").split("\n") == printed + [""], name
    TRIED.append({"name": name, "bench": bench, "readings": readings, "tried": found})


def rest_bench(members, entities, *conditions):
    """A bench with an interface I and rules of these conditions, which all press k on s; no condition reads k."""
    rules = ["when %s trigger action k ( 1 ) on s end " % condition for condition in conditions]
    return "interface I { %saction k ( whole ) } %srules %send" % (members, entities, "".join(rules))


E = "event e : whole "
EF = E + "event f : whole "
AE = "attribute a : whole " + E
S = "entity s : I { } "
S1 = "entity s : I { a = 1 } "
E_CHANGED = "event e from s value changed"


def make_tried_at_first():
    # a line makes a cycle, and there is nothing to try
    tried_rules("tried-no-rule", "rules end", "by n", [("a 1", []), ("a 2", [])])
    # before the first cycle a read unset as well, so it moves though no event is set; rule 1 reads e alone
    tried_rules(
        "tried-first-line-moves-attributes",
        rest_bench(AE, S1, "event e from s with a = 1 value changed", E_CHANGED, "event e from s value = s.a"),
        "by n s.e",
        [("a 1 -", [0, 2]), ("a 2 -", []), ("a 3 5", [0, 1, 2]), ("a 4 -", [])],
    )
    # s is away in the first cycle, so that a moves when it comes
    tried_rules(
        "tried-absent-in-the-first-line",
        rest_bench(AE, S1, "event e from s with a = 1 value changed"),
        "by n s",
        [("a 1 false", []), ("a 2 -", []), ("a 3 true", [0]), ("a 4 -", [])],
    )
    # the only event is an action that nobody presses, with no column of its own; e moves, and nobody reads it
    tried_rules(
        "tried-attributes-alone",
        "interface I { attribute a : whole event e : whole action k ( whole ) action j ( whole ) } entity s : I { a = 1 } "
        "rules when event j from s with a = s.a value = s.a + 1 trigger action k ( s.e ) on s end end",
        "by n s.e",
        [("a 1 1", [0]), ("a 2 2", []), ("a 3 ?", [])],
    )


def make_tried_by_events():
    tried_rules("tried-one-event", rest_bench(E, S, E_CHANGED), "by n s.e", [
        ("a 1 -", []),  # unset, and unset before
        ("a 2 5", [0]),
        ("a 3 5", []),  # the same value again
        ("a 4 -", []),
        ("a 5 6", [0]),
        ("a 6 ?", [0]),
        ("a 7 ?", []),
        ("a 8 -", []),
        ("a 9 6", [0]),
    ])
    # 0, -0, 0, unset, -0, the least real above 0, 0
    tried_rules("tried-two-zeros", rest_bench("event e : real ", S, E_CHANGED), "by n s.e", [
        ("a 1 0000000000000000", [0]),
        ("a 2 8000000000000000", []),
        ("a 3 0000000000000000", []),
        ("a 4 ?", [0]),
        ("a 5 8000000000000000", [0]),
        ("a 6 0000000000000001", [0]),
        ("a 7 0000000000000000", [0]),
    ])
    # no rule ever fires: a is 1, and e is not 9; rest goes by what is read
    tried_rules(
        "tried-though-nothing-holds",
        rest_bench(AE, S1, "event e from s with a = 2 value changed", "event e from s value = 9"),
        "by n s.e",
        [("a 1 1", [0, 1]), ("a 2 2", [0, 1]), ("a 3 2", []), ("a 4 ?", [0, 1])],
    )
    # one read is enough, under `or`, inside parentheses, under `and`
    tried_rules(
        "tried-or-and",
        rest_bench(
            EF + "event g : bool ",
            S,
            E_CHANGED + " or event f from s value changed",
            "( " + E_CHANGED + " or event f from s value = 1 ) and event g from s value = true",
        ),
        "by n s.e s.f s.g",
        [("a 1 1 - -", [0, 1]), ("a 2 - 1 -", [0, 1]), ("a 3 - - true", [1]), ("a 4 - - -", [])],
    )
    # the write of rule 1 stands where both fire; the numbers go by the file
    tried_rules(
        "tried-ranks",
        rest_bench(EF, S, "rank 2 " + E_CHANGED, "rank 9 event f from s value changed"),
        "by n s.e s.f",
        [("a 1 1 1", [0, 1]), ("a 2 2 -", [0]), ("a 3 - 2", [1]), ("a 4 - -", [])],
    )


def make_tried_by_sums():
    # e is unset throughout; in line 1 a moves
    tried_rules(
        "tried-sum-of-a-filter",
        rest_bench("attribute a : whole " + EF, S1, "event e from s with a = s.f value changed", "event e from s with a = 1 value changed"),
        "by n s.f",
        [("a 1 -", [0, 1]), ("a 2 1", [0]), ("a 3 1", []), ("a 4 ?", [0])],
    )
    tried_rules(
        "tried-sum-of-a-test",
        rest_bench(EF, S, "event e from s value = s.f", E_CHANGED),
        "by n s.f",
        [("a 1 -", []), ("a 2 1", [0]), ("a 3 1", []), ("a 4 2", [0]), ("a 5 ?", [0])],
    )
    # under `real`, `-`, parentheses and to the right of every operator
    tried_rules(
        "tried-deep-in-a-sum",
        rest_bench("event r : real " + EF + "event g : whole ", S, "event r from s value = 1r - real ( s.f * - ( 2 + s.g ) )"),
        "by n s.e s.f s.g",
        [("a 1 1 - -", []), ("a 2 - 1 -", [0]), ("a 3 - - 1", [0]), ("a 4 2 - 1", [])],
    )
    # the sums are 0 and unset, whatever f is; f is read by the text
    tried_rules(
        "tried-sum-that-stays",
        rest_bench(EF, S, "event e from s value = 0 * s.f", "event e from s value = s.f / 0"),
        "by n s.e s.f",
        [("a 1 0 1", [0, 1]), ("a 2 0 2", [0, 1]), ("a 3 0 2", [])],
    )
    # t.e is read, u.e and t.f are not; t leaves with it
    tried_rules(
        "tried-member-of-another-entity",
        rest_bench(EF, S + "entity t : I { } entity u : I { } ", "event e from s value = t.e"),
        "by n t t.e t.f u.e",
        [
            ("a 1 - 1 1 1", [0]),
            ("a 2 - - - 2", []),
            ("a 3 - - 2 -", []),
            ("a 4 - 2 - -", [0]),
            ("a 5 false - - -", [0]),
            ("a 6 true - - -", []),
        ],
    )


def make_tried_by_variables():
    # x is of I in rule 0 and of J in rule 1; s and u are of I, t is of J
    tried_rules(
        "tried-variable",
        "interface J { event e : whole } "
        + rest_bench(E, S + "entity t : J { } entity u : I { } ", "event e from x : I value changed", "event e from x : J value changed"),
        "by n s.e t.e u.e",
        [
            ("a 1 - - -", []),
            ("a 2 1 - -", [0]),
            ("a 3 - 1 -", [1]),
            ("a 4 - - 1", [0]),
            ("a 5 - 2 2", [0, 1]),
            ("a 6 - - -", []),
        ],
    )
    # rule 0 has its clause at a variable of the call, rule 1 has one in its test's sum, rule 2 reads none
    tried_rules(
        "tried-variable-of-a-call",
        "interface I { event e : whole action k ( whole ) } interface J { event f : whole } "
        "entity s : I { } entity t : I { } entity u : J { } "
        "rules when event e from x value changed trigger action k ( 1 ) on x : I end "
        "when event f from u value = x.e trigger action k ( 1 ) on x : I end "
        "when event f from u value changed trigger action k ( 1 ) on x : I end end",
        "by n s.e t.e u.f",
        [("a 1 - - 9", [1, 2]), ("a 2 1 - -", [0, 1]), ("a 3 - 1 -", [0, 1]), ("a 4 - - -", [])],
    )
    # b of t is read in rule 0's filter; rule 1 has t in its call alone, so it rests as t leaves and comes
    tried_rules(
        "tried-attribute-of-a-variable",
        "interface I { attribute a : whole event e : whole } interface J { attribute b : whole action k ( whole ) } "
        "entity s : I { a = 1 } entity t : J { b = 1 } "
        "rules when event e from s with a = y.b value changed trigger action k ( 1 ) on y : J end "
        "when event e from s value changed trigger action k ( 1 ) on y : J end end",
        "by n t",
        [("a 1 -", [0]), ("a 2 false", [0]), ("a 3 -", []), ("a 4 true", [0]), ("a 5 -", [])],
    )
    # nothing is of J: rule 0 reads nothing; rule 1 reads e, and is tried without a choice
    tried_rules(
        "tried-interface-without-entities",
        "interface J { event f : whole } "
        + rest_bench(E, S, "event f from x : J value changed", "event f from x : J value = 1 or " + E_CHANGED),
        "by n s.e",
        [("a 1 -", []), ("a 2 1", [1]), ("a 3 2", [1]), ("a 4 -", [])],
    )
    # an entity named as an event, a variable named as an interface
    tried_rules(
        "tried-names-of-several-sorts",
        rest_bench(E, S + "entity e : I { } ", "event e from I : I value changed", "event e from e value changed"),
        "by n s.e e.e",
        [("a 1 1 -", [0]), ("a 2 - 1", [0, 1]), ("a 3 - -", [])],
    )


def make_tried_without_calls():
    # f and a are read by the call alone
    tried_rules(
        "tried-reads-of-a-call",
        "interface I { attribute a : whole event e : whole event f : whole action k ( whole ) } entity s : I { a = 1 } "
        "rules when event e from s value changed trigger action k ( s.f ) on s with a = s.f end end",
        "by n s.e s.f",
        [("a 1 - 1", []), ("a 2 - 2", []), ("a 3 1 -", [0]), ("a 4 1 3", [])],
    )
    # t leaves and comes: the calls could be other ones, the condition reads the same
    tried_rules(
        "tried-target-of-a-call-leaves",
        "interface I { event e : whole } interface J { attribute a : whole action k ( whole ) } "
        "entity s : I { } entity t : J { a = 1 } "
        "rules when event e from s value changed trigger action k ( t.a ) on t end "
        "when event e from s value changed trigger action k ( y.a ) on y : J end end",
        "by n s.e t",
        [("a 1 5 -", [0, 1]), ("a 2 - false", []), ("a 3 - true", []), ("a 4 6 false", [0, 1])],
    )


# rule 0 presses k, which rule 1 reads; rule 1 presses j, which nobody reads
PRESS = (
    "interface I { event e : whole action k ( whole ) action j ( whole ) } entity s : I { } "
    "rules when event e from s value changed trigger action k ( %s ) on s end "
    "when event k from s value changed trigger action j ( 1 ) on s end end"
)


def make_tried_by_actions():
    # the rules see k in the line after it is fired; 1, 1 and 2 are fired in lines 1, 2 and 3
    tried_rules("tried-action", PRESS % "s.e / 2", "by n s.e", [
        ("a 1 2", [0]),
        ("a 2 3", [0, 1]),  # unset before, 1 now
        ("a 3 4", [0]),  # 1 before, 1 now
        ("a 4 -", [1]),  # 1 before, 2 now
        ("a 5 -", [1]),  # 2 before, unset now
        ("a 6 -", []),
    ])
    # and so while the same is fired: line 4 sees what line 3 fired
    tried_rules("tried-action-of-one-value", PRESS % "7", "by n s.e", [
        ("a 1 1", [0]),
        ("a 2 2", [0, 1]),
        ("a 3 3", [0]),
        ("a 4 -", []),
        ("a 5 -", [1]),
    ])
    # 0 * 1 is 0, 0 * -1 is -0
    tried_rules(
        "tried-action-of-two-zeros",
        PRESS.replace("e : whole action k ( whole )", "e : real action k ( real )") % "0r * s.e",
        "by n s.e",
        [
            ("a 1 3ff0000000000000", [0]),
            ("a 2 bff0000000000000", [0, 1]),  # unset before, 0 now
            ("a 3 -", []),  # 0 before, -0 now
            ("a 4 -", [1]),  # -0 before, unset now
        ],
    )
    tried_rules("tried-action-of-an-entity-that-leaves", PRESS % "7", "by n s s.e", [
        ("a 1 - 1", [0]),
        # e becomes unset; so does k, which line 1 fired, before any rule has seen it
        ("a 2 false -", [0]),
        ("a 3 true 1", [0]),
        ("a 4 - 2", [0, 1]),
        # k was seen in line 4
        ("a 5 false -", [0, 1]),
        ("a 6 true -", []),
    ])
    # f stays unset; k is read in the sum
    tried_rules(
        "tried-action-in-a-sum",
        "interface I { event e : bool event f : whole action k ( whole ) action j ( whole ) } entity s : I { } "
        "rules when event e from s value = true trigger action k ( 7 ) on s end "
        "when event f from s value = s.k trigger action j ( 1 ) on s end end",
        "by n s.e",
        [("a 1 true", [0]), ("a 2 -", [1]), ("a 3 -", [1]), ("a 4 -", [])],
    )
    # rule 1 fires k for each move of k: 1 in line 2 by 1 after unset, nothing in line 3 by 1 after 1, 1 in line 4 by
    # unset after 1
    tried_rules(
        "tried-action-of-its-own-rule",
        "interface I { event e : whole action k ( whole ) } entity s : I { } "
        "rules when event e from s value = 1 trigger action k ( 1 ) on s end "
        "when event k from s value changed trigger action k ( 1 ) on s end end",
        "by n s.e",
        [("a 1 1", [0]), ("a 2 -", [1]), ("a 3 -", []), ("a 4 -", [1]), ("a 5 -", [1]), ("a 6 -", [])],
    )


def make_tried_by_presence():
    # a is set while s is present; rule 1 reads e alone, which is unset throughout
    tried_rules(
        "tried-attribute-leaves-and-returns",
        rest_bench(AE, S1, "event e from s with a = 1 value changed", E_CHANGED),
        "by n s",
        [
            ("a 1 -", [0]),
            ("a 2 false", [0]),
            ("a 3 -", []),
            ("a 4 true", [0]),
            ("a 5 true", []),
            ("a 6 false", [0]),
            ("a 7 false", []),
        ],
    )
    # t comes and goes with all that it has unset
    tried_rules(
        "tried-unset-entity-leaves",
        rest_bench(E, S + "entity t : I { } ", "event e from x : I value changed"),
        "by n t s.e",
        [("a 1 - -", []), ("a 2 false -", []), ("a 3 true -", []), ("a 4 false 5", [0]), ("a 5 true -", [])],
    )
    # t leaves with e set, and e is unset from then on
    tried_rules(
        "tried-set-event-leaves",
        rest_bench(E, S + "entity t : I { } ", "event e from x : I value changed", "event e from t value changed", E_CHANGED),
        "by n t t.e",
        [
            ("a 1 - 5", [0, 1]),
            ("a 2 false -", [0, 1]),
            ("a 3 - -", []),
            ("a 4 true -", []),
            ("a 5 - 5", [0, 1]),
            ("a 6 false -", [0, 1]),
            ("a 7 true 5", [0, 1]),
        ],
    )


def make_tried_of_lines():
    # a line that makes no cycle is no cycle before: k is compared with what line 1, then line 2, saw
    tried_rules("tried-resent-and-refused", PRESS % "7", "by n s.e", [
        ("a 1 1", [0]),
        ("a 1 1", None),  # resent
        ("a 3 2", None),  # 24
        ("a 2 -", [1]),
        ("a 2 2", None),  # 25
        ("a 2 -", None),  # resent
        ("a 3 true", None),  # 23
        ("a 3 1", [1]),
        ("a 4 1", []),
    ])
    # the cells do not ask who has sent a line
    tried_rules("tried-two-senders", rest_bench(E, S, E_CHANGED), "by n s.e", [
        ("a 1 5", [0]),
        ("b 1 5", []),
        ("b 2 6", [0]),
        ("a 2 5", [0]),  # as a's last line, but after b's
        ("b 2 6", None),  # resent
        ("b 3 5", []),
        ("a 3 6", [0]),
    ])


# --------------------------------------------------------------------------
# Facts of the documents checked without a stored case
# --------------------------------------------------------------------------


def one_action(parameter, kind="whole"):
    """What the parameter writes, as printed."""
    return run(sums(kind, [parameter]).encode(), b"by n c.t\na 1 true\n").split()[-1]


def check_trials():
    """Every trial case of document 01, P or not, as document 02 amends them, except the one that it drops.

    Document 02, order 5: "the cases of document 01 gain a sender `a` throughout".
    """
    table = [
        ("by n p.down s.pos", "by n k.keep"),
        ("a 1 false 100", "a 1 -"),
        ("a 2 true 140", "a 2 140"),
        ("a 2 true 140", "a 2 140"),
        ("a 3 - 150", "a 3 -"),
        ("a 4 false 150", "a 4 -"),
        ("a 5 true 190", "a 5 190"),
        ("a 4 - -", "refused 24"),
    ]
    ran("run-pedal-table", PEDAL, table)
    assert check(b"rules end") == (0, 0)
    assert check(b"") == (13, 0)
    assert one_action("2147483647 + 1") == b"-"
    # document 02, order 2: "-7 / 2 is -4, 7 / -2 is -4, -7 / -2 is 3 [...] The -7 / 2 case is amended"
    assert one_action("-7 / 2") == b"-4"
    assert one_action("7 / -2") == b"-4"
    assert one_action("-7 / -2") == b"3"
    # document 02, order 2: "A zero divisor and -2147483648 / -1 still give unset"
    assert one_action("7 / 0") == b"-"
    assert one_action("(-2147483647 - 1) / -1") == b"-"
    assert one_action("1r / 3r", "real") == b"3fd5555555555555"
    keep = PEDAL.replace("action keep ( s.pos ) on k", "action keep ( 1 ) on k , action keep ( 2 ) on k")
    # document 02, order 6: "The case keep(1), keep(2) now leaves 1"
    assert run(keep.encode(), b"by n p.down\na 1 true\n") == b"by n k.keep\na 1 1\n"
    # document 02, order 1: "The case [...] that any such test is false in cycle 1 is dropped"; its bench fires there
    for clause, row_of_two in (("value changed", b"a 1 2\n"), ("value = 1", b"a 1 -\n")):
        text = PLAIN.replace("from s value changed", "from s with a = 1 " + clause)
        assert check(text.encode()) == (0, 0)
        assert run(text.encode(), b"by n s.e\na 1 1\n") == b"by n s.k\na 1 1\n"
        assert run(text.encode(), b"by n s.e\na 1 2\na 2 1\n") == b"by n s.k\n" + row_of_two + b"a 2 1\n"
    bench = Bench(b"rules end")
    fresh = bench.fresh()
    code, row, following = bench.line(fresh, b"by n", b"a 1")
    assert (code, row, following.senders[b"a"].number) == (0, b"a 1", 1)
    assert bench.line(fresh, b"by n", b"a 0") == (24, None, fresh)
    assert bench.line(fresh, b"by n", b"a 01") == (21, None, fresh)
    assert check((interfaces(LETTERS[:16]) + "rules end").encode()) == (0, 0)
    seventeen = interfaces(LETTERS[:17]) + "rules end"
    assert check(seventeen.encode()) == (14, seventeen.rindex("interface"))
    assert check(b"interface " + b"a" * 24 + b" { } rules end") == (0, 0)
    assert check(b"interface " + b"a" * 25 + b" { } rules end") == (12, 10)


def rounds_down(quotient, left, right):
    """Whether this is left / right rounded toward minus infinity, said without a division.

    quotient <= left / right < quotient + 1, all three times the divisor; a negative divisor
    turns the comparisons round.  right is not 0.
    """
    if right > 0:
        return quotient * right <= left < quotient * right + right
    return quotient * right >= left > quotient * right + right


def check_quotients():
    """Whole `/` over all small operands and over those at the ends of 32 bits, each pair in a fresh state."""
    small = range(-20, 21)
    ends = [-2147483648, -2147483647, -2147483646, -3, -2, -1, 0, 1, 2, 3, 2147483646, 2147483647]
    bench = Bench(QUOTIENT.encode())
    for left, right in [*product(small, small), *product(ends, ends)]:
        code, row, _ = bench.line(bench.fresh(), b"by n s.x s.y", b"a 1 %d %d" % (left, right))
        assert code == 0, (left, right, code)
        written = row.split()[2]
        if right == 0 or (left, right) == (-2147483648, -1):
            assert written == b"-", (left, right, written)
        else:
            assert written != b"-" and rounds_down(int(written), left, right), (left, right, written)
    # what rounds_down says has one answer
    for left, right in product(small, small):
        assert right == 0 or sum(rounds_down(quotient, left, right) for quotient in range(-21, 22)) == 1, (left, right)


# the bytes of classes 0 to 6 by document 01; class 6 is what the others leave of 33 to 126
CLASS_BYTES = [LETTERS, "0123456789", "_", "{}():=,.+-*/", " \t\n", "#", "!\"$%&';<>?@[\\]^`|~"]

# two alphabets of 26, ten digits, `_`, twelve marks, three blanks, `#`; of the 94 bytes 33 to 126 the other
# 94 - 52 - 10 - 1 - 12 - 1; not allowed are 256 less those 94 and three blanks
CLASS_COUNTS = [52, 10, 1, 12, 3, 1, 18, 159]


def check_classes():
    """The table of byte classes, against the numbers and the bytes that are written down above."""
    classes = [byte_class(byte) for byte in range(256)]
    assert sum(CLASS_COUNTS) == 256
    assert [classes.count(number) for number in range(8)] == CLASS_COUNTS, classes
    for number, text in enumerate(CLASS_BYTES):
        assert len(text) == CLASS_COUNTS[number], number
        assert all(classes[ord(byte)] == number for byte in text), number
    lines = printed_classes().split(b"\n")
    assert lines == [b"%d %d" % pair for pair in enumerate(classes)] + [b""]


def check_places_of_bytes():
    """Every byte right behind the beginning of a text, a name, ten digits and `#`: the answer for each class."""
    for before, answers in (
        # 13 at a word that begins no file, or at the length behind a blank or comment
        (b"", [(13, 0), (13, 0), (12, 0), (13, 0), (13, 1), (13, 1), (12, 0), (12, 0)]),
        # 13 at 6 for a longer word than `end`, at 9 for a word behind it
        (b"rules end", [(13, 6), (13, 6), (13, 6), (13, 9), (0, 0), (0, 0), (12, 9), (12, 9)]),
        # 12 at 0 for eleven digits
        (b"1234567890", [(13, 0), (12, 0), (12, 10), (13, 0), (13, 0), (13, 0), (12, 10), (12, 10)]),
        # only what is not allowed anywhere is not allowed in a comment; the line feed closes it
        (b"rules end#", [(0, 0)] * 7 + [(12, 10)]),
    ):
        for byte in range(256):
            assert check(before + bytes([byte])) == answers[byte_class(byte)], (before, byte)
    # a comment goes on behind every allowed byte but the line feed
    for byte in range(256):
        answer = (12, 6) if byte_class(byte) == 7 else (0, 0) if byte == 10 else (13, 10)
        assert check(b"rules#" + bytes([byte]) + b"end") == answer, byte


def check_entity_parts():
    """Entities' names by number: in every stored text those behind its words `entity`, of a refused one none."""
    text = b"interface I{}entity ab:I{}entity#entity x\nc:I{}rules end"
    assert [entity_part(text, number) for number in (0, 1, 2, 2**64 - 1)] == [(20, 2), (42, 1), (0, 0), (0, 0)]
    assert entity_part(text.ljust(32768), 1) == (42, 1)
    assert entity_part(text.ljust(32769), 1) == (0, 0)
    for case in CASES:
        text = case["bench"].encode("ascii")
        words = words_of(text) if case["check"] == [0, 0] else []
        names = [name for word, name in zip(words, words[1:]) if word.text == b"entity"]
        parts = [(name.place, len(name.text)) for name in names] + [(0, 0)]
        assert [entity_part(text, number) for number in range(len(parts))] == parts, case["name"]


def check_sizes():
    """Limits of length and number."""
    assert check(b"rules end".ljust(32768)) == (0, 0)
    assert check(b"rules end".ljust(32769)) == (11, 32768)
    assert check(b"\xff" * 40000) == (11, 32768)
    assert check(b"rules \xc8 end") == (12, 6)
    bench = Bench(PLAIN.encode())
    fresh = bench.fresh()
    # "at most 8,192 bytes", sender and number included
    assert bench.line(fresh, b"by n s.e", b"a 1 " + b"9" * 8188) == (23, None, fresh)
    assert bench.line(fresh, b"by n s.e", b"a 1 " + b"9" * 8189) == (21, None, fresh)
    assert bench.line(fresh, b"by n s.e", b"a" * 8188 + b" 1 5") == (43, None, fresh)
    assert bench.line(fresh, b"by n s.e", b"a" * 8189 + b" 1 5") == (21, None, fresh)
    assert bench.line(fresh, b"by n s.e ", b"") == (22, None, fresh)
    assert bench.line(fresh, b"by n s.e\n", b"a 1 5") == (22, None, fresh)
    assert bench.line(fresh, b"by n s.e", b"a 1 5\n") == (21, None, fresh)
    assert bench.line(fresh, b"by n s.e", b"a\n 1 5") == (21, None, fresh)
    state = bench.line(fresh, b"by n s.e", b"b 1 4")[2]
    late = with_last_number(bench.line(state, b"by n s.e", b"a 1 5")[2], b"a", 4294967294)
    code, row, last = bench.line(late, b"by n s.e", b"a 4294967295 6")
    assert (code, row) == (0, b"a 4294967295 6")
    assert bench.line(last, b"by n s.e", b"a 4294967295 6") == (0, row, last)
    assert bench.line(last, b"by n s.e", b"a 4294967296 6") == (24, None, last)
    assert bench.line(last, b"by n s.e", b"b 4294967295 6") == (24, None, last)
    assert bench.line(last, b"by n s.e", b"b 2 7")[:2] == (0, b"b 2 7")


def with_last_number(state, sender, number):
    """The state in which this known sender has come to this number."""
    kept = dataclasses.replace(state.senders[sender], number=number)
    return dataclasses.replace(state, senders={**state.senders, sender: kept})


def check_missing_columns():
    """A missing column is `-`, and the order of columns is no matter."""
    bench = Bench(PEDAL.encode())
    _, row, state = bench.line(bench.fresh(), b"by n p.down s.pos", b"a 1 true 4")
    assert row == b"a 1 4"
    assert bench.line(state, b"by n s.pos p p.down", b"a 1 4 - true") == (0, row, state)
    assert bench.line(state, b"by n p.down", b"a 1 true") == (25, None, state)
    code, row, state = bench.line(state, b"by n s.pos p", b"a 2 5 -")
    assert (code, row) == (0, b"a 2 -")
    assert bench.line(state, b"by n s.pos", b"a 2 5") == (0, row, state)
    assert bench.line(state, b"by n s.pos p", b"a 2 5 true") == (25, None, state)
    assert bench.line(state, b"by n k.keep", b"a 2 5") == (22, None, state)
    # the other sender's line comes with other columns, and so does the late resend
    code, other, state = bench.line(state, b"by n p", b"b 1 false")
    assert (code, other) == (0, b"b 1 -")
    assert bench.line(state, b"by n p s.pos", b"a 2 - 5") == (0, row, state)
    assert bench.line(state, b"by n s.pos p p.down s", b"b 1 - false - -") == (0, other, state)
    assert bench.line(state, b"by n", b"b 1") == (25, None, state)


def check_kept_rows():
    """The row that a state keeps for a sender: number 0 and nothing fired for one that is not known."""
    bench = Bench(FIRE.encode())
    lines = b"".join(b"%c 1 %d\n" % (sender, sender) for sender in b"abcdefgh")
    for state, row in (
        (bench.fresh(), b"b 0 -"),
        (state_after(FIRE.encode(), b"by n s.e\na 1 5\n"), b"b 0 -"),
        (state_after(FIRE.encode(), b"by n s.e\nb 1 5\na 1 5\nb 2 5\na 2 6\n"), b"b 2 -"),
        (state_after(FIRE.encode(), b"by n s.e\n" + lines), b"b 1 98"),
        (state_after(FIRE.encode(), b"by n s.e\n" + lines.replace(b"b", b"i")), b"b 0 -"),
    ):
        assert bench.row(state, b"b") == row, row
    assert list(state.senders) == [b"a", b"i", b"c", b"d", b"e", b"f", b"g", b"h"]


def check_forms_of_senders():
    """Every byte alone, first, inside and last in a sender: 43, 21 where it parts fields, or a sender."""
    bench = Bench(b"rules end")
    fresh = bench.fresh()
    for byte in range(256):
        one = bytes([byte])
        letter, goes_on = byte_class(byte) == 0, byte_class(byte) in (0, 1, 2)
        parts = 21 if one in b" \n" else 43
        for before, behind in product((b"", b"a"), (b"", b"b")):
            line = before + one + behind + b" 1"
            code, row, _ = bench.line(fresh, b"by n", line)
            assert (code, row) == ((0, line) if letter or before and goes_on else (parts, None)), line


def check_ranks():
    """Numbers of ranks, what is none, and 44 before 14 where there are 65 rules."""
    for number in [*range(30), 99, 100, 2147483647]:
        for digits in ("%d", "%02d", "%010d"):
            text = RANKED % ("rank %s " % (digits % number))
            place = len(EK + "rules when rank ")
            assert check(text.encode()) == ((0, 0) if number <= 9 else (44, place)), text
    for marked in ("rank @true ", "rank @( 1 ) ", "rank @s.e ", "rank @+1 ", "rank @: 1 ", "rank 1 @2 ", "rank 1 @, ", "@1 ", "( @rank 1 "):
        assert check((RANKED % marked.replace("@", "")).encode()) == (13, (RANKED % marked).index("@")), marked
    for places in ([64], [0], [63], [2, 64], [64, 40, 13]):
        rules = [RULE % "rank 9 "] * 65
        for number, place in enumerate(places, 10):
            rules[place] = RULE % ("rank %d " % number)
        text = EK + "rules " + "".join(rules) + "end"
        assert check(text.encode()) == (44, len(EK + "rules " + "".join(rules[: min(places)]) + "when rank ")), places
    text = EK + "rules " + RULE % "rank 9 " * 64
    assert check((text + "end").encode()) == (0, 0)
    assert check((text + RULE % "" + "end").encode()) == (14, len(text))
    assert check((text + RULE % "rank 10r " + "end").encode()) == (13, len(text + "when rank "))


def check_lists_of_rules():
    """Rules of ranks drawn at random, of which each has an event of its own: of those that fire, one stands.

    It is found by sorting: from the highest rank down, and among equal ranks in the order of the file.
    """
    draw = random.Random(SEED)
    events = ["e%d" % number for number in range(11)]
    interface = "interface S { %s action k ( whole ) } entity s : S { } " % " ".join("event %s : whole" % event for event in events)
    names = "by n " + " ".join("s." + event for event in events)
    for _ in range(100):
        ranks = [draw.randrange(draw.choice([1, 3, 10])) for _ in events]
        rules = ["when %sevent %s from s value changed trigger action k ( %d ) on s end " % (
            "rank %d " % rank if rank or draw.random() < 0.5 else "", event, number
        ) for number, (event, rank) in enumerate(zip(events, ranks))]
        lines, rows = [names], ["by n s.k"]
        for line in range(1, 20):
            fired = [number for number in range(len(events)) if draw.random() < draw.choice([0.1, 0.5])]
            lines.append("a %d " % line + " ".join(str(line) if number in fired else "-" for number in range(len(events))))
            by_rank = sorted(fired, key=lambda number: (-ranks[number], number))
            rows.append("a %d %s" % (line, by_rank[0] if by_rank else "-"))
        printed = run((interface + "rules " + "".join(rules) + "end").encode(), "\n".join(lines).encode())
        assert printed.decode().split("\n") == rows + [""], (ranks, lines)


NO_LINE = (0, "- -", b"")  # number, fields and row of a sender that is not known


def drawn_line(draw, last):
    """A line of one of ten senders, near its last number; half of the time with the fields of somebody's last line."""
    sender = draw.choice("abcdefghij")
    number = last.get(sender, NO_LINE)[0] + draw.choice([-1, 0, 0, 0, 1, 1, 1, 1, 1, 2])
    if last and draw.random() < 0.5:
        fields = draw.choice([*last.values(), last.get(sender, NO_LINE)])[1]
    else:
        fields = draw.choice(["-", "-", "-", "true", "false"]) + " " + draw.choice(["-", "?", "5", "6", "7"])
    return sender, max(number, 0), fields


def answer(last, away, sender, number, fields):
    """What a line of a known or new sender is answered, by the last lines of all; away if s is absent after it."""
    latest = last.get(sender, NO_LINE)
    if sender not in last and len(last) == 8:
        return 42
    if sender in last and latest[:2] == (number, fields):
        return "resent"
    if away and not fields.endswith(" -"):
        return 23
    if number == 0 or number not in (latest[0], latest[0] + 1):
        return 24
    return 25 if number == latest[0] else 0


def check_lists_of_lines():
    """Lists of lines drawn at random, held to what document 02, order 5 says, here told by lines and rows alone.

    All lines of a list have one line of names and every value one form, so the same readings are the same fields.
    """
    draw = random.Random(SEED)
    bench = Bench(FIRE.encode())
    found = set()
    for _ in range(200):
        state, last, absent, gone_on = bench.fresh(), {}, False, []
        for _ in range(60):
            sender, number, fields = drawn_line(draw, last)
            away = fields.startswith("false") or absent and fields.startswith("-")
            wanted = answer(last, away, sender, number, fields)
            line = "%s %d %s" % (sender, number, fields)
            code, row, following = bench.line(state, b"by n s s.e", line.encode())
            if wanted == "resent":
                assert (code, row, following) == (0, last[sender][2], state), line
            elif wanted != 0:
                assert (code, row, following) == (wanted, None, state), line
            else:
                assert code == 0 and row.decode().startswith("%s %d " % (sender, number)), line
                last[sender], absent = (number, fields, row), away
                gone_on.append((fields, row.split(b" ")[2:]))
            found.add(wanted)
            state = following
        # the lines that are neither refused nor resent, all from one sender, fire the same
        lines = ["by n s s.e"] + ["z %d %s" % (place, fields) for place, (fields, _) in enumerate(gone_on, 1)]
        printed = run(FIRE.encode(), "\n".join(lines).encode()).split(b"\n")[1:-1]
        assert [row.split(b" ")[2:] for row in printed] == [fired for _, fired in gone_on], lines
    assert found == {0, 23, 24, 25, 42, "resent"}, found


def check_sheet_cells():
    """Texts of cells: what is known, and what 41 refuses, without and with names that 22 would refuse."""
    bench = CHOICE.encode()
    for cells in (b"st.pos", b"sta.dir", b"st.pos sta.dir st.pos sta.dir st.pos"):
        assert sheet(bench, None, b"by n", cells) == (0, b""), cells
        assert sheet(bench, None, b"", cells) == (22, b""), cells
    for cells in (
        b" ", b".", b"n", b"by n", b"-", b".pos", b"st.po", b"st.post", b"St.pos", b"st.Pos", b"sta.pos", b"st..pos",
        b"st.pos.",
        b"I.pos", b"st:pos", b"st.pos\n", b"st.pos\tsta.dir", b"st.pos\nsta.dir", b"st.pos,sta.dir", b"st.pos\0",
        b"\xff", b"st.pos st.pos st.pos st.pos st.pos st.pos st.pos", b"st.pos sta.dir st.pos sta.dir st.po",
    ):
        for readings in (b"by n st.pos\na 1 5\n", b"", b"\n", b"by n\xff"):
            assert sheet(bench, None, readings, cells) == (41, b""), (cells, readings)
    assert sheet(b"rules end", None, b"by n", b"") == (41, b"")


def check_sheet_readings():
    """The text of a day: its line of names, its last line feed, its lengths."""
    bench = ONE_WHOLE.encode()
    row = text_of_rows(["         1             5"]).encode()
    assert sheet(bench, None, b"by n s.e\na 1 5", b"s.e") == (0, row)
    assert sheet(bench, None, b"by n s.e\na 1 5\n", b"s.e") == (0, row)
    assert sheet(bench, None, b"by n s.e\n\n\na 1 5\n\n\n", b"s.e") == (0, row)
    for names in (
        b"", b"\n", b"\nby n s.e", b"by n s.e ", b"by n  s.e", b"by  n s.e", b" by n s.e", b"by n s.e s.e", b"s.e",
        b"by n s.e\r", b"by n s.f", b"n s.e", b"by s.e", b"by", b"n", b"n by s.e", b"By n s.e", b"by\tn s.e", b"byn s.e",
        b"by by n s.e",
    ):
        assert sheet(bench, None, names + b"\na 1 5\n", b"s.e") == (22, b""), names
    # 8,192 bytes are no reason for 21, but 23 passes the line over as well; too long a line of names is 22
    for length in (8188, 8189):
        assert sheet(bench, None, b"by n s.e\na 1 " + b"9" * length + b"\na 1 5\n", b"s.e") == (0, row)
    assert sheet(bench, None, b"by n s.e".ljust(32769, b"e") + b"\na 1 5\n", b"s.e") == (22, b"")
    assert state_after(bench, b"") == Bench(bench).fresh()
    assert state_after(bench, b"by s.e n\na 1 5\n") == Bench(bench).fresh()


def check_sheet_numbers():
    """A number of ten digits fills columns 1 to 10; no text of readings comes so far from the fresh state."""
    bench = ONE_WHOLE.encode()
    late = with_last_number(state_after(bench, b"by n s.e\na 1 5\n"), b"a", 4294967293)
    day = b"by n s.e\na 4294967294 -2147483648\nb 1 -\na 4294967295 -\na 4294967296 6\n"
    rows = ["4294967294   -2147483648", "         1   -2147483648", "4294967295   -2147483648"]
    assert sheet(bench, late, day, b"s.e") == (0, text_of_rows(rows).encode())


def check_sheet_zeros():
    """A zero that comes after other values, before the other zero: the earlier one is shown."""
    zero, minus_zero, one, minus_one = "0000000000000000", "8000000000000000", "3ff0000000000000", "bff0000000000000"
    for values, closing in (
        ((one, zero, minus_zero), (zero, one, minus_zero)),
        ((one, minus_zero, zero), (minus_zero, one, zero)),
        ((minus_one, zero, minus_zero), (minus_one, zero, minus_zero)),
        ((minus_one, minus_zero, zero), (minus_one, minus_zero, zero)),
        ((zero, one, minus_zero, minus_one), (minus_one, one, minus_one)),
        ((minus_zero, zero, minus_zero), (minus_zero, minus_zero, minus_zero)),
    ):
        lines = "".join("a %d %s\n" % (number, value) for number, value in enumerate(values, 1))
        number, printed = sheet(ONE_REAL.encode(), None, ("by n s.x\n" + lines).encode(), b"s.x")
        words = printed.decode().split()[3 * len(values) :]
        assert (number, words) == (0, [half for value in closing for half in (value[:8], value[8:])]), values


def check_stated_size():
    """The stated size, and a sheet that needs all of it."""
    texts = (b"", b"by n", b"by n\n", b"\n\n", b"by n\na 1\na 2")
    assert [stated_size(readings) for readings in texts] == [2430, 2430, 2592, 2754, 2754]
    longest = [case["name"] for case in SHEETS if len(case["sheet"]) == stated_size(case["readings"].encode())]
    assert longest == ["sheet-five-reals-of-two-cells"], longest


def check_folder_of_sheets():
    """What the list of sheets must hold."""
    assert 20 <= len(SHEETS) <= 35, len(SHEETS)
    assert {case["number"] for case in SHEETS} == {0, 22, 41}
    assert any(case["readings"].endswith("\n") for case in SHEETS) and not all(case["readings"].endswith("\n") for case in SHEETS)
    for case in SHEETS:
        rows = case["sheet"].split("\n")
        assert rows.pop() == "" and all(len(row) == 80 for row in rows), case["name"]


def check_reads_of(bench, lists):
    """The cells that the rules of a grammatical bench read, written `entity.member`, rule by rule."""
    text = bench.encode("ascii")
    file = Reader(words_of(text), len(text)).file()
    names = [entity.name.text.decode("ascii") for entity in file.entities]
    for rule, wanted in zip_longest(file.rules, lists):
        read = sorted("%s.%s" % (names[number], member.decode("ascii")) for number, member in cells_read(file, rule))
        assert read == sorted(wanted.split()), (read, wanted)


# by hand from the text of MAZE: y's id and x's id are read in rule 0's filter; rule 1 has z in its call alone
MAZE_READS = ["a.v b.v a.on_ b.on_ a.id b.id h.w", "h.sum", "a.set b.set a.v b.v a.flag"]


def check_reads():
    """Lists of cells that rules read."""
    check_reads_of(MAZE, MAZE_READS)
    # tick from clock; level, and room of the filter, from x; tick in the filter's sum; dim of y in the test's;
    # set, and spare of the filter, from y.  What the calls read, beep among it, is no part
    lamps = "level room dim set spare".split()
    of_lamps = " ".join("%s.%s" % pair for pair in product(["hall", "attic"], lamps))
    check_reads_of(FULL, ["clock.tick " + of_lamps, "hall.mark attic.mark hall.seen attic.seen"])
    # "a name means its first declaration", the entity's before the variable's; no such bench is accepted, and so none
    # has lines.  x is the entity x, of J; then x is the variable of I, which s and t are of
    two = "interface I { event e : whole action k ( whole ) } interface J { event e : whole } "
    call = " trigger action k ( 1 ) on s end "
    shared = two + "entity s : I { } entity x : J { } entity t : I { } rules when event e from x : I value = x.e" + call + "end"
    assert check(shared.encode()) == (15, shared.index("x : I"))
    check_reads_of(shared, ["x.e"])
    twice = "event e from x : I value changed or event e from x : J value changed"
    shared = two + "entity s : I { } entity u : J { } entity t : I { } rules when " + twice + call + "end"
    assert check(shared.encode()) == (15, shared.index("x : J"))
    check_reads_of(shared, ["s.e t.e"])
    # "A variable may be used anywhere in its rule": before its declaration as well
    early = shared.replace(twice, "event e from s value = x.e and event e from x : J value changed")
    assert check(early.encode()) == (0, 0)
    check_reads_of(early, ["s.e u.e"])


def check_printed_tried():
    """What `--tried` prints: a line for each cycle, nothing for other lines, the refusals of bench and names."""
    fire = FIRE.encode()
    lines = b"by n s.e\nwest 1 5\nwest 1 5\n\nx_1 1 5\nwest 3 5\nwest 2 ?"
    assert printed_tried(fire, lines) == b"west 1: 0\nx_1 1:\nwest 2: 0\n"
    assert printed_tried(fire, b"by n s.e\n") == b""
    for names in (b"", b"n s.e", b"by n s.k"):
        assert printed_tried(fire, names + b"\na 1 5\n") == b"refused 22\n", names
        assert tried(fire, names + b"\na 1 5\n") == [], names
    assert printed_tried(b"", lines) == b"refused 13 0\n"
    # all 64 rules, and then the one that reads the other event
    rules = RULE % "" * 63 + (RULE % "").replace("event e", "event f")
    text = EK.replace("action", "event f : whole action") + "rules " + rules + "end"
    every = " ".join(str(number) for number in range(64))
    assert printed_tried(text.encode(), b"by n s.e s.f\na 1 1 1\na 2 - 2\n").decode() == "a 1: %s\na 2: 63\n" % every


def check_rules_at_rest():
    """Lists of lines drawn at random: in each cycle the rules of which a read by MAZE_READS is unlike in the two stores
    are tried, the others are at rest, and no clause of those holds for any choice.

    "both unset counts as same, and so do the two zeros": there are no reals in MAZE, so what reads the same is equal here.
    """
    draw = random.Random(SEED)
    bench = Bench(MAZE.encode())
    machine = bench.machine
    columns = ["a", "a.on_", "a.v", "b", "b.on_", "b.v", "h.w"]
    numbers = {"a": 0, "b": 1, "h": 2}
    found = set()
    for _ in range(200):
        # most fields are `-`: "Most lines move only the stage"
        fields = [[random_field(draw, column) if draw.random() < 0.4 else "-" for column in columns] for _ in range(40)]
        lines, number = [], 1
        names = ("by n " + " ".join(columns)).encode()
        state = bench.fresh()
        for values in fields:
            line = ("a %d " % number + " ".join(values)).encode()
            if bench.line(state, names, line)[0] == 0:
                state = bench.line(state, names, line)[2]
                lines.append(line)
                number += 1
        for _, state, following in cycles_of_lines(bench, bench.fresh(), names, lines):
            now, before = following.before, state.before
            wanted = []
            for rule, reads in enumerate(MAZE_READS):
                cells = [(numbers[owner], member.encode()) for owner, member in (read.split(".") for read in reads.split())]
                if any(now.read(*cell) != before.read(*cell) for cell in cells):
                    wanted.append(rule)
            assert machine.tried(now, before) == wanted, lines
            at_rest = machine.at_rest(now, before)
            assert sorted(wanted + at_rest) == [0, 1, 2], lines
            for rule in (machine.file.rules[number] for number in at_rest):
                for choice, clause in product(list(machine.choices(rule, now)), clauses_of(rule.condition)):
                    assert not machine.clause_holds(clause, choice, now, before), lines
            found.add(tuple(wanted))
    assert len(found) == 8, found


def check_zeros_in_sums():
    """Order 7 takes the two zeros for the same, so a sum must not tell them: wherever one zero is put in the place of the
    other, the results are both unset or equal, "a zero divisor" being unset by either."""
    zero, minus_zero = Real(0), Real(1 << 63)
    reals = [zero, minus_zero] + [Real(int(bits, 16)) for bits in (
        "3ff0000000000000", "bff0000000000000", "0000000000000001", "8000000000000001", "7fefffffffffffff", "ffefffffffffffff",
    )]
    assert not differ(negation(zero), negation(minus_zero))
    for mark, other in product((b"+", b"-", b"*", b"/"), [None, *reals]):
        assert not differ(operation(mark, zero, other), operation(mark, minus_zero, other)), (mark, other)
        assert not differ(operation(mark, other, zero), operation(mark, other, minus_zero)), (mark, other)


def check_folder_of_tried():
    """What the list must hold: lines in which all rules rest, all are tried, and some."""
    assert 20 <= len(TRIED) <= 35, len(TRIED)
    for case in TRIED:
        lists = case["tried"]
        assert all(rules == sorted(set(rules)) for rules in lists), case["name"]
        assert [] in lists and (case["name"] == "tried-no-rule" or any(lists)), case["name"]


REFUSED_ROWS = ["refused %d" % code for code in (21, 22, 23, 24, 25, 42, 43)]


def senders_taken(case):
    """How many senders' lines are taken in a case."""
    rows = (case["printed"] or "").split("\n")[1:-1]
    return len({row.split(" ")[0] for row in rows if row not in REFUSED_ROWS})


def check_folder_of_cases():
    """What the list must hold; cases of eight senders are short ones of a small bench."""
    assert max(senders_taken(case) for case in CASES) == 8
    for case in CASES:
        if senders_taken(case) == 8:
            assert case["bench"] == FIRE and case["readings"].count("\n") <= 11, case["name"]
    assert 70 <= len(CASES) <= 210, len(CASES)
    codes = [case["check"][0] for case in CASES if case["readings"] is None]
    assert codes.count(0) >= 3
    for code in [*range(12, 19), 44]:
        assert codes.count(code) >= 3, code
    printed = "".join(case["printed"] or "" for case in CASES)
    for row in REFUSED_ROWS:
        assert row + "\n" in printed, row


def make_all():
    make_accepted()
    make_words()
    make_bytes()
    make_grammar()
    make_counts()
    make_names()
    make_mixed_names()
    make_kinds()
    make_ranks()
    make_order_of_ranks()
    check_trials()
    make_headers()
    make_refused_lines()
    make_presence()
    make_writes()
    make_clauses()
    make_filters()
    make_actions()
    make_sums()
    make_quotients()
    make_two_senders()
    make_senders_and_absence()
    make_numbers_of_senders()
    make_names_of_senders()
    make_order_of_refusals()
    make_nine_senders()
    make_ranks_of_two_rules()
    make_ranks_of_three_rules()
    make_ranks_of_choices_and_calls()
    make_ranks_that_write_nothing()
    make_ranks_of_cells()
    make_ranks_over_cycles()
    make_random()
    check_quotients()
    check_classes()
    check_places_of_bytes()
    check_entity_parts()
    check_sizes()
    check_missing_columns()
    check_kept_rows()
    check_forms_of_senders()
    check_ranks()
    check_lists_of_rules()
    check_lists_of_lines()
    check_folder_of_cases()


def make_all_sheets():
    make_sheets_of_lines()
    make_sheets_of_closing_rows()
    make_sheets_of_lent_states()
    make_sheets_of_senders()
    make_refused_sheets()
    check_sheet_cells()
    check_sheet_readings()
    check_sheet_numbers()
    check_sheet_zeros()
    check_stated_size()
    check_folder_of_sheets()


def make_all_tried():
    make_tried_at_first()
    make_tried_by_events()
    make_tried_by_sums()
    make_tried_by_variables()
    make_tried_without_calls()
    make_tried_by_actions()
    make_tried_by_presence()
    make_tried_of_lines()
    check_reads()
    check_printed_tried()
    check_rules_at_rest()
    check_zeros_in_sums()
    check_folder_of_tried()


# --------------------------------------------------------------------------
# The stored files: compared, or written
# --------------------------------------------------------------------------


def asked_to_write(arguments):
    """`--write` asks for it; `--check`, or no argument, asks to compare and to leave the files alone."""
    if arguments not in ([], ["--check"], ["--write"]):
        raise SystemExit("usage: python3 %s [--check | --write]" % sys.argv[0])
    return arguments == ["--write"]


def content(cases):
    """All bytes of a file of cases as they should be."""
    return (json.dumps(cases, indent=1) + "\n").encode("ascii")


def difference_of_case(have, want):
    """What is unlike in a stored case and the one made here; None stands for no case."""
    if have is None:
        return "case %s is missing" % want["name"]
    if want is None:
        return "there is a case too many: %s" % json.dumps(have)
    if not isinstance(have, dict) or have.get("name") != want["name"]:
        return "case %s should stand where this stands: %s" % (want["name"], json.dumps(have))
    keys = [key for key in [*want, *have] if key not in have or key not in want or have[key] != want[key]]
    key = keys[0]
    return "case %s: %s is %s and should be %s" % (want["name"], key, json.dumps(have.get(key)), json.dumps(want.get(key)))


def difference_of_cases(stored, wanted):
    """The first thing in these bytes of a file of cases that is not as wanted, in words."""
    cases = json.loads(wanted.decode("ascii"))
    try:
        have_cases = json.loads(stored.decode("ascii"))
    except ValueError as error:
        return "it is no text of cases: %s" % error
    if not isinstance(have_cases, list):
        return "it is no list of cases"
    for have, want in zip_longest(have_cases, cases):
        if have != want:
            return difference_of_case(have, want)
    return "its cases are right, but not its layout"


def difference_of_lines(stored, wanted):
    """The first line in these bytes that is not as wanted, in words; None stands for no line."""
    pairs = enumerate(zip_longest(stored.split(b"\n"), wanted.split(b"\n")), 1)
    return next("line %d is %s and should be %s" % (number, have, want) for number, (have, want) in pairs if have != want)


def is_right(path, wanted, difference):
    """Whether the file holds these bytes; prints what is unlike."""
    stored = path.read_bytes() if path.is_file() else None
    if stored != wanted:
        found = "there is no such file" if stored is None else difference(stored, wanted)
        print("%s is not what make_cases.py makes (--write would write it): %s" % (path.name, found))
    return stored == wanted


def main(arguments):
    write = asked_to_write(arguments)
    make_all()
    make_all_sheets()
    make_all_tried()
    files = [
        (OUTPUT, content(CASES), difference_of_cases),
        (SHEETS_OUTPUT, content(SHEETS), difference_of_cases),
        (TRIED_OUTPUT, content(TRIED), difference_of_cases),
        (CLASSES_OUTPUT, printed_classes(), difference_of_lines),
    ]
    if write:
        for path, wanted, _ in files:
            path.write_bytes(wanted)
    elif not all([is_right(*file) for file in files]):
        return 1
    print("%d cases" % len(CASES))
    print("%d sheets" % len(SHEETS))
    print("%d lists of rules tried" % len(TRIED))
    print("%d byte classes" % printed_classes().count(b"\n"))
    return 0


if __name__ == "__main__":
    sys.exit(main(sys.argv[1:]))
