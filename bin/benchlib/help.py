"""The words of bin/bench --help."""

USAGE = """\
Usage: bin/bench [-f] [--decimal] [--fired] [--state FILE] FOLDER [-]
       bin/bench --sheet CELLS FOLDER
       bin/bench --classes
       bin/bench --help | -h
       bin/bench --version
"""

HELP = USAGE + """
Runs the bench file FOLDER/bench.txt on the readings FOLDER/readings.txt, or with - on those of
standard input, and prints a row for each line as soon as it is there. What is refused is explained on
standard error. Options may stand before or after FOLDER; -- ends them. To try it:

  bin/bench examples/pedal

  -f            the readings grow: goes on at the end of the file, until it is interrupted or the pipe
                ends. A line counts when its line feed is there
  --decimal     reals as the shortest decimals that read back, and not as 16 digits
  --fired       the row of names, and then only rows in which an action was fired; refusals are
                explained only
  --state FILE  goes on from the state in FILE, or from a fresh one if there is no FILE, and leaves the
                new state there: at the end, when all rows are written; with -f after each batch of
                lines, before its rows are written. A kill at any moment leaves the old state or the new
                one. Lines that were taken before are then refused by 24, but for each sender's last,
                which gives its row again. Beside FILE it uses FILE.new and FILE.lock
  --sheet CELLS the day sheet instead of rows: of each new line the number and the chosen cells as they
                read after it. CELLS is one word of one to five cells with one space between, as in
                'stage.pos log.width'. Lines that are refused or sent again are not on it;
                how many are is told, and bin/bench FOLDER explains the refused ones
  --classes     what each byte of a bench file is for: 256 lines, the byte and its class, 0 letter,
                1 digit, 2 _, 3 mark, 4 blank, 5 #, 6 for comments only, 7 not allowed
  --version     the interface, the form of states, and the commit

The readings begin with a line of names: by n, then events (entity.event) or entities of the bench.
Each further line has its sender's name, that sender's own number, from 1 on, and a value for each
column; its row has sender and number, and what each action was fired with. A line and its row:

  by n p.down s.pos        by n k.keep
  a 2 true 140             a 2 140

docs/LANGUAGE.md describes the language of bench files and readings, with an example of each refusal.

A line that is not taken gives refused and a number:
  21 it is too long, or its fields or its number are ill formed
  43 its sender is no name: a letter, then letters, digits or _, 24 bytes at most
  42 its sender is a ninth one: eight are known
  23 a value is ill formed, of another kind, or of an absent entity
  24 its number is neither its sender's last one nor the next
  25 its number is its sender's last one, but with other readings
The last number with the same readings is a line sent again: it gives its row again and changes nothing.
In place of all rows:
  22 the line of names is ill formed, or names what the bench does not have
  33 the state in FILE does not belong to the bench file
  41 a cell of the sheet is none of the bench, or there are none or more than five

A bench file that is refused gives refused, a number, and the place in bytes:
  11 it is longer than 32768 bytes
  12 a byte or word that is not allowed
  13 a word that cannot follow the words before it, or the text ends too early
  44 a rank above 9
  14 one item too many
  15 a name declared again, or an attribute set again
  16 a name or member that is unknown, or of the wrong sort
  17 an attribute that is not set
  18 kinds (whole, bool, real) that do not fit

Status: 0 all lines were taken; 1 the bench file, the cells or the state is refused; 2 bad usage; 3 a
        program could not be built, or not run to its end, or something could not be read or written;
        4 the line of names or a line of readings was refused (of a sheet, the line of names alone).
        A missing file counts as an empty one.

The program target/bin/bench is built first if it is missing (bin/build bench); target/bin/sheet, resume
and classes if they are missing or old (cc, on the archive that bin/build engine makes, which is made
too if it is missing or old). BENCH_PROGRAM, if set, names another program to run for the rows without a
state; then nothing is built for them.
"""
