//! What `--help` prints.

/// The whole help.
pub const HELP: &str = "\
lanes: judges, runs, traces and compares lane routines with the proved engine.

usage:
  lanes judge    FILE [--json]
  lanes template FILE [--all] [--rows]
  lanes run      FILE [MEMORY] [samples] [--budget N] [--out FILE]
                 [--csv-out FILE] [--width N] [--json]
  lanes trace    FILE [MEMORY] [samples] [--budget N] [--from N] [--to N]
                 [--watch NAME] [--lane N] [--html FILE] [--width N] [--json]
  lanes compare  FILE BEFORE AFTER [--stride N] [--budget N] [--show N]
                 [--json]
  lanes --help | --version

commands:
  judge     says whether the routine in FILE is accepted, how much memory it
            needs and where its variables lie; a refusal is shown in its line,
            with what was found there and what may stand there
  template  prints the head of a CSV file for the routine's samples: the
            variables that are declared without a value (--all: every one);
            with --rows a column a variable and a row a lane
  run       runs the routine and shows what it leaves: each variable with its
            lanes, then all bytes in rows of 16; of many blocks a line each.
            More than 16 lanes stand on several lines, each behind the number
            of its first lane
  trace     shows a line for each step: the statement and what it does in each
            lane. A dot is a lane that the mask leaves out; * is written, = is
            written with the value it had; a condition is yes or no. At a
            `while` test the mask is the lanes still in the loop
  compare   runs each recorded block of BEFORE and compares it with the bytes
            that the collector left in AFTER; says which lanes differ and which
            step wrote them last

arguments:
  FILE      the routine's text, at most 4,096 bytes
  MEMORY    the memory's bytes, of which no more are read than the routine
            needs; zeros where none is given
  BEFORE    one block after the other, each as long as the routine needs
  AFTER     the same blocks after the collector's run
  -         as a file is standard input; for --csv-out it is standard output

samples, put into the memory by name:
  --set NAME=V,V..  values for the lanes of NAME; one value fills all lanes.
                    An int is decimal, a bool is 0, 1, false or true, a float
                    is a decimal such as -0.5 or 1e-3, NaN, inf or -inf. A
                    name that is declared twice is told apart by its place:
                    s@3:14
  --csv FILE        a head of names, then a row a lane; or a head such as
                    s[0],s[1] and one row. An empty cell sets nothing, a
                    column whose name begins with # is passed over
  --blocks FILE     many memories: blocks one after the other, or in a file
                    named *.csv a row a block
  --block N         only this one of --blocks, counted from 0
  --stride N        bytes from one block to the next, if more than needed

options:
  --budget N        the most steps to take, 0 to 4294967295 (1000 unless
                    given). A trace runs the routine anew for each step, so
                    its time grows with the square of the steps
  --out FILE        writes the memory after the run, if the routine ran
  --csv-out FILE    writes the results by name, as a CSV file
  --from N, --to N  the first and the last step of the trace
  --watch NAME      also shows this variable after each step
  --lane N          also shows, beside it, the run of this lane by itself
  --html FILE       writes the trace as a page to look at, instead of a table
  --width N         columns to use (the terminal's, or 100, unless given)
  --show N          how many lanes that differ are shown (10 unless given)
  --json            JSON instead of text: one object, or one a line
  --                what follows is no option

A value may also follow its option behind `=`: --budget=5.

JSON: every outcome has code, place, need, steps and message; hints where
there are any; line, column and end where the place is shown; variables (name,
kind, length, address, place, and after a run values) of an accepted text;
memory in hex after a run. NaN, inf and -inf, which JSON does not have, are
texts. A step has step, place, end, line, column, mask, writes (name, lane,
address, before, after), and test at a condition.

A refusal is told on standard error, results go to standard output. A reader
of the output that goes away is no failure.

exit status:
  0   accepted, or the run ended, or all blocks agree
  1   the text is refused (codes 1 to 11), or a block differs
  2   the memory is shorter than the text needs (code 12)
  3   the budget is spent with a step still due (code 13)
  64  the arguments do not fit
  65  samples do not fit the routine, or a file of them is damaged
  66  a file cannot be read
  70  in a trace, the independent implementation that gives the masks does not
      agree with the proved engine on an answer or a byte of memory
  73  a file cannot be written
  74  the output cannot be written
";
