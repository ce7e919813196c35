//! What `--help` prints.

/// `study --help`.
pub const TOOL: &str = "\
Makes study files for the assignment and shows them.

Usage: study COMMAND ...

Commands:
  from-tntp   make a study file from a TNTP net file and trips files
  from-text   make a study file from the text that `show` prints
  show        print a study file as text, with what check answers
  refusals    print what each refusal number means

`study COMMAND --help` tells more about a command.

Exit status: 0 done, 1 something is wrong with an input (a message tells what
and where, and no file is written), 2 the command line makes no sense.
";

/// `study from-tntp --help`.
pub const FROM_TNTP: &str = "\
Makes a study file from a TNTP net file and trips file: version 4 where there
are lorries, else version 3 where a power is not 4, else version 2 where nodes
are closed, else version 1.

Usage: study from-tntp NET TRIPS --out FILE
                       [--vehicles-per-trip N] [--time-unit UNIT]
                       [--lorry-trips LORRIES [--car-units-per-lorry U]
                                              [--barred-links LIST]]

  --out FILE              the study file to write
  --vehicles-per-trip N   vehicles that make one trip of the study: a figure
                          above 0, 1 if not given; flows and capacities are
                          divided by it
  --time-unit UNIT        unit of the free flow times: minutes (if not given),
                          seconds, hours or hundredths (of a minute)
  --lorry-trips LORRIES   a second trips file, of lorries; TRIPS are cars
  --car-units-per-lorry U
                          car units of one lorry: a figure above 0, 1 if not
                          given; the flows of LORRIES are multiplied by it
  --barred-links LIST     a list of the links that are barred to lorries; none
                          is if not given

What becomes of the figures:
  node i                    node i - 1
  links                     in the order of the net file
  free flow time            free time, in hundredths of a minute, 1 to 16,383
  free flow time x b        rise, in hundredths of a minute, 0 to 16,383
  power                     power, 1 to 4 (any figure where b is 0)
  capacity / N              capacity, in trips, 1 to 65,535
  flow / N                  trips, 0 to 65,535
  flow x U / N of lorries   lorry trips, 0 to 65,535; with the trips at most
                            65,535 in all
  nodes that receive trips  destinations, ascending, at most 32
  nodes below <FIRST THRU NODE>
                            closed: only their own traffic uses them
  length, speed, type       not used
There are at most 128 nodes and 512 links, and no flow from a node to itself.
Both trips files are of one form and have the same zones.

A line of LIST bars a link: its init node and term node as in NET, such as
`3 4`. Where several links lead there, a third number tells which of them, in
the order of NET: `3 4 2` for the second. A `;` may stand at the end, and `~`
begins a comment.

Figures are read exactly. Where one has to be rounded, to the nearest whole
number and halves up, standard error tells how many of each kind were, and the
largest rounding; so it does with figures that are not 0 and became 0, and with
what a study has no place for (tolls, factors of tolls and distances). It also
tells which nodes are closed, the first power that makes version 3, and how many
links are barred. A net file without <FIRST THRU NODE> closes no node.

Where b is 0 the power makes no difference. It may be any figure of 0 or more
then and does not make version 3; from version 3 on it is as in the net file, or
4 where that is not one of 1 to 4.

A figure that does not fit, a row that is cut short, metadata that disagree
with the rows or another file, trips without a path, or with none but through
closed nodes or, for lorries, over barred links, a barred link that is none, or
that stands in LIST twice: a message with file, line, figure and limit, exit
status 1, and no file is written. <TOTAL OD FLOW> is compared to the places that
it is written with.
";

/// `study from-text --help`.
pub const FROM_TEXT: &str = "\
Makes a study file from the text that `study show` prints.

Usage: study from-text TEXT --out FILE

  --out FILE   the study file to write

The text, for a town of two roads:

  study 1
  nodes 2
  links 2
  destinations 1

  #    number  tail  head   free   rise  capacity
  link      0     0     1     10     10         2
  link      1     0     1     15      0         1

  destination 1  # 2 trips
    from 0: 2

  total: 2 trips
  check: accepted

- The four lines of the header come first, in this order: the file's version, 1
  to 4, then the counts of what follows (2 to 128 nodes, 1 to 512 links, 1 to 32
  destinations and no more than nodes).
- From version 2 on the closed nodes come next, in lines such as
  `closed 0 1 2`. Nodes that are not mentioned are open. `closed 0 1:7` gives
  node 1 the closed byte 7, which check refuses.
- In version 4 the links that are barred to lorries follow in the same form:
  `barred 0 1`, or `barred 0 1:7` for the barred byte 7.
- A `link` line for each link, in order: number, tail, head, free time and rise
  in hundredths of a minute, capacity in trips. From version 3 on the power, 1
  to 4, comes last, as in `link 0 0 1 10 10 2 3`; in versions 1 and 2 it is
  always 4.
- A `destination` line for each destination, in order, each followed by a
  `from` line for every node with trips to it: node and trips. Nodes that are
  not mentioned have none. In version 4 lorry trips stand there too, counted in
  car units, in lines such as `lorries from 0: 2`.
- The lines `total:` and `check:` may be left out. Both are worked out anew;
  standard error tells where the text says something else.
Nodes and links count from 0. From `#` to the end of a line is a comment; blank
lines and the width of blanks do not matter. Numbers are 0 to 65,535.

A text may describe a study that check refuses under questions 6 to 11, 19 or
23: the file is written, and the answer of check tells what is wrong. Any other
fault is a message with file and line, exit status 1, and no file is written.
";

/// `study show --help`.
pub const SHOW: &str = "\
Prints a study file as text: version, counts, closed nodes, barred links, links
(from version 3 on with their powers), destinations with their trips and lorry
trips, the total, and what check answers, in words.

Usage: study show FILE

`study from-text` reads the text back and makes the same file, without gaps
between its sections; `study from-text --help` explains the text.

A file that check refuses under questions 6 to 11, 19 or 23 is shown with the
first link, destination or node at fault. Of a file that it refuses under
questions 1 to 5 only the refusal is shown, with the figures found; the exit
status is then 1.
";

/// `study refusals --help`.
pub const REFUSALS: &str = "\
Prints the numbers with which calls are refused, and what each means.

Usage: study refusals

The first question answered `no` gives its number. Check puts 1 to 8, 19, 23,
then 9 to 11; pack as check, then 17; start as check, then 12; run as start,
then 13; pass and audit as start, then 14 to 16, then 20; page as audit, then
18; taking back as audit, then 21 and 22.
";
