"""Scripts of calls: their output byte for byte, settings, lines that cannot be read, all refusals."""
import json
import os
import pty
import random
import subprocess
import sys
import tempfile
import unittest
from pathlib import Path

import planner
from planner import library
from support import ROOT, planner as command, random_graph

FOUR = "sea 4 1-2:4 1-3:3 1-4:5 2-3:2 2-4:6 3-4:1\n"

# Each line of a script and, behind '>', what it prints; '!' what it complains of.
DOCUMENT = f"""
# Document 01's four-buoy sea.
{FOUR}
tree > bound 10 legs 1 2 4 6
dues 0 0 1 -1
tree > bound 12 legs 1 2 4 6
{FOUR}
rule 14 > bound 10 rulings 0 0 0 0 0 1
rule 12 > bound 10 rulings 0 0 0 1 2 1
rule 10 > bound 10 rulings 1 1 2 1 2 1
rule 9 > dead
open 12 0 0 > accepted
tell > going on nodes 0
run 1 > going on nodes 1
run 1000000 > finished nodes 5
tell > cost 12 nodes 5
show > legs 1 3 4 6
run 7 > finished nodes 5
close > accepted
open 11 0 0 > accepted
run 18446744073709551615 > finished nodes 3
tell > none nodes 3
show > refused 23 at 0
close > accepted

# Three buoys: no legs, then three of cost 1.
sea 3
tree > no tree
rule 5000000000 > dead
open 0 0 0 > accepted
run 9 > finished nodes 1
tell > none nodes 1
close > accepted
sea 3 1-2:1 1-3:1 2-3:1
open 3 0 0 > accepted
run 9 > finished nodes 1
tell > cost 3 nodes 1
show > legs 1 2 3
close > accepted
open 2 0 0 > accepted
run 9 > finished nodes 1
tell > none nodes 1
close > accepted

# Three required legs at buoy 1.
sea 4 1-2:4r 1-3:3r 1-4:5r 2-3:2 2-4:6 3-4:1
tree > no tree
rule 99 > dead

# Document 02, C-14: three legs and no other 1-tree, at the ends of the costs and of the ceilings.
sea 3 1-2:0 1-3:0 2-3:0
rule 5000000000 > bound 0 rulings 1 1 1
rule -5000000000 > dead
sea 3 1-2:100000000 1-3:100000000 2-3:100000000
rule 5000000000 > bound 300000000 rulings 1 1 1
rule 300000000 > bound 300000000 rulings 1 1 1
rule 299999999 > dead
open 5000000000 0 0 > accepted
run 9 > finished nodes 1
tell > cost 300000000 nodes 1
close > accepted
sea 3 1-2:-100000000 1-3:-100000000 2-3:-100000000
rule 5000000000 > bound -300000000 rulings 1 1 1
rule -300000001 > dead
open -300000000 15 10000 > accepted
run 9 > finished nodes 1
tell > cost -300000000 nodes 1
close > accepted

# What one mark more would do; the chart keeps its own.
{FOUR}
preview 1 2 > bound 11 legs 2 3 4 6
preview 5 1 > bound 14 legs 1 2 5 6
preview 6 2 > bound 15 legs 1 2 4 5
tree > bound 10 legs 1 2 4 6

# Costs from the last times of a log, entry by entry; the chart then has them, and keeps its dues.
recent 2 1:9 > costs 9 3 5 2 6 1
{FOUR}
recent 2 1:9 1:-3 4:2 1:7 1:1 1:0 4:-5 4:-8 4:-6 > costs 1 3 5 -6 6 1
tree > bound -1 legs 1 2 4 6
{FOUR}
recent 1 1:9 1:-3 4:2 1:7 1:1 1:0 4:-5 4:-8 4:-6 > costs 0 3 5 -6 6 1
recent 32 > costs 0 3 5 -6 6 1
{FOUR}
recent 3 1:9 1:-3 4:2 1:7 1:1 1:0 4:-5 4:-8 4:-6 > costs 7 3 5 -5 6 1
open 20 0 0 > accepted
run 1000 > finished nodes 9
tell > cost 8 nodes 9
close > accepted
{FOUR}
# A round sailed, and settings compared.
simulate 0 2 1 4 6 3 > times 2 1 2 7 total 12 state 2868466484
simulate 0 0 3 6 4 1 > times 5 1 2 4 total 12 state 2868466484
compare 12 5 0/0 0/10000 1/1 2/1 15/1 15/10 > nodes 5 5 3 1 1 1
compare 16 5 0/0 0/10000 1/1 2/1 15/1 15/10 > nodes 0 0 3 1 1 5

# Children start from their parent's dues (document 02, C-16): with dues reset at each node it would be 15 nodes.
sea 5 1-2:6 1-4:8 1-5:2 2-4:5 2-5:3 3-4:8 4-5:9
open 40 1 2 > accepted
run 1 > going on nodes 1
run 9 > going on nodes 10
run 1 > finished nodes 11
tell > none nodes 11
close > accepted
{FOUR}

# Document 02, C-17: dues in halves, thirds and thousandths of a minute; ceilings and costs stay in minutes. 'sea' makes it 1 again.
dues 0 0 1 -1
denominator 2
tree > bound 22 legs 1 2 4 6
rule 11 > bound 22 rulings 1 1 2 1 2 1
rule 10 > dead
preview 1 2 > bound 23 legs 2 3 4 6
preview 6 2 > bound 31 legs 1 2 4 5
denominator 3
tree > bound 32 legs 1 2 4 6
rule 11 > bound 32 rulings 1 1 2 1 2 1
rule 10 > dead
denominator 1000
tree > bound 10002 legs 1 2 4 6
rule 11 > bound 10002 rulings 1 1 2 1 2 1
rule 12 > bound 10002 rulings 0 0 0 1 2 1
open 12 0 0 > accepted
run 99 > finished nodes 5
tell > cost 12 nodes 5
show > legs 1 3 4 6
close > accepted
denominator 1
tree > bound 12 legs 1 2 4 6
denominator 7
{FOUR}
tree > bound 10 legs 1 2 4 6
denominator 1000
dues 0 1000000 -1000000 1000000
tree > bound -1990000 legs 1 2 4 6
rule -1990 > bound -1990000 rulings 1 1 2 1 2 1
rule -1991 > dead
{FOUR}

# Document 02, C-13: with lifting a hunt opens fewer nodes, and tells and shows the same; trees and rulings stay. 'sea' makes it 'no' again.
lifting yes
tree > bound 10 legs 1 2 4 6
rule 12 > bound 10 rulings 0 0 0 1 2 1
preview 1 2 > bound 11 legs 2 3 4 6
compare 12 5 0/0 0/10000 > nodes 3 3
open 12 0 0 > accepted
run 1 > going on nodes 1
lifting no
run 99 > finished nodes 3
tell > cost 12 nodes 3
show > legs 1 3 4 6
close > accepted
compare 12 5 0/0 0/10000 > nodes 5 5
lifting yes
{FOUR}
compare 12 5 0/0 > nodes 5

# Document 02, C-20: a byte a buoy, 1 ashore: rounds and 1-trees are over the others. 'sea' makes all afloat again.
ashore 0 0 0 1
tree > bound 9 legs 1 2 4
rule 9 > bound 9 rulings 1 1 4 1 4 4
rule 8 > dead
dues 0 0 0 7
tree > bound 9 legs 1 2 4
rule 9 > bound 9 rulings 1 1 4 1 4 4
preview 3 1 > bound 9 legs 1 2 4
preview 3 2 > bound 9 legs 1 2 4
preview 1 1 > bound 9 legs 1 2 4
preview 1 2 > no tree
compare 9 5 0/0 15/10 > nodes 1 1
open 9 0 0 > accepted
ashore 0 0 0 0
run 9 > finished nodes 1
tell > cost 9 nodes 1
show > legs 1 2 4
close > accepted
tree > bound 3 legs 1 2 4 6
ashore 0 1 0 0
tree > bound 9 legs 2 3 6
sea 4 1-2:4 1-3:3 1-4:5r 2-3:2 2-4:6 3-4:1
ashore 0 0 0 1
tree > bound 9 legs 1 2 4
rule 9 > bound 9 rulings 1 1 4 1 4 4
preview 3 1 > refused 31 at 0
{FOUR}
tree > bound 10 legs 1 2 4 6

# A dispatcher: turns go round, a closed place is free again, and the search record is another.
turn 3 > idle
add 12 0 0 > place 1
add 12 0 0 > place 2
add 12 0 0 > place 3
turn 1 > place 1
turn 1 > place 2
turn 1 > place 3
turn 1 > place 1
closeat 2 > accepted
add 12 0 0 > place 2
turn 1 > place 2
turn 1 > place 3
turn 9 > place 1
turn 9 > place 2
tellat 3 > going on nodes 2
turn 9 > place 3
turn 9 > idle
tellat 1 > cost 12 nodes 5
showat 3 > legs 1 3 4 6
add 11 0 0 > place 4
turn 18446744073709551615 > place 4
tellat 4 > none nodes 3
lifting yes
add 12 0 0 > place 5
lifting no
add 12 0 0 > place 6
turn 9 > place 5
turn 9 > place 6
tellat 5 > cost 12 nodes 3
tellat 6 > cost 12 nodes 5
ashore 0 0 0 1
add 9 0 0 > place 7
turn 9 > place 7
tellat 7 > cost 9 nodes 1
showat 7 > legs 1 2 4

# Marks as letters and as bytes.
sea 4 1-2:4m0 1-3:3s 1-4:5m1 2-3:-2r 2-4:6 3-4:1m2
tree > bound 13 legs 1 3 4 5
rule 13 > bound 13 rulings 1 4 3 3 1 4
"""

REFUSALS = f"""
# No chart yet, no hunt yet.
tree > refused 15 at 0
rule 5 > refused 15 at 0
open 5 0 0 > refused 15 at 0
run 5 > refused 20 at 0
tell > refused 20 at 0
show > refused 20 at 0
close > refused 20 at 0

# 15: what breaks the rules of legs and marks, whatever else is wrong.
sea 2 1-2:1
tree > refused 15 at 0
sea 21
tree > refused 15 at 0
sea 255
tree > refused 15 at 0
sea 4 2-1:5
tree > refused 15 at 0
sea 4 1-5:5
tree > refused 15 at 0
sea 4 0-4:5
tree > refused 15 at 0
sea 4 255-255:5
tree > refused 15 at 0
sea 4 1-2:100000001
tree > refused 15 at 0
sea 4 1-2:-2147483648
tree > refused 15 at 0
sea 4 1-2:5m3
tree > refused 15 at 0
sea 4 1-2:5m255
tree > refused 15 at 0
sea 4 1-2:5 1-2:6
dues 7
list 9
rule 5000000001 > refused 15 at 0
sea 20 {"1-2:3 " * 190}1-3:4
tree > refused 15 at 0
sea 20 {"1-2:3 " * 255}
tree > refused 15 at 0

# 11 before 12 before 13 before 14.
{FOUR}
dues
tree > refused 11 at 0
dues 0 0 0
tree > refused 11 at 0
open 5000000001 16 0 > refused 11 at 0
dues 0 0 0 0 0
rule 5000000001 > refused 11 at 0
dues 1 0 0 0
list 5
rule 5000000001 > refused 11 at 0
rule 5000000001 > refused 12 at 0
open 5000000001 16 0 > refused 12 at 0
dues 0 0 0 1000001
tree > refused 12 at 0
dues 0 -2147483648 0 2147483647
tree > refused 12 at 0
dues 0 0 0 0
rule 5000000001 > refused 13 at 0
rule -5000000001 > refused 13 at 0
rule 9223372036854775807 > refused 13 at 0
rule -9223372036854775808 > refused 13 at 0
open 5000000001 16 0 > refused 13 at 0
open 5000000000 16 0 > refused 14 at 0
open 5000000000 15 10001 > refused 14 at 0
open 5000000000 4294967295 4294967295 > refused 14 at 0

# 32 after 14 and, of a preview, before 30; whatever fits 64 bits is sent.
denominator 0
tree > refused 32 at 0
rule 12 > refused 32 at 0
preview 0 3 > refused 32 at 0
open 12 0 0 > refused 32 at 0
compare 12 5 0/0 > refused 32 at 0
rule 5000000001 > refused 13 at 0
open 5000000001 16 0 > refused 13 at 0
open 12 16 0 > refused 14 at 0
open 12 0 10001 > refused 14 at 0
compare 12 5 0/0 0/10001 > refused 14 at 0
compare 5000000001 5 0/0 > refused 13 at 0
denominator 1001
tree > refused 32 at 0
list 5
tree > refused 11 at 0
tree > refused 32 at 0
dues 1 0 0 0
tree > refused 12 at 0
preview 0 3 > refused 12 at 0
open 5000000001 16 0 > refused 12 at 0
dues 0 0 0
tree > refused 11 at 0
dues 0 0 0 0
denominator 18446744073709551615
rule 12 > refused 32 at 0
denominator 4294967297
open 12 0 0 > refused 32 at 0
denominator 1000
tree > bound 10000 legs 1 2 4 6
dues 0 0 0 1000001
tree > refused 12 at 0
sea 4 2-1:5
denominator 0
tree > refused 15 at 0
preview 1 1 > refused 15 at 0
open 12 0 0 > refused 15 at 0
{FOUR}

# 35 after 32 and, of a preview, before 30; the list's length comes under 11. Whatever fits a byte is sent.
ashore 0 0 0 2
tree > refused 35 at 0
rule 12 > refused 35 at 0
preview 0 3 > refused 35 at 0
open 12 0 0 > refused 35 at 0
add 12 0 0 > refused 35 at 0
compare 12 5 0/0 > refused 35 at 0
rule 5000000001 > refused 13 at 0
open 12 16 0 > refused 14 at 0
add 12 0 10001 > refused 14 at 0
compare 12 5 0/0 0/10001 > refused 14 at 0
denominator 0
tree > refused 32 at 0
preview 0 3 > refused 32 at 0
open 12 0 0 > refused 32 at 0
compare 12 5 0/0 > refused 32 at 0
denominator 1
ashore 1 0 0 0
tree > refused 35 at 0
ashore 0 1 0 1
rule 12 > refused 35 at 0
ashore 255 255 255 255
open 12 0 0 > refused 35 at 0
ashore
tree > refused 11 at 0
ashore 0 0 0
open 5000000001 16 0 > refused 11 at 0
ashore 0 0 0 0 0
rule 5000000001 > refused 11 at 0
dues 1 0 0 0
compare 5000000001 5 0/0 > refused 11 at 0
preview 0 3 > refused 11 at 0
ashore 0 0 0 2
tree > refused 12 at 0
dues 0 0 0 1000001
ashore 0 0 0 1
tree > refused 12 at 0
preview 0 3 > refused 12 at 0
sea 4 2-1:5
ashore 0 0 0 2
tree > refused 15 at 0
open 12 0 0 > refused 15 at 0
{FOUR}
ashore 0 0 0 1
preview 0 3 > refused 30 at 0
preview 7 1 > refused 30 at 0
{FOUR}

# Of a preview: 15, 11, 12, 32, 35, then 30, then 31.
preview 0 3 > refused 30 at 0
preview 7 1 > refused 30 at 0
preview 18446744073709551615 1 > refused 30 at 0
preview 6 0 > refused 30 at 0
preview 6 4294967295 > refused 30 at 0
list 5
preview 0 3 > refused 11 at 0
dues 0 0 0 1000001
preview 0 3 > refused 12 at 0
sea 4 1-2:4r 1-3:3 1-4:5r 2-3:2 2-4:6 3-4:1s
preview 1 2 > refused 31 at 0
preview 1 0 > refused 30 at 0
preview 6 1 > refused 31 at 0
preview 2 1 > no tree
sea 4 2-1:5
preview 1 1 > refused 15 at 0
simulate 65536 1001 1 > refused 15 at 0
compare 50000001 5 > refused 15 at 0
{FOUR}

# Of a dispatcher: 40; 42 before 20; 41 before the opening's own.
turn 0 > refused 40 at 0
tellat 0 > refused 42 at 0
tellat 9 > refused 42 at 0
showat 18446744073709551615 > refused 42 at 0
closeat 1 > refused 20 at 0
showat 8 > refused 20 at 0
add 5000000001 0 0 > refused 13 at 0
add 12 16 0 > refused 14 at 0
add 12 0 0 > place 1
showat 1 > refused 22 at 0
add 12 0 0 > place 2
add 12 0 0 > place 3
add 12 0 0 > place 4
add 12 0 0 > place 5
add 12 0 0 > place 6
add 12 0 0 > place 7
add 12 0 0 > place 8
add 5000000001 0 0 > refused 41 at 0
closeat 7 > accepted
closeat 7 > refused 20 at 0
add 11 0 0 > place 7
turn 1000 > place 1
list 5
showat 1 > refused 11 at 0

# Of a sailing: 15, 11, then 36, then 37; of a comparison 15, 11, 12, 13, 14.
simulate 65536 2 4 6 3 > refused 11 at 0
simulate 65536 2 > refused 11 at 0
simulate 65536 2 4 6 3 1 > refused 36 at 0
simulate 0 2 1 4 6 6 > refused 36 at 0
simulate 0 2 1 6 4 3 > refused 36 at 0
simulate 0 2 1 4 6 259 > refused 36 at 0
simulate 0 2 18446744073709551615 4 6 3 > refused 36 at 0
simulate 65536 2 1 4 6 3 > refused 37 at 0
simulate 0 1001 1 4 6 3 > refused 37 at 0
simulate 4294967296 2 1 4 6 3 > refused 37 at 0
compare 50000001 5 > refused 11 at 0
compare 12 5 0/0 0/0 0/0 0/0 0/0 0/0 0/0 0/0 0/0 0/0 0/0 0/0 0/0 0/0 0/0 0/0 0/0 > refused 11 at 0
compare 5000000001 5 0/0 16/0 > refused 13 at 0
compare 12 5 0/0 0/10001 > refused 14 at 0
dues 0 0 0
compare 5000000001 5 16/0 > refused 11 at 0
dues 1 0 0 0
compare 5000000001 5 16/0 > refused 12 at 0
{FOUR}

# Of a log: 15, 38, then 39 with the place of the first bad entry; the chart stays.
recent 0 7:1 > refused 38 at 0
recent 33 7:1 > refused 38 at 0
recent 18446744073709551615 > refused 38 at 0
recent 2 1:5 7:1 0:1 > refused 39 at 2
recent 2 0:5 > refused 39 at 1
recent 2 18446744073709551615:5 > refused 39 at 1
recent 2 1:5 2:2147483647 > refused 39 at 2
recent 2 1:5 2:-2147483648 > refused 39 at 2
tree > bound 10 legs 1 2 4 6
sea 4 2-1:5
recent 0 7:1 > refused 15 at 0
{FOUR}

# A list of wrong length serves one call, refused or not; a setting in between leaves it, a sea does not.
list 5
tree > refused 11 at 0
tree > bound 10 legs 1 2 4 6
list 18446744073709551615
rule 12 > refused 11 at 0
rule 12 > bound 10 rulings 0 0 0 1 2 1
list 0
dues 0 0 1 -1
tree > refused 11 at 0
list 6
tree > bound 12 legs 1 2 4 6
list 5
{FOUR}
tree > bound 10 legs 1 2 4 6
list 300000000000
open 11 0 0 > accepted
open 11 0 0 > refused 21 at 0
show > refused 22 at 0
sea 2
open 99999999 16 0 > refused 21 at 0
run 0 > going on nodes 0
run 9 > finished nodes 3
show > refused 23 at 0
close > accepted
close > refused 20 at 0
{FOUR}
open 12 0 0 > accepted
run 9 > finished nodes 5
list 7
show > refused 11 at 0
show > legs 1 3 4 6

# The current chart's m is the list's length, not the hunt's.
sea 3 1-2:1 1-3:1 2-3:1
show > refused 11 at 0
list 6
show > legs 1 3 4 6
tell > cost 12 nodes 5
"""

# Document 02, C-18: saved hunts, through closing and other openings; 20, 33 and 34 in their order.
SHELF = f"""
{FOUR}
save 9 > refused 20 at 0
back 9 > refused 33 at 0
back 0 > refused 33 at 0
back 8 > refused 34 at 0
open 12 0 0 > accepted
save 0 > refused 33 at 0
save 9 > refused 33 at 0
save 4294967297 > refused 33 at 0
run 3 > going on nodes 3
save 8 > accepted
run 1000 > finished nodes 5
save 1 > accepted
close > accepted
save 2 > refused 20 at 0
sea 3 1-2:1 1-3:1 2-3:1
open 2 0 0 > accepted
run 9 > finished nodes 1
back 8 > accepted
tell > going on nodes 3
run 1 > going on nodes 4
back 8 > accepted
run 2 > finished nodes 5
list 6
show > legs 1 3 4 6
back 1 > accepted
tell > cost 12 nodes 5
close > accepted
back 2 > refused 34 at 0
tell > refused 20 at 0
back 8 > accepted
save 1 > accepted
close > accepted
back 1 > accepted
tell > going on nodes 3
"""


def parted(text):
    """A script and its expected answers."""
    lines = [line.split(" > ") for line in text.splitlines()]
    return "".join(f"{line[0]}\n" for line in lines), "".join(f"{line[1]}\n" for line in lines if len(line) > 1)


def ran_line(ran):
    """What run prints."""
    return f"{'finished' if ran.finished else 'going on'} nodes {ran.nodes}"


def told_line(told):
    """What tell prints."""
    return f"{told.verdict}{'' if told.cost is None else f' {told.cost}'} nodes {told.nodes}"


def bound_and(found, word, otherwise):
    """What tree and rule print."""
    return f"bound {found[0]} {word} {' '.join(map(str, found[1]))}" if found else otherwise


class Scripts(unittest.TestCase):
    def test_documents(self):
        for text in (DOCUMENT, REFUSALS, SHELF):
            script, answers = parted(text)
            self.assertEqual(command("calls", given=script), (answers, "", 0))
            with tempfile.TemporaryDirectory() as folder:
                path = Path(folder, "script")
                path.write_text(script)
                self.assertEqual(command("calls", path), (answers, "", 0))

    def test_lines_that_cannot_be_read(self):
        """Each says its line on standard error; the script goes on, settings as they were; the status is 2."""
        names = "allowed are sea, chart, dues, list, denominator, lifting, ashore, tree, preview, rule, recent, simulate, compare, open, run, tell, show"
        names += ", close, save, back, add, turn, tellat, showat, closeat"
        wide = "allowed is -9223372036854775808 to 9223372036854775807"
        no_leg = "is no leg; allowed is A-B:COST, with r, s or mK behind it"
        wrong = (
            ("tree 1", "too many words; allowed is tree"),
            ("rule", "too few words; allowed is rule CEILING"),
            ("rule 1 2", "too many words; allowed is rule CEILING"),
            ("open 1 2", "too few words; allowed is open CEILING SWEEPS STEP"),
            ("run", "too few words; allowed is run BUDGET"),
            ("tell me", "too many words; allowed is tell"),
            ("preview 1", "too few words; allowed is preview LEG MARK"),
            ("preview 1 2 3", "too many words; allowed is preview LEG MARK"),
            ("recent", "too few words; allowed is recent W LEG:TIME .."),
            ("recent x", "number of last times 'x' is not a whole number; allowed is 0 to 18446744073709551615"),
            ("recent 1 1", "'1' is no entry; allowed is LEG:TIME"),
            ("recent 1 -1:4", "'-1:4' is no entry; allowed is LEG:TIME"),
            ("recent 1 1:2147483648", "time 2147483648 is out of range; allowed is -2147483648 to 2147483647"),
            ("save", "too few words; allowed is save NAME"),
            ("back 1 2", "too many words; allowed is back NAME"),
            ("back -1", "name -1 is out of range; allowed is 0 to 18446744073709551615"),
            ("lifting", "too few words; allowed is lifting yes|no"),
            ("lifting yes no", "too many words; allowed is lifting yes|no"),
            ("lifting YES", "lifting 'YES' is unknown; allowed are yes and no"),
            ("lifting 1", "lifting '1' is unknown; allowed are yes and no"),
            ("denominator", "too few words; allowed is denominator Q"),
            ("denominator 2 3", "too many words; allowed is denominator Q"),
            ("denominator 1/2", "denominator '1/2' is not a whole number; allowed is 0 to 18446744073709551615"),
            ("denominator -1", "denominator -1 is out of range; allowed is 0 to 18446744073709551615"),
            ("denominator 18446744073709551616", "denominator 18446744073709551616 is out of range; allowed is 0 to 18446744073709551615"),
            ("TREE", f"'TREE' is unknown; {names}"),
            ("ashore 0 0 0 x", "byte 'x' is not a whole number; allowed is 0 to 255"),
            ("ashore 256", "byte 256 is out of range; allowed is 0 to 255"),
            ("ashore -1", "byte -1 is out of range; allowed is 0 to 255"),
            ("set_ashore 0 0 0 1", f"'set_ashore' is unknown; {names}"),
            ("simulate 0", "too few words; allowed is simulate STUDENT E LEG .."),
            ("compare 12", "too few words; allowed is compare CEILING BUDGET SWEEPS/STEP .."),
            ("compare 12 5 3", "'3' is no pair; allowed is SWEEPS/STEP"),
            ("add 12 0", "too few words; allowed is add CEILING SWEEPS STEP"),
            ("turn", "too few words; allowed is turn P"),
            ("turn -1", "nodes -1 is out of range; allowed is 0 to 18446744073709551615"),
            ("tellat x", "place 'x' is not a whole number; allowed is 0 to 18446744073709551615"),
            ("showat 1 2", "too many words; allowed is showat K"),
            ("settings", f"'settings' is unknown; {names}"),
            ("take", f"'take' is unknown; {names}"),
            ("rule x", f"ceiling 'x' is not a whole number; {wide}"),
            ("rule 9223372036854775808", f"ceiling 9223372036854775808 is out of range; {wide}"),
            ("rule +1", f"ceiling '+1' is not a whole number; {wide}"),
            ("open 1 -1 0", "sweeps -1 is out of range; allowed is 0 to 4294967295"),
            ("open 1 0 4294967296", "step 4294967296 is out of range; allowed is 0 to 4294967295"),
            ("run -1", "budget -1 is out of range; allowed is 0 to 18446744073709551615"),
            ("run " + "9" * 9999, "budget " + "9" * 58 + ".. is out of range; allowed is 0 to 18446744073709551615"),
            ("sea", "allowed is 'sea N LEG ..'"),
            ("sea 256", "number of buoys 256 is out of range; allowed is 0 to 255"),
            ("sea x", "number of buoys 'x' is not a whole number; allowed is 0 to 255"),
            ("sea 4 1-2", f"'1-2' {no_leg}"),
            ("sea 4 1-2:3x", f"'1-2:3x' {no_leg}"),
            ("sea 4 1-2:3m", f"'1-2:3m' {no_leg}"),
            ("sea 4 1-2:3m256", "mark 256 is out of range; allowed is 0 to 255"),
            ("sea 4 1-256:3", "buoy 256 is out of range; allowed is 0 to 255"),
            ("sea 4 1-2:2147483648", "cost 2147483648 is out of range; allowed is -2147483648 to 2147483647"),
            ("sea 4" + " 1-2:3" * 256, "number of legs 256 is out of range; allowed is 0 to 255"),
            ("dues 0 x", "due 'x' is not a whole number; allowed is -2147483648 to 2147483647"),
            ("dues 2147483648", "due 2147483648 is out of range; allowed is -2147483648 to 2147483647"),
            ("list", "too few words; allowed is list K"),
            ("list 1 2", "too many words; allowed is list K"),
            ("list -1", "length -1 is out of range; allowed is 0 to 18446744073709551615"),
            ("chart", "allowed is 'chart PATH'"),
            ("chart no such file", "no such file: No such file or directory"),
            ("chart examples/regrade/loop.chart", "examples/regrade/loop.chart: refused 6 at 3: record met before"),
            ("tree # now", "too many words; allowed is tree"),
            ("chart docs", "docs: Is a directory"),
            ("chart -", "./-: No such file or directory"),
            ("t\x00ree", f"'t?ree' is unknown; {names}"),
        )
        script = FOUR + "dues 0 0 1 -1\nlist 5\n" + "".join(f"{line}\n" for line, _ in wrong) + "tree\ntree\n"
        complaints = "".join(f"error: line {number}: {message}\n" for number, (_, message) in enumerate(wrong, 4))
        out, said, status = command("calls", given=script)
        self.assertEqual(said.splitlines(), complaints.splitlines())
        self.assertEqual((out, status), ("refused 11 at 0\nbound 12 legs 1 2 4 6\n", 2))

    def test_layout(self):
        """Blank lines, comments, tabs, ends of lines, bytes that are no text, a last line without an end."""
        script = b"\n   \n#tree\n  # tree \xff\r\n" + FOUR.replace(" ", " \t").encode() + b"\ttree  \r\n\xff\xfe\nrule\t-007\ntree"
        out, said, status = command("calls", given=script)
        self.assertEqual((out, status), ("bound 10 legs 1 2 4 6\ndead\nbound 10 legs 1 2 4 6\n", 2))
        self.assertRegex(said, r"^error: line 7: '.*' is unknown; allowed are [a-z, ]+\n$")

    def test_first_bytes(self):
        """The mark with which some editors begin a text is no part of the first line."""
        self.assertEqual(command("calls", given="\ufeff" + FOUR + "tree\n"), ("bound 10 legs 1 2 4 6\n", "", 0))
        self.assertEqual(command("calls", given=FOUR + "\ufefftree\n")[2], 2)

    def test_long_lines(self):
        """A line that is too long is one line that cannot be read."""
        script = FOUR + "dues" + " 0" * 100_000 + "\ntree\n" + "dues" + " 0" * 3_000_000 + "\ndues 0 0 0 0\ntree\n"
        said = command("calls", given=script)
        self.assertEqual(said, ("refused 11 at 0\nbound 10 legs 1 2 4 6\n", "error: line 4: the line has 1048576 bytes or more\n", 2))

    def test_charts(self):
        """A chart from a file of any form resets the settings as a sea does; one that cannot be read changes nothing."""
        with tempfile.TemporaryDirectory() as folder:
            path = Path(folder, "my sea #1")
            planner.save(planner.load(ROOT / "examples/four.txt"), path, "tsplib")
            script = f"chart examples/sea.txt\ntree\ndues 5\nlist 5\nchart {path}  \ntree\nchart {folder}\ntree\n"
            out, said, status = command("calls", given=script)
        self.assertEqual((out, status), ("bound 334 legs 2 3 7 9 10 14 17 19 21 25 26\nbound 10 legs 1 2 4 6\nbound 10 legs 1 2 4 6\n", 2))
        self.assertEqual(said, f"error: line 7: {folder}: Is a directory\n")
        with tempfile.TemporaryDirectory() as folder:
            path = Path(folder, "wrong.txt")
            path.write_text("buoys 3\nx\ny\nz\n")
            said = command("calls", given=f"chart {path}\n")[1]
            self.assertRegex(said, r"^error: line 1: .*wrong.txt:2: 'x' is unknown; .*; and 2 more\n$")

    def test_json(self):
        out, _, status = command("calls", "--json", given=f"tree\n{FOUR}tree\nrule 12\nrule 9\nopen 12 0 0\nrun 9\ntell\nshow\n")
        self.assertEqual(status, 0)
        self.assertEqual([json.loads(line) for line in out.splitlines()], [
            {"line": 1, "call": "tree", "refused": 15, "place": 0, "meaning": "a chart that breaks the rules of legs and marks"},
            {"line": 3, "call": "tree", "bound": 10, "legs": [1, 2, 4, 6]},
            {"line": 4, "call": "rule", "bound": 10, "rulings": [0, 0, 0, 1, 2, 1]},
            {"line": 5, "call": "rule", "verdict": "dead"},
            {"line": 6, "call": "open", "verdict": "accepted"},
            {"line": 7, "call": "run", "verdict": "finished", "nodes": 5},
            {"line": 8, "call": "tell", "verdict": "cost", "cost": 12, "nodes": 5},
            {"line": 9, "call": "show", "legs": [1, 3, 4, 6]},
        ])  # fmt: skip

    def test_answers_come_at_once(self):
        """A person types: each answer is there before the next line is."""
        words = [sys.executable, ROOT / "planner", "calls"]
        with subprocess.Popen(words, stdin=subprocess.PIPE, stdout=subprocess.PIPE, env=os.environ) as process:
            for line, answer in ((FOUR + "tree\n", b"bound 10 legs 1 2 4 6\n"), ("open 12 0 0\n", b"accepted\n"),
                ("run 9\n", b"finished nodes 5\n")):
                process.stdin.write(line.encode())
                process.stdin.flush()
                self.assertEqual(process.stdout.readline(), answer)
            process.stdin.close()
            self.assertEqual(process.wait(), 0)

    def test_typed(self):
        """On a terminal too, where complaints stand between the answers; the end of input ends the script."""
        leader, follower = pty.openpty()
        words = [sys.executable, ROOT / "planner", "calls"]
        with subprocess.Popen(words, stdin=follower, stdout=follower, stderr=follower) as process:
            os.close(follower)
            for line, answer in ((FOUR + "tree\n", "bound 10 legs 1 2 4 6\r\n"), ("rule\n", "allowed is rule CEILING\r\n"),
                ("tell\n", "refused 20 at 0\r\n")):
                os.write(leader, line.encode())
                said = ""
                while not said.endswith(answer):
                    said += os.read(leader, 4096).decode()
            os.write(leader, b"\4")
            self.assertEqual(process.wait(timeout=30), 2)
        os.close(leader)

    def test_random_scripts(self):
        """Lists of calls on one record, held to the library's calls made one by one."""
        source = random.Random(16)
        for _ in range(12):
            script, answers, search = [], [], planner.Search()
            self.shelf = planner.Shelf()
            graph, self.q, self.lifting, self.ashore = planner.Graph(0), 1, False, None
            for _ in range(60):
                graph, line, call = self.step(source, graph, search)
                script.append(line)
                if call:
                    try:
                        answers.append(call())
                    except planner.Refused as refused:
                        answers.append(f"refused {refused.number} at {refused.place}")
            out, said, status = command("calls", given="\n".join(script))
            self.assertEqual((out.splitlines(), said, status), (answers, "", 0))

    def step(self, source, graph, search):
        """A random line, the chart after it, and what the line should print."""
        kinds = (
            "sea", "denominator", "lifting", "ashore", "tree", "preview", "rule", "recent", "open", "run", "run", "tell", "show", "show", "close", "save",
            "back",
        )  # fmt: skip
        kind = source.choice(kinds)
        if kind in ("save", "back"):
            name = source.choice((0, 1, 1, 2, 8, 9))
            call = self.shelf.save if kind == "save" else search.back
            return graph, f"{kind} {name}", lambda: call(search if kind == "save" else self.shelf, name) or "accepted"
        ceiling = source.choice((-20, 40, 90, 5_000_000_001))
        if kind == "sea":
            graph, self.q, self.lifting, self.ashore = random_graph(source, most=6), 1, False, None
            legs = (f"{edge.a}-{edge.b}:{edge.cost}{source.choice(('', 'm0')) if edge.mark == 0 else ' rs'[edge.mark]}" for edge in graph.edges)
            return graph, f"sea {graph.n} {' '.join(legs)}", None
        if kind == "denominator":
            self.q = source.choice((0, 1, 2, 7, 1_000, 1_001))
            return graph, f"denominator {self.q}", None
        if kind == "lifting":
            self.lifting = source.choice((False, True, True))
            return graph, f"lifting {'yes' if self.lifting else 'no'}", None
        if kind == "ashore":
            self.ashore = [source.choice((0, 0, 0, 0, 1, 1, 2)) if buoy else 0 for buoy in range(graph.n + source.choice((0, 0, 0, 0, 0, 1)))]
            return graph, f"ashore {' '.join(map(str, self.ashore))}", None
        chosen = {"denominator": self.q, "ashore": self.ashore}
        if kind == "tree":
            return graph, kind, lambda: bound_and(library.tree(graph, **chosen), "legs", "no tree")
        if kind == "preview":
            edge, mark = source.randint(0, graph.m + 1), source.choice((0, 1, 1, 2, 2, 3))
            return graph, f"preview {edge} {mark}", lambda: bound_and(library.preview(graph, edge, mark, **chosen), "legs", "no tree")
        if kind == "recent":
            last, log = source.choice((0, 1, 2, 32, 33)), [(source.randint(1, graph.m + 1), source.randint(-60, 60)) for _ in range(3)]
            words = " ".join(f"{leg}:{time}" for leg, time in log)
            try:
                made = planner.recent_costs(graph, last, log)
            except planner.Refused as refused:
                line = f"refused {refused.number} at {refused.place}"
                return graph, f"recent {last} {words}", lambda: line
            return made, f"recent {last} {words}", lambda: f"costs {' '.join(str(edge.cost) for edge in made.edges)}"
        if kind == "rule":
            return graph, f"rule {ceiling}", lambda: bound_and(library.rule(graph, ceiling, **chosen), "rulings", "dead")
        if kind == "open":
            sweeps, step = source.choice((0, 3, 16)), source.choice((0, 7, 10_001))
            chosen["lifting"] = self.lifting
            return graph, f"open {ceiling} {sweeps} {step}", lambda: search.open(graph, ceiling, sweeps, step, **chosen) or "accepted"
        if kind == "run":
            budget = source.choice((0, 1, 3, 2**40))
            return graph, f"run {budget}", lambda: ran_line(search.run(budget))
        if kind == "tell":
            return graph, kind, lambda: told_line(search.tell())
        if kind == "show":
            return graph, kind, lambda: f"legs {' '.join(map(str, search.show(graph.m)))}"
        return graph, kind, lambda: search.close() or "accepted"
