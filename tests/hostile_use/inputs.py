"""The short inputs that faults are tried on, each with its command."""

PRINT_ONE = b"""seqtrace 1
process <0.30.0>
{seq_trace,17,{print,{0,1},<0.30.0>,[],7}}
acts
tracer <0.30.0> true
set <0.30.0> label 17
set <0.30.0> print true
print <0.30.0> 7
"""

# Two receives whose sends nobody reported, and two prints.
HIDDEN_SENDS = b"""seqtrace 1
process <0.30.0>
{seq_trace,17,{print,{0,1},<0.30.0>,[],7}}
{seq_trace,17,{'receive',{2,4},<0.31.0>,<0.30.0>,6}}
process <0.31.0>
{seq_trace,17,{'receive',{0,2},<0.30.0>,<0.31.0>,5}}
{seq_trace,17,{print,{2,3},<0.31.0>,[],8}}
"""

# The trace with the acts that explain it: the good text that is tampered with.
CERTIFICATE = HIDDEN_SENDS + b"""acts
tracer <0.30.0> true
restore <0.30.0> 17 false false true 0 0 <0.30.0>
print <0.30.0> 7
restore <0.30.0> 17 false true false 0 0 <0.30.0>
send <0.30.0> <0.31.0> 5
receive <0.31.0> place 0
restore <0.31.0> 17 false false true 0 0 <0.31.0>
print <0.31.0> 8
restore <0.31.0> 17 false true false 0 0 <0.31.0>
send <0.31.0> <0.30.0> 6
receive <0.30.0> place 0
"""

# The receiver's clock goes 5, 5, 6 and its last serial 5, 3, 3.
LOW_SERIAL = b"""seqtrace 1
process <0.30.0>
process <0.31.0>
process <0.32.0>
acts
tracer <0.30.0> true
set <0.30.0> label 1
""" + b"print <0.30.0> 0\n" * 4 + b"""send <0.30.0> <0.31.0> 5
set <0.32.0> send true
print <0.32.0> 0
print <0.32.0> 0
send <0.32.0> <0.31.0> 3
receive <0.31.0> first
receive <0.31.0> first
send <0.31.0> <0.30.0> 9
"""

# Four scripts that meet in sends, a reset and a tracer change: any order of them is right.
FOUR_SCRIPTS = b"""seqtrace 1
process <0.30.0>
process <0.31.0>
process <0.32.0>
process <0.33.0>
acts
tracer <0.30.0> true
set <0.30.0> label 17
set <0.30.0> send true
send <0.30.0> <0.31.0> 1
send <0.30.0> <0.32.0> 2
set <0.31.0> label 18
set <0.31.0> receive true
receive <0.31.0> first
send <0.31.0> <0.33.0> 3
print <0.31.0> 4
set <0.32.0> print true
receive <0.32.0> from <0.30.0>
print <0.32.0> 5
reset <0.32.0>
set <0.33.0> receive true
send <0.33.0> <0.33.0> 6
receive <0.33.0> value 6
look <0.33.0>
"""

# The greatest node, number, label, serial and value, in each kind of line that has one.
GREATEST = b"""seqtrace 2
process <0.0.0>
process <65535.65535.0>
{seq_trace,4294967295,{print,{0,1},<65535.65535.0>,[],18446744073709551615}}
acts
tracer <65535.65535.0> true
set <65535.65535.0> label 4294967295
set <65535.65535.0> print true
print <65535.65535.0> 18446744073709551615
printat <65535.65535.0> 4294967294 18446744073709551615
receive <0.0.0> value 18446744073709551615
receive <0.0.0> both <65535.65535.0> 18446744073709551615
receive <0.0.0> place 18446744073709551615
restore <0.0.0> 4294967295 true true true 18446744073709551615 18446744073709551615 <65535.65535.0>
clear <0.0.0>
"""

INPUTS = {
    "print_one": (("check",), PRINT_ONE),
    "hidden sends audited": (("audit",), HIDDEN_SENDS),
    "low serial replayed": (("replay",), LOW_SERIAL),
    "certificate checked": (("check",), CERTIFICATE),
    "hidden sends in a chart": (("chart", "--label", "17"), HIDDEN_SENDS),
    "one script driven": (("drive",), PRINT_ONE),
    "four scripts driven": (("drive",), FOUR_SCRIPTS),
}
