"""Written scripts: for each rule by which a node differs, what both do, and what only a node does.

Acts have semicolons between; a and b are processes of one node, c is one of another, and other
letters are spawned ones.
"""

#: The script, and the rules by which it differs. A component set on no token always replies
#: otherwise, so each script that does that names `set-reply`.
WRITTEN = {
    "set-last": ("tracer a true; set a print true; print a 1; clear a; set a print true; print a 2",
                 ["set-last", "set-reply"]),
    "set-serial": ("set a label 1; send a a 1; receive a first; clear a; set a label 1; look a",
                   ["set-serial", "set-reply"]),
    "set-reply": ("set a label 1", ["set-reply"]),
    "restore-counts": ("tracer a true; restore a 1 false false true 3 5 a; print a 1",
                       ["restore-counts", "restore-reply"]),
    "restore-from": ("restore a 1 false false false 0 0 b; look a",
                     ["restore-from", "restore-reply"]),
    "restore-reply": ("restore a 1 false false false 0 0 a", ["restore-reply"]),
    # A receive that matches nothing moves no token.
    "no-match": ("set a label 1; send b a 1; receive a value 2; look a", ["set-reply"]),
    # The one that is taken of two queued messages gives the token.
    "taken": ("tracer a true; set a receive true; send a b 1; set a label 1; send a b 2;"
              "receive b value 2; look b; receive b first; look b", ["set-reply"]),
    # A message that a process sent without a token takes the receiver's token away.
    "plain": ("set a label 1; send b a 1; receive a first; look a", ["set-reply"]),
    # A message with an older count leaves the clock and sets last.
    "older": ("set a label 1; print a 1; print a 2; set b label 2; send b a 1; receive a first;"
              "print a 1; look a", ["set-reply"]),
    # A print stamps without its flag too, and whether or not a tracer is on; at another label not.
    "print": ("set a label 1; print a 1; look a; printat a 1 1; look a; printat a 2 1; look a",
              ["set-reply"]),
    # A reset takes the tokens of this node's processes and of their queued messages, and no others.
    "reset": ("set a label 1; send a b 1; send a c 1; set b label 1; set c label 1; reset a;"
              "look a; look b; look c; receive b first; look b; receive c first; look c",
              ["set-reply"]),
    # It leaves the tracer on.
    "reset-tracer": ("tracer a true; reset a; tracer a true", []),
    # Each node has a tracer of its own.
    "tracer": ("tracer a true; tracer c true; tracer b false", []),
}

FLAGS = "tracer a true; set a send true; set a receive true; set a print true"
CHILDREN = "defghijklmnopqrstuvw"
NODE_ONLY = {
    # Each spawn makes the counts of the process sixteen times as great, so twenty wrap them.
    "spawns": FLAGS + "".join(f"; spawn a {child}; print a 1; send a {child} 1; "
                              f"receive {child} first" for child in CHILDREN),
    "chain": FLAGS + "".join(f"; spawn {parent} {child}; print {parent} 1; print {child} 2"
                             for parent, child in zip("a" + CHILDREN, CHILDREN)),
    # The count after the greatest is the least.
    "greatest": f"tracer a true; restore a 1 true true true 0 {2**59 - 3} a; print a 1; print a 2;"
                "print a 3; look a; send a b 1; receive b first; look b; print b 1",
    # Counts are compared without their signs.
    "negative": f"tracer a true; restore a 1 true true true 0 {-2**59} a; print a 1;"
                "restore b 1 true true true 0 5 b; send b a 1; receive a first; print a 1",
    # After the answer the clock has more bits than a serial shows: the message's count is less.
    "hidden": f"tracer a true; restore a 1 true true true 0 {2**57} a; spawn a d;"
              "restore b 1 true true true 0 99 b; send b a 1; receive a first; print a 1; look a",
    # Without a token a spawn moves nothing.
    "no-token": FLAGS + "; clear a; spawn a d; look d; request a e; look e; set a print true;"
                        "print a 1",
    "request": FLAGS + "; request a d; look a; look d; print a 1; print d 1",
}
