"""Rows of words that can't be told by blanks: none at all, empty ones, ones with a blank, long ones and many."""

SMALLEST = "worker w1;store s1;run{}"
NOTHING = (1, "usage\n")
UNKNOWN = (6, f"name unknown at {len(SMALLEST)}\n")


def rows(fill):
    odd = [[], [""], ["flows", "A", ""], ["flows", "A ", "B"], ["view", "w1", ""], ["trust", "w1", ""], ["infer", ""], ["audit", ""], ["watch", "", "3"], ["watch", "a", ""], ["watch", "a", "3 "], ["drill", "7", "3 "], ["view", *["s1"] * 33], ["trust", *["s1"] * 33]]
    for words in odd:
        yield f"{words}", [(words, SMALLEST, *NOTHING)]
    # a name has at most 64 bytes, and at most 32 nodes are named
    for length, answer in [(63, UNKNOWN), (64, UNKNOWN), (65, NOTHING), (70000, NOTHING)]:
        yield f"a name of {length} bytes", [(["flows", "A", "b" * length], SMALLEST, *answer)]
    yield "32 nodes", [(["view", *["s1"] * 32], SMALLEST, 0, "end 0\n"), (["trust", *["s1"] * 32], SMALLEST, 0, "robust\nend 0\n")]
