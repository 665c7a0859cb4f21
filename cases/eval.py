"""The row of many objects and of the requests over them."""


def rows(fill):
    roots = objects = requests = outcomes = ""
    last = "null"
    for number in range(1026):
        roots += f"root r{number}:B@s({number},{last});"
        objects += f"object s r{number} B {number} {last}\n"
        last = f"r{number}"
    for number, line in enumerate(fill("[LIMITS]").splitlines(), 1):
        request, ending = line.split(" => ")
        requests += request + ";"
        outcomes += f"outcome w {number} {ending}\n"
    text = fill("[DECLARED][MANY]") + "run{" + roots + "session w{" + requests + "}}"
    yield "many objects", [("eval", text, 0, outcomes + objects + "end\n")]
