"""Rows of bundles that are made up: the text by its rule, that it is canonical and rightly labelled, and what drills of it come to."""

HEAD = """principal Bank;
worker w0;
worker w1;
worker w2;
worker w3;
store s0;
store s1;
w0 actsfor Bank;
w1 actsfor Bank;
w2 actsfor Bank;
w3 actsfor Bank;
s0 actsfor Bank;
s1 actsfor Bank;
label T = {Bank ->; Bank <-};
class Account label T access T { int balance; }
method move(Account a : T, Account b : T, int n : T) begin T fails {
  a.balance = a.balance - n;
  b.balance = b.balance + n;
}
run {
"""


def balances(number, size):
    return {(worker, at): 1000 + (number + 7 * at + 13 * worker) % 100 for worker in range(4) for at in range(size)}


def made(number, size):
    roots = "".join(f"  root a{worker}_{at} : Account @ s{at % 2} ({held});\n" for (worker, at), held in balances(number, size).items())
    sessions = ""
    for worker in range(4):
        moves = "".join(f"    move(a{worker}_{at}, a{worker}_{(at + 1) % size}, {1 + (number + at) % 9});\n" for at in range(size))
        sessions += f"  session w{worker} {{\n{moves}  }}\n"
    return HEAD + roots + sessions + "}\n"


def rows(fill):
    for number, size in [(0, 1), (7, 3), (99, 2), (1234567, 40), (4294967295, 12), (4294967295, 1000), (0, 1000)]:
        text = made(number, size)
        runs = [(f"gen {number} {size}", "", 0, text), ("fmt", text, 0, text), ("check", text, 0, "ok\n")]
        yield f"{number} {size}", runs
    for number, size in [(0, 1), (93, 2), (4294967295, 5)]:
        total = sum(balances(number, size).values())
        count = 4 * size
        yield f"drill {number} {size}", [(f"drill {number} {size}", "", 0, f"requests {count} committed {count} objects {count} total {total}\n")]
