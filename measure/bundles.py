#!/usr/bin/env python3
"""Writes the bundles that costs are measured by into the folder that is given."""
import os
import sys

FOLDER = sys.argv[1]


def put(name, text):
    assert len(text) <= 4_194_304, (name, len(text))
    with open(os.path.join(FOLDER, name), "w", encoding="ascii") as file:
        file.write(text)


# ---- one write a request, over one object

WRITE = "worker w1;store s1;label P={};class C label P access P{int f;}method m(C c:P)begin P fails{c.f=c.f+1;}run{root r1:C@s1(0);session w1{"
for name, n in [("writes.fab", 100_000), ("writes-half.fab", 50_000)]:
    put(name, WRITE + "m(r1);" * n + "}}\n")

# ---- evaluations alone

put("loop.fab", "worker w1;store s1;label P={};method m(int n:P)begin P{int i:P=0;while(i<n){i=i+1;}}run{session w1{m(499999);}}\n")
put("walks.fab", "worker w1;store s1;label P={};class C label P access P{int f;C next;}method m(C c:P)begin P fails{while(c!=null){c=c.next;}}"
    "run{root r0:C@s1(0,null);" + "".join(f"root r{i}:C@s1({i},r{i - 1});" for i in range(1, 1024)) + "session w1{" + "m(r1023);" * 100 + "}}\n")

# ---- lists whose objects are fetched one by one; `view s1` shows all that is sent

HEAD = "principal Bank;worker w1;store s1;w1 actsfor Bank;s1 actsfor Bank;label T={Bank->;Bank<-};class Node label T access T{int v;Node next;}"
WALK = "method walk(Node a:T)begin T fails{Node c:T=a;int s:T=0;%swhile(c!=null){s=s+c.v;c=c.next;}}"


def listed(n, name="r"):
    return "".join(f"root {name}{i}:Node@s1({i},{f'{name}{i + 1}' if i + 1 < n else 'null'});" for i in range(n))


def fetched(n):
    return "begin w1;resume w1;" + "deliver w1 s1;deliver s1 w1;resume w1;" * n + "deliver w1 s1;deliver s1 w1;deliver w1 s1;"


def attempt(name, methods, request, n):
    put(name, HEAD + methods + "run{" + listed(n) + "session w1{" + request + "}schedule{" + fetched(n) + "}}\n")


for n in [1024, 512, 256]:
    attempt(f"list-{n}.fab", WALK % "", "walk(r0);", n)
attempt("turns.fab", WALK % "int i:T=0;while(i<100000){i=i+1;}", "walk(r0);", 1024)
attempt("deep.fab", "method go(Node a:T)begin T fails{int s:T=0;if(a!=null){s=a.v;go(a.next);}}", "go(r0);", 63)
NESTED = "method go(Node a:T,int k:T)begin T fails{if(k>0){" + "atomic T{" * 16 + "go(a,k-1);" + "}else{}" * 16 + "}else{walk(a);}}"
attempt("nested.fab", WALK % "" + NESTED, "go(r0,60);", 1000)

# ---- six requests over lists of 1,024, the first four of which fill the cache, and what is asked last is in it

LISTS = "".join(listed(1024, f"r{j}x") for j in range(4))
SIX = "".join(f"walk(r{j}x0);" for j in [0, 1, 2, 3, 0, 0])
KEPT = "begin w1;resume w1;" + "resume w1;" * 1024 + "deliver w1 s1;deliver s1 w1;deliver w1 s1;"
put("cached.fab", HEAD + WALK % "" + "run{" + LISTS + "session w1{" + SIX + "}cache 4096;schedule{" + fetched(1024) * 4 + KEPT * 2 + "}}\n")

# ---- transfers of four workers in turn between accounts at two stores, fourteen events each


# what a store does behind all else: the same bundle with this at its end and without it tell what a recovery costs
RECOVERED = "crash s1;recover s1;"


def transfers(name, n, end=""):
    workers = [f"w{i}" for i in range(1, 5)]
    text = ["principal Bank;"] + [f"worker {x};" for x in workers] + ["store s1;store s2;"] + [f"{x} actsfor Bank;" for x in [*workers, "s1", "s2"]]
    text += ["label T={Bank->;Bank<-};class Account label T access T{int balance;}"
             "method transfer(Account a:T,Account b:T,int n:T)begin T fails{a.balance=a.balance-n;b.balance=b.balance+n;}run{"]
    text += [f"root a{x}:Account@s1(1000000);root b{x}:Account@s2(0);" for x in workers]
    text += [f"session {x}{{" + "".join(f"transfer(a{x},b{x},{1 + j % 7});" for j in range(n // 4)) + "}" for x in workers]
    one = "begin W;resume W;deliver W s1;deliver s1 W;resume W;deliver W s2;deliver s2 W;resume W;deliver W s1;deliver W s2;deliver s1 W;deliver s2 W;deliver W s1;deliver W s2;"
    turn = "".join(one.replace("W", x) for x in workers)
    put(name, "".join(text) + "schedule{" + turn * (n // 4) + end + "}}\n")


transfers("transfers-19992.fab", 1_428)
transfers("transfers-56000.fab", 4_000)
transfers("transfers-99960.fab", 7_140)
transfers("transfers-99960-recovered.fab", 7_140, RECOVERED)

# ---- many workers in turn make 256 objects a request at one store: a new name goes into the midst of the others


def made(name, workers, requests, end="", roots=0):
    names = [f"w{i}" for i in range(workers)]
    text = "principal Bank;" + "".join(f"worker {x};" for x in names) + "store s1;" + "".join(f"{x} actsfor Bank;" for x in [*names, "s1"])
    text += "label T={Bank->;Bank<-};class Node label T access T{int v;}method make(int n:T)begin T{int i:T=0;Node c:T=null;while(i<n){c=new Node@s1(i);i=i+1;}}run{"
    text += "".join(f"root r{i}:Node@s1({i});" for i in range(roots))
    counts = [len(range(j, requests, workers)) for j in range(workers)]
    text += "".join(f"session {x}{{" + "make(256);" * count + "}" for x, count in zip(names, counts))
    one = "begin W;resume W;deliver W s1;deliver s1 W;deliver W s1;"
    put(name, text + "schedule{" + "".join(one.replace("W", names[j % workers]) for j in range(requests)) + end + "}}\n")


made("made-100096.fab", 31, 391)
made("made-50176.fab", 31, 196)
made("made-one-worker.fab", 1, 391)
made("made-before-roots.fab", 1, 391, roots=1_000)
made("made-100096-recovered.fab", 31, 391, RECOVERED)
made("made-one-worker-recovered.fab", 1, 391, RECOVERED)
made("made-before-roots-recovered.fab", 1, 391, RECOVERED, 1_000)

# ---- transactions of a hostile worker that stay prepared, each reads so many objects that nobody writes


def oid(store, class_, number):
    return f"{store:04x}{class_:04x}ffff{0:08x}{number:08x}ffff0000"


def prepare(worker, number, objects):
    return "0104" + f"{worker:04x}{1:08x}{number:08x}" + f"{len(objects):04x}" + "".join(x + f"{1:08x}" for x in objects) + "00000000"


def ended(kind, worker, number):
    return f"01{kind:02x}{worker:04x}{1:08x}{number:08x}"


def hostile(count):
    """Names of nodes: the honest worker, hostile ones, the store; and the head."""
    others = [f"x{i}" for i in range(count)]
    head = "principal Bank;worker w1;" + "".join(f"hostile worker {x};" for x in others) + "store s1;"
    head += "".join(f"{x} actsfor Bank;" for x in ["w1", *others, "s1"]) + "label T={Bank->;Bank<-};class Node label T access T{int v;Node next;}"
    return others, count + 1, head


MOVE = "method move(Node a:T,Node b:T,int n:T)begin T fails{a.v=a.v-n;b.v=b.v+n;}"
MOVES = "begin w1;resume w1;" + "deliver w1 s1;deliver s1 w1;resume w1;" * 2 + "deliver w1 s1;deliver s1 w1;deliver w1 s1;"


def posted(lines):
    """The lines of posts, and their events."""
    return ("".join(f'post {x}->s1"{bytes_}";' for x, bytes_ in lines), "".join(f"post {x};deliver {x} s1;" for x, _ in lines))


def prepared(name, count, transactions, reads, body, request, times, events, end=""):
    others, store, head = hostile(count)
    roots = "root a:Node@s1(1000000,null);root b:Node@s1(0,null);" + "".join(f"root k{i}:Node@s1({i},null);" for i in range(8)) + listed(1024)
    held = [oid(store, 0, 2 + i) for i in range(8)]
    lines = [(others[j % count], prepare(1 + j % count, 1 + j // count, sorted(held[(j + i) % 8] for i in range(reads)))) for j in range(transactions)]
    posts, come = posted(lines)
    put(name, head + body + "run{" + roots + "session w1{" + request * times + "}" + posts + "schedule{" + come + events * times + end + "}}\n")


prepared("prepared-10000.fab", 30, 10_000, 4, MOVE, "move(a,b,1);", 1_000, MOVES)
prepared("prepared-5000.fab", 30, 5_000, 4, MOVE, "move(a,b,1);", 1_000, MOVES)
prepared("prepared-5000-recovered.fab", 30, 5_000, 4, MOVE, "move(a,b,1);", 1_000, MOVES, RECOVERED)
for n in [10, 100, 1_000]:
    prepared(f"prepared-{n}.fab", 30, n, 4, MOVE, "move(a,b,1);", 1, MOVES)
prepared("prepared-large.fab", 30, 5_000, 4, WALK % "", "walk(r0);", 4, fetched(1024))

# ---- honest workers that stop where they have prepared 256 new objects each


def stopped(name, count, times):
    names = [f"y{i}" for i in range(count)]
    text = "principal Bank;worker w1;" + "".join(f"worker {x};" for x in names) + "store s1;" + "".join(f"{x} actsfor Bank;" for x in ["w1", *names, "s1"])
    text += "label T={Bank->;Bank<-};class Node label T access T{int v;Node next;}" + MOVE
    text += "method make(int n:T)begin T{int i:T=0;Node c:T=null;while(i<n){c=new Node@s1(i,c);i=i+1;}}run{root a:Node@s1(1000000,null);root b:Node@s1(0,null);"
    text += "session w1{" + "move(a,b,1);" * times + "}" + "".join(f"session {x}{{make(256);}}" for x in names)
    put(name, text + "schedule{" + "".join(f"begin {x};resume {x};deliver {x} s1;" for x in names) + MOVES * times + "}}\n")


stopped("stopped.fab", 30, 5_000)

# ---- the same, given up in the order of preparing, or in the other


def released(name, transactions, forth, end=""):
    count = 30
    others, store, head = hostile(count)
    lines = [(others[j % count], prepare(1 + j % count, 1 + j // count, [oid(store, 0, j % 8)])) for j in range(transactions)]
    order = range(transactions) if forth else reversed(range(transactions))
    lines += [(others[j % count], ended(7, 1 + j % count, 1 + j // count)) for j in order]
    posts, come = posted(lines)
    put(name, head + "run{" + "".join(f"root k{i}:Node@s1({i},null);" for i in range(8)) + posts + "schedule{" + come + end + "}}\n")


released("released-forth.fab", 5_000, True)
released("released-back.fab", 5_000, False)
released("released-forth-recovered.fab", 5_000, True, RECOVERED)

# ---- recoveries in a replay, and fetches

put("recoveries.fab", "worker w1;store s1;run{schedule{" + "crash w1;recover w1;" * 10_000 + "}}\n")
put("crashes-99960.fab", "worker w1;store s1;run{schedule{" + "crash s1;recover s1;" * 49_980 + "}}\n")
FETCH = "01010000000000010000000100010000ffff0000000000000000ffff0000"
put("posts.fab", "principal Bank;hostile worker x1;store s1;s1 actsfor Bank;label T={Bank->;Bank<-};class Account label T access T{int balance;}"
    "run{root a:Account@s1(100);" + f'post x1->s1"{FETCH}";' * 10_000 + "schedule{" + "post x1;deliver x1 s1;" * 10_000 + "}}\n")
