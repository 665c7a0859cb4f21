"""Rows of trusted replay: after each event it gives what the report of the run has, but for versions, of the classes that it keeps; and the reports beside."""

# Which classes each set can't have influenced.
KEPT = {"": ("Mine", "Yours", "Free"), " b": ("Mine",), " a": ("Yours",)}


def held(report, classes):
    """The objects of these classes in a report, without their versions."""
    lines = [line.split(" ") for line in report.decode().splitlines() if line.startswith("object ")]
    return [" ".join(words[:4] + words[5:]) for words in lines if words[3] in classes]


def rows(fill):
    events = fill("[TURNS]").split(";")[:-1]
    for count in range(len(events) + 1):
        for crashed in ("", "crash s;", "crash a;crash s;recover s;"):
            text = fill("[BOTH]", TURNS="".join(event + ";" for event in events[:count]) + crashed)
            for nodes, classes in KEPT.items():
                found = []

                def replayed(report, found=found, classes=classes):
                    found[:] = held(report, classes)
                    return True

                def trusted(output, found=found):
                    return output.decode() == "\n".join(["robust", *found, f"end {len(found)}", ""])

                yield f"{count} events, {crashed or 'all up'}, trust{nodes}", [("replay", text, 0, replayed), ("trust" + nodes, text, 0, trusted)]

    # what a hostile store answered stands in a box that nobody trusts, where it isn't endorsed
    for answer in ("09", "04"):
        line = f"object s1 c Box 2 {int(answer)}"
        yield f"answer {answer}", [("replay", fill("[UNENDORSED]", ANSWER=answer), 0, lambda report, line=line: line in report.decode().splitlines())]
