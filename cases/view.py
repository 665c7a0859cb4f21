"""Rows of views that grow: after each event the messages are a front of those after the next, whatever the pin, and as often as it is asked."""

# How many messages the hostile store was sent by each event.
SENT = [0, 0, 0, 0, 0, 1, 1, 1, 2, 2, 2, 2, 3]


def rows(fill):
    events = fill("[EVENTS]").split(";")
    messages = fill("[TO_BOX]").splitlines(keepends=True)
    for count, sent in enumerate(SENT):
        schedule = "".join(event + ";" for event in events[:count])
        for pin in ("1234", "5678"):
            text = fill("[PINS]", PIN=pin, SCHEDULE=schedule)
            yield f"{count} events, pin {pin}", [("view h1", text, 0, "".join(messages[:sent]) + f"end {sent}\n")]
