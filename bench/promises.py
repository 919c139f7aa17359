"""What a transcript says of the promises, read off its lines alone: a second reading, which shares nothing with the program.

A transcript is read event by event. `Reading` keeps the operations that were answered of each transaction, the decisions, and the records of the serial run
of what is decided; `faults` are the sentences that do not hold.
"""

OPERATIONS = ("read", "write", "erase", "scan")


class Reading:
    """One run, from the records that its opened logs gave."""

    def __init__(self, start):
        self.records = dict(start)
        self.homes, self.operations, self.decided = {}, {}, []
        self.acknowledged, self.aborted, self.sent = set(), set(), []
        self.event, self.committed, self.is_open, self.faults = None, [], False, []
        self.events = 0

    def line(self, text):
        """One line of the transcript, without its newline. Gives the answer, where the line is one."""
        words = text.split(" ")
        if words[1] == "event":
            self.event, self.committed = words[2:], []
            self.events += 1
        elif words[1] == "log":
            self.log(words[2], words[3], int(words[4]))
        elif words[1] == "send":
            self.sent.append(" ".join(words[2:]))
        else:
            self.reply(words[2:])
            return words[2:]
        return None

    def log(self, node, kind, number):
        if kind == "commit" and self.homes.get(number) == node:
            self.committed.append(number)
        if kind == "abort":
            self.aborted.add(number)

    def reply(self, answer):
        event = self.event
        if event[0] in ("begin", "local") and answer[0] == "begun":
            self.homes[int(event[1])] = event[2]
        for number in self.committed:
            self.decide(number)
        if event[0] in OPERATIONS and answer[0] in ("got", "missing", "rows", "done"):
            self.operations.setdefault(int(event[1]), []).append((event, answer))
        if answer == ["committed"]:
            self.acknowledged.add(int(event[1] if event[0] == "commit" else event[2]))
        if event[:2] == ["deliver", "decide"] and event[5] == "abort" and answer == ["dropped"]:
            self.aborted.add(int(event[2]))

    def decide(self, number):
        """The transaction is run whole on the records of those before it."""
        if number in self.decided:
            self.faults.append(f"{number} is decided twice")
        self.decided.append(number)
        for event, answer in self.operations.get(number, []):
            wanted = serve(self.records, event)
            if wanted != answer:
                self.faults.append(f"{number}: {' '.join(event)} was answered {' '.join(answer)}, and serially {' '.join(wanted)}")

    def end(self, records):
        """At the end: what was acknowledged is decided, no decided one was aborted, and the files give the serial records."""
        for number in self.acknowledged - set(self.decided):
            self.faults.append(f"{number} was acknowledged and is not decided")
        for number in self.aborted & set(self.decided):
            self.faults.append(f"{number} is decided and a member aborted it")
        if records != self.records:
            self.faults.append(f"the files give {sorted(records.items())[:6]}, and the serial run {sorted(self.records.items())[:6]}")
        return self.faults


def serve(records, event):
    """One operation on the records of the serial run, and its answer."""
    form, member, key = event[0], event[2], event[3]
    if form == "read":
        value = records.get((member, key))
        return ["missing"] if value is None else ["got", value]
    if form == "scan":
        rows = sorted((k, v) for (m, k), v in records.items() if m == member and key <= k <= event[4])
        return ["rows", str(len(rows)), *(word for row in rows for word in row)]
    if form == "write":
        records[member, key] = event[4]
    else:
        records.pop((member, key), None)
    return ["done"]


def records_of(text):
    """The records that `records DIR` wrote."""
    rows = [line.split(" ") for line in text.splitlines()]
    return {(node, key): value for node, key, value in rows}
