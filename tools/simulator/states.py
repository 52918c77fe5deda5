"""The states that the banks of a server may have: after a stop, and in a copy that was made while it was at work."""

from __future__ import annotations

from dataclasses import replace

import banks
from simulator.model import Model
from simulator.wire import Mark, Pending, Record, bag_of, book_of, differing, lines_of, short, state_lines


class Kept:
    """What was known of a server at a moment, to go back to: what its banks said since was not synced, and no server
    was ready over it, so it may be lost still."""

    def __init__(self, model: Model) -> None:
        self.ids, self.told, self.taken, self.top = dict(model.ids), dict(model.told), dict(model.taken), model.top
        self.records = {client: replace(it, replies=dict(it.replies)) for client, it in model.records.items()}

    def go_back(self, model: Model) -> None:
        model.ids, model.told, model.taken, model.top = dict(self.ids), dict(self.told), dict(self.taken), self.top
        model.records = {client: replace(it, replies=dict(it.replies)) for client, it in self.records.items()}


def settle(model: Model, state: banks.State) -> None:
    """The banks after a stop: all that was answered is there, and what was unanswered was done or not."""
    book = book_of(state)
    if strangers := set(book) - set(model.records):
        model.fail("the banks have clients that sent nothing:", sorted(strangers))
    replies = [(client, reply_now(model, client, record, book)) for client, record in model.records.items()]
    for client, reply in sorted((it for it in replies if it[1]), key=lambda it: it[1][0] != "Stored"):
        model.note(f"the banks have {short(reply)} for client {client}")
        model.done(client, reply)
    for place in model.ids.keys() - model.told.keys():
        model.fail(f"tuple {place} was offered or read, and the banks do not have it:", short(model.ids[place]))
    found, wanted = lines_of(state), lines(model)
    if found != wanted:
        model.fail("the banks have", differing(found, wanted))


def reply_now(model: Model, client: int, record: Record, book: dict[int, tuple[int, tuple]]) -> tuple:
    """The reply to a client's unanswered message, if the banks have it."""
    number, reply = book.get(client, (0, ()))
    pending = record.pending
    if pending and number == pending.number:
        return reply
    if number != record.last:
        model.fail(f"client {client}: the banks have number {number}, but {record.last} was answered,",
                   "and unanswered is", short(pending))
    if reply != record.reply:
        model.fail(f"client {client}: the banks have {short(reply)} for number {number}, but it was answered",
                   short(record.reply))
    if pending and pending.is_done:
        model.fail(f"client {client} was welcome with number {pending.number}, and the banks have {number}")
    return ()


def lines(model: Model) -> list[str]:
    """The state that must be there if nothing is unanswered."""
    following = max(model.told, default=0) + 1
    if never := set(range(1, following)) - set(model.told):
        model.fail("ids that were never given, below", following, sorted(never)[:10])
    book = {client: (it.last, it.reply) for client, it in model.records.items() if it.last}
    return state_lines(following, model.bag(), book)


def mark(model: Model) -> Mark:
    return Mark({client: it.last for client, it in model.records.items()},
                {client: replace(it.pending) for client, it in model.records.items() if it.pending})


def check_copy(model: Model, what: str, found: list[str], before: Mark, after: Mark) -> None:
    """A state that was read while the server was at work: each client between its last answered number before and the
    last one sent after, all else by these numbers."""
    deeds: list[tuple[tuple, tuple | None]] = []
    book: dict[int, tuple[int, tuple]] = {}
    for words in (line.split(" ", 5) for line in found if line.startswith("client ")):
        client, number = int(words[1]), int(words[2])
        least, most = before.last.get(client, 0), after.most(client)
        if not least <= number <= most:
            model.fail(f"{what}: client {client} has number {number}, answered before {least}, sent {most}")
        replies, own = dict(model.record(client).replies), None
        if number > after.last.get(client, 0):
            own = after.pending[client]
            replies[number] = unanswered(model, words)
        book[client] = number, replies[number]
        first = model.first[1].last.get(client, 0) + 1
        deeds += [(replies[at], tuple_put(own) if own and at == number else None) for at in range(first, number + 1)]
    for client, last in before.last.items():
        if last and client not in book:
            model.fail(f"{what}: client {client} is not there, and had number {last}")
    wanted = state_lines(*after_deeds(model, deeds), book)
    if found != wanted:
        model.fail(f"{what}: it has", differing(found, wanted))


def after_deeds(model: Model, deeds: list[tuple[tuple, tuple | None]]) -> tuple[int, dict[int, tuple]]:
    """The next id and the tuples after deeds, each given by its reply and, if its id does not say it, by its tuple."""
    first = model.first[0]
    following, bag = first.next, bag_of(first)
    for reply, what in deeds:
        if reply[0] == "Stored":
            following = max(following, reply[1] + 1)
            bag[reply[1]] = what or model.ids.get(reply[1], ())
    for reply, _ in deeds:
        if reply[0] == "Taken":
            bag.pop(reply[1], None)
    return following, bag


def tuple_put(pending: Pending) -> tuple | None:
    return pending.parts.get("tuple")


def unanswered(model: Model, words: list[str]) -> tuple:
    """The reply to a message that was unanswered, as the words of a line give it."""
    name = words[3].capitalize()
    if name == "Taken":
        return name, int(words[4]), model.ids.get(int(words[4]), ())
    return (name, int(words[4])) if name == "Stored" else (name,)
