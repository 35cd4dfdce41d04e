"""Judges what clients were told and what servers showed, once all is over."""
from faults import OUT
from verdicts import Question, edition_in, shown

MOST_SHOWN = 5


def lost_commits(told, rows):
    """The commits that the publisher was told of and the log has not."""
    held = {row[0]: tuple(row) for row in rows}
    return [f"edition {one.edition} was told, and the log does not have it" for one in told if held.get(one.edition) != (one.edition, one.map, one.lines)]


def is_odd(odd, edition, *moments, name=None):
    """Whether this edition may be that of a server that had just got an edit behind the log's back, at all of these moments."""
    return any(
        one.edition <= edition and name in (None, one.name) and all(one.sent <= moment <= one.moment + OUT for moment in moments) for one in odd
    )


def differing_servers(seen, rows, odd):
    """Servers that were in rotation and held something else than the log says for their edition."""
    maps = {0: "0" * 32, **{row[0]: row[1] for row in rows}}
    wrong = [one for one in seen if maps.get(one.edition) != one.map and not is_odd(odd, one.edition, one.moment, name=one.name)]
    return [f"{one.name} was in rotation with edition {one.edition}, map {one.map}" for one in wrong]


class Replies:
    """The replies of all clients, as the oracle sees them."""

    def __init__(self, clients, books, odd):
        self.clients, self.books, self.odd = clients, books, odd
        self.questions, self.different, self.of_odd = {}, 0, 0

    def is_wanted(self, line, reply):
        """Whether a reply is the oracle's over the edition that it names."""
        edition = edition_in(reply)
        if line not in self.questions:
            self.questions[line] = Question(line, self.books.oracle)
        return edition in self.books.by_edition and reply == self.questions[line].wanted(self.books.by_edition[edition])

    def wrong(self):
        """The replies that are wrong. (A server that differs is in rotation for a moment: its edition is the odd one's or later.)"""
        found = []
        for client in self.clients:
            for (line, reply), (first, last) in client.replies.items():
                self.different += 1
                if self.is_wanted(line, reply):
                    continue
                if is_odd(self.odd, edition_in(reply) or 0, first, last):
                    self.of_odd += 1
                else:
                    found.append(f"{shown(line)}\n    got {shown(reply)}")
        return found


def judge(fleet, watch, faults):
    """Prints what was seen; what was wrong."""
    publisher, rows = fleet.publisher, fleet.database.rows()
    replies = Replies(watch.clients, publisher.books, faults.odd)
    groups = {
        "replies": replies.wrong(),
        "editions on one connection": [fall for client in watch.clients for fall in client.falls],
        "servers in rotation": differing_servers(watch.sampling.seen, rows, faults.odd),
        "commits that were told of": lost_commits(publisher.told, rows),
        "publisher": [publisher.trouble] if publisher.trouble else [],
        "faults": faults.wrong,
    }
    count, lost = sum(client.count for client in watch.clients), sum(client.lost for client in watch.clients)
    print(f"{count} replies, {replies.different} different ones; {replies.of_odd} of a server that had just got an odd edit; {lost} connections lost")
    print(f"{len(publisher.told)} commits told of, {publisher.untold} found in the log, {len(rows)} in the log; {publisher.restarts} publishers")
    print(f"{len(watch.sampling.seen)} looks at servers in rotation")
    for what, number in faults.counts.items():
        print(f"{number} times: {what}")
    slow = faults.slowest
    out = f"a server that differs out after {slow['out']:.2f} s, named after {slow['named']:.2f} s"
    print(f"slowest: the log's edition after {slow['level']:.2f} s; {out}")
    return [f"{what}, {len(texts)} in all: {text}" for what, texts in groups.items() for text in texts[:MOST_SHOWN]]
