"""Answers that no longer fit the names of a changed body, mended by the names that the prover offers in their place.

The prover says of an answer which name it lost, a value's or its own goal's, and which names stand there now, the nearest
first. These are tried in turn. A body whose answers are all taken so keeps every clause. An answer for which no name is
left to try is left out.
"""
import difflib
import re
import sys

sys.dont_write_bytecode = True

# How often an answer whose names all stand is tried with the next name all the same.
RETRIES = 3


def as_word(name):
    """A name where it stands alone."""
    return re.compile(rf'(?<![^\s(.,{{]){re.escape(name)}(?![^\s).,;}}])')


class Answer:
    """An answer as it is kept, and the names that are tried in place of those that it lost, the current one first."""

    def __init__(self, text):
        self.text, self.names, self.retries = text, {}, 0
        self.kept = re.match(r'(?:pub )?(\S+)', text)[1]
        self.is_left_out = self.was_read = False

    def current(self):
        """The name that it has now."""
        return self.names[self.kept][0] if self.kept in self.names else self.kept

    def mended(self):
        text = self.text
        for name, offers in self.names.items():
            pattern = re.compile(rf'{re.escape(name)}(?![^\s().,;{{}}])') if name.startswith('.') else as_word(name)
            text = pattern.sub(lambda _: offers[0], text)
        return text

    def lose(self, name, offers):
        """Notes a name that it lost, for which the prover offers others."""
        # A name that was tried is lost too where its next one is due.
        tried = next((it for it, offered in self.names.items() if offered[0] == name), None)
        first, offers = (tried, self.names[tried][1:]) if tried else (name, offers)
        self.names[first] = offers
        if not offers:
            del self.names[first]
            self.is_left_out = True

    def next_name(self):
        """A name for which another is left to try, the last that was lost."""
        names = [it for it, offers in self.names.items() if len(offers) > 1]
        return names[-1] if names and self.retries < RETRIES else None

    def retry(self):
        """Goes on to the next name."""
        name = self.next_name()
        self.was_read, self.retries = True, self.retries + 1
        self.names[name] = self.names[name][1:]


class Answers:
    """The answers of a folder of proofs."""

    def __init__(self, text):
        blocks = re.split(r'(?m)^(?=(?:pub )?\S+ :(?: |$))', text)
        # Names that all of them import are mended in all at once.
        self.head, self.all, self.names = blocks[0], [Answer(it) for it in blocks[1:]], {}

    def text(self):
        text = self.head + ''.join(it.mended() for it in self.all if not it.is_left_out)
        for name, offers in self.names.items():
            text = as_word(name).sub(lambda _: offers[0] if offers else '', text)
        text = re.sub(r'\{(, )+', '{', re.sub(r'(, )+(?=, |\})', '', text))
        return re.sub(r'(?m)^use \S+\.\{\}\n', '', text)

    def of(self, name):
        return next((it for it in self.all if it.current() == name and not it.is_left_out), None)

    def lose(self, name, lost, offers):
        """Mends an answer that lost a name, or all where it is one that they import."""
        answer = self.of(name)
        if not answer:
            self.lose_import(lost, offers)
            return
        taken = {it.current() for it in self.all if not it.is_left_out}
        # (a name that some answer had before is seldom the one that came in place of another)
        offers = sorted((it for it in offers if it not in taken), key=lambda it: any(it in of.text for of in self.all))
        answer.lose(lost, offers)
        if lost.startswith('.') and offers:
            # (the others that name the value lose it too)
            for it in self.all:
                if it is not answer and lost in it.text and lost not in it.names:
                    it.names[lost] = [*offers]

    def lose_import(self, lost, offers):
        """Mends a name that is imported; where none is left to try, the answers that have it are left out."""
        tried = next((it for it, offered in self.names.items() if offered and offered[0] == lost), None)
        first = tried or lost
        nearest = sorted(offers, key=lambda it: -difflib.SequenceMatcher(None, it, lost).ratio())
        self.names[first] = self.names[first][1:] if tried else nearest
        for it in self.all:
            if not lost or (not self.names[first] and as_word(first).search(it.text)):
                it.is_left_out = True

    def retried(self, goal):
        """The answer of a goal, where it is one for which another name is left to try."""
        answer = self.of(goal)
        return answer if answer and answer.next_name() else None

    def unread(self):
        """The answers of which no names were found that all stand."""
        return [it.kept for it in self.all if it.is_left_out and not it.was_read]
