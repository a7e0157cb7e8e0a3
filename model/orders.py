"""Searches for an order of requests in which a model prints a text: chains run concurrently, and an open at any slot may take any free
one. A request is one step; with `splits` each entry of an update is a step of its own, so that other chains may come between two of
them."""
import re

from model.model import Player, chains_of, completion_line, severs

# the most states of a search
LARGEST_SEARCH = 200_000


class TooManyOrders(Exception):
    """The search was given up."""


def completion_of(line, place):
    """Returns the result and the bytes that a line has for a place, or None."""
    found = re.fullmatch(r"([0-9.]+) (-?[0-9]+)(?: ((?:[0-9a-f]{2})+))?", line)
    if not found or found[1] != "{}.{}.{}".format(*place):
        return None
    res, got = int(found[2]), bytes.fromhex(found[3] or "")
    return (res, got) if completion_line(place, res, got) == line else None


def pieces_of(request, res):
    """A request as one step or several, each with the result that it must have."""
    kind, *words = request
    if kind != "update" or res != len(words[1]):
        return [(request, res)]
    return [(("update", words[0] + nth, [it], nth), 1) for nth, it in enumerate(words[1])]


def steps_of_chain(chain, places, lines, splits):
    """The steps of the members that were started: place, request, result and bytes; None unless the lines are a chain's."""
    steps, is_severed = [], False
    for (request, linked_by), place, line in zip(chain, places, lines):
        completion = completion_of(line, place)
        if completion is None or is_severed and completion != (-125, b""):
            return None
        if not is_severed:
            res, got = completion
            pieces = pieces_of(request, res) if splits else [(request, res)]
            steps += [(place, piece, res, got) for piece, res in pieces]
            is_severed = severs(request, linked_by, res)
    return steps


def steps_of(requests, submission, lines, splits):
    """The steps of each chain, or None."""
    chains, at = [], 0
    for nth, chain in enumerate(chains_of(requests), 1):
        places = [(submission, nth, member) for member in range(1, len(chain) + 1)]
        steps = steps_of_chain(chain, places, lines[at : at + len(chain)], splits)
        if steps is None:
            return None
        chains.append(steps)
        at += len(chain)
    return chains if at == len(lines) else None


def reached(first, moves):
    """Each player with its place that moves lead to, once; what a move leads to comes before what the next one leads to."""
    seen, stack = set(), [iter([first])]
    while stack:
        found = next(stack[-1], None)
        if found is None:
            stack.pop()
            continue
        player, at = found
        key = tuple(player.slots), player.range, player.submissions, player.registrations, at
        if key not in seen:
            seen.add(key)
            yield found
            stack.append(iter(moves(player, at)))


class Search:
    """A search for the orders in which a model writes the lines of a text."""

    def __init__(self, lines, splits):
        self.lines, self.splits, self.looked_at = lines, splits, 0

    def spend(self):
        self.looked_at += 1
        if self.looked_at > LARGEST_SEARCH:
            raise TooManyOrders

    def moves(self, player, chains, at):
        """The players and places after one step of each chain, the least done first. A step that changes nothing comes alone."""
        found = []
        for done, nth in sorted(zip(at, range(len(chains)))):
            if done < len(chains[nth]):
                place, request, res, got = chains[nth][done]
                # a read leaves the player as it is
                after = player if request[0] == "read" else player.copy()
                after.wanted = res
                if after.perform(place, request) == (res, got):
                    found.append((after, (*at[:nth], done + 1, *at[nth + 1 :])))
                    if request[0] == "read" or res < 0 and request[0] != "update":
                        return found[-1:]
        return found

    def ends(self, player, chains):
        """Every player that is left when the chains have made their steps."""
        goal = tuple(map(len, chains))
        for after, at in reached((player, (0,) * len(chains)), lambda player, at: self.moves(player, chains, at)):
            self.spend()
            if at == goal:
                yield after

    def after_submission(self, player, requests, begin):
        end = begin + len(requests)
        chains = steps_of(requests, player.submissions + 1, self.lines[begin:end], self.splits)
        if chains is None:
            return
        begun = player.copy()
        begun.submissions += 1
        for after in self.ends(begun, chains):
            closes = after.closed_lines()
            if self.lines[end : end + len(closes)] == closes:
                yield after, end + len(closes)

    def after(self, player, command, begin):
        """The players after a command that begins to write at that line, and where the next one begins."""
        before = player.copy()
        if command[0] == "submit" and not before.refusal_of_submission(command[1]):
            yield from self.after_submission(before, command[1], begin)
            return
        lines = before.command(*command)
        if self.lines[begin : begin + len(lines)] == lines:
            yield before, begin + len(lines)

    def ending(self, player, commands):
        def moves(player, at):
            nth, begin = at
            if nth < len(commands):
                for after, line in self.after(player, commands[nth], begin):
                    yield after, (nth + 1, line)

        for after, (nth, line) in reached((player, (0, 0)), moves):
            if nth == len(commands) and after.end() == self.lines[line:]:
                return after
        return None


def ending_of(script, text, make=Player, splits=False):
    """Returns the player at the end of a play of the script that writes the text, or None if no order does."""
    player = make(script.files)
    if player.play(script.commands) == text:
        return player
    if text and not text.endswith("\n"):
        return None
    return Search(text.split("\n")[:-1], splits).ending(make(script.files), script.commands)
