"""What operators were told, beside what a day's journal has.

  moments_of(events, before)                the plain desk after each beginning of a journal's events, and of each operator what counts for `mine`
  unmatched(told, events, moments, ..)      the first answer to an operator that the journal doesn't bear out, with what is wrong, or None
  when_of(told, events, moments, ..)        when each event of an operator was sent and told
  Clock(times)                              which events are in at a moment of the clock
  seen_in(told, moments, ..)                which events an operator saw in the answers to questions, and when
  is_event(line, answer)                    whether a line that was answered so is an event
  answer_by(desk, line)                     the plain answer to a question
"""
import bisect
import itertools
import math
import re

import plain

MANY = ('orders', 'positions', 'steps', 'refusals', 'execution', 'allocation', 'sessions', 'report')   # these have answers of several lines


class Own:
    """What one operator was told: which numbers count for `mine`, which are of allocations, and what each of the withdrawals took out."""

    def __init__(self, before=None):
        self.counts, self.booked, self.withdrawn = set(), set(), {}
        if before:
            self.counts, self.booked, self.withdrawn = set(before.counts), before.booked, before.withdrawn

    def tell(self, event, word, number):
        """A withdrawal that is undone still counts, until its number itself is redone."""
        if word == 'accepted' and isinstance(event, plain.Command):
            self.booked = self.booked | {number}
            self.counts.add(number)
        elif word == 'accepted':
            self.withdrawn = {**self.withdrawn, number: event.withdrawn}
            self.counts.discard(event.withdrawn)
        elif word == 'undone':
            self.counts.discard(number)
        elif number in self.booked:
            self.counts.add(number)
        else:
            self.counts.discard(self.withdrawn.get(number))


class Moment:
    """The plain desk after so many of a journal's events, with what was answered to the last; what each operator was told; and who made each step and
    each refused command."""

    def __init__(self, before=None, party=None, event=None):
        self.desk, self.answer, self.own, self.makers, self.refused, self.asked = plain.Desk(), None, {}, {}, (), {}
        if before is None:
            return
        old = before.desk
        self.desk.entries, self.desk.done, self.desk.undone, self.desk.next_number = old.entries, list(old.done), list(old.undone), old.next_number
        self.desk.history, self.own, self.makers, self.refused = list(old.history), before.own, before.makers, before.refused
        self.answer = plain.printed([plain.step(self.desk, event)])
        self.note(party, event)

    def note(self, party, event):
        said = re.fullmatch(r'(accepted|undone|redone)\t(\d+)\n', self.answer)
        if said and said[1] == 'accepted':
            self.makers = {**self.makers, int(said[2]): party[1]}
        if not said and isinstance(event, (plain.Command, plain.Withdraw)):
            self.refused = (*self.refused, party[1])
        if said and party[0] == 'operator':
            self.own = {**self.own, party[1]: Own(self.own.get(party[1]))}
            self.own[party[1]].tell(event, said[1], int(said[2]))

    def newest_of(self, name):
        """The number that `mine` of an operator withdraws."""
        return max(self.own[name].counts, default=None) if name in self.own else None

    def answer_to(self, line, name, who):
        """The answer to a question, where said with who made what. A refusal has no place, since what only asks has one too and is in no journal."""
        if line == 'mine':
            return 'none\n' if self.newest_of(name) is None else None
        if line not in self.asked:
            self.asked[line] = placeless(self.answer_with_makers(line, who))
        return self.asked[line]

    def answer_with_makers(self, line, who):
        told, words = answer_by(self.desk, line), line.split('\t')
        if who and words[0] in ('steps', 'refusals') and not told.startswith('bad'):
            made = [self.makers[it.number] for it in self.desk.done] if words[0] == 'steps' else self.refused
            *rows, end = told.splitlines()
            told = ''.join(f'{row}\t{maker}\n' for row, maker in zip(rows, reversed(made))) + f'{end}\n'
        return told


def placeless(told):
    return re.sub(r'^refusal\t\d+\t', 'refusal\t', told, flags=re.M)


def answer_by(desk, line):
    """The plain answer to a question. That it was asked isn't noted."""
    history = list(desk.history)
    try:
        return plain.printed(plain.answer(desk, line))
    except plain.Bad as bad:
        return plain.printed([('bad', *bad.args)])
    finally:
        desk.history = history


def moments_of(events, before=None):
    """The moments of these events, where those of some first ones may be known."""
    moments = list(before or [Moment()])
    for party, event in events[len(moments) - 1:]:
        moments.append(Moment(moments[-1], party, event))
    return moments


def is_event(line, answer):
    """Whether a line that was answered so is an event of the operator's."""
    return (plain.event_asked(line) is not None) or line == 'mine' and answer not in ('none\n',)


def brings(line, event, moment, name):
    """Whether a line of an operator is this event, at a moment."""
    return event == (plain.Withdraw(moment.newest_of(name)) if line == 'mine' else plain.event_asked(line))


def when_of(told, events, moments, name, spans):
    """Of each event of an operator its place, when its line was sent and when it was told; if several lines may have brought it, the first and the last of
    these moments."""
    for place, (party, event) in enumerate(events):
        if party == ('operator', name):
            times = [(sent, came) for line, answer, life, sent, came in told if spans[life][0] <= place < spans[life][1]
                     and answer in (None, moments[place + 1].answer) and brings(line, event, moments[place], name)]
            yield place, (min((sent for sent, _ in times), default=-math.inf), max((came for _, came in times), default=math.inf))


class Clock:
    """Which events of a journal are in at a moment, by the clock of those who send and are told. Of each event it has when it was sent, and when somebody was
    told of it, or infinity. If an event is in, all before it are."""

    def __init__(self, times):
        self.sent = list(itertools.accumulate((sent for sent, _ in times), max))
        self.told = [*itertools.accumulate((told for _, told in reversed(times)), min)][::-1]
        early = [place for place, (sent, _) in enumerate(times) if sent > self.told[place]]
        self.wrong = f'event {early[0]} was told, or one behind it, before it was sent' if early else None

    def least(self, moment):
        """How many events were told before a moment: what is asked then has all of them."""
        return bisect.bisect_left(self.told, moment)

    def most(self, moment):
        """How many events were sent by a moment: what is told then has no others."""
        return bisect.bisect_right(self.sent, moment)


def seen_in(told, moments, name, spans, who, clock):
    """Of each answer to a question the last event without which it can't be right, by its place, and when the answer came."""
    for line, answer, life, sent, came in told:
        if answer is not None and not is_event(line, answer):
            places = range(max(spans[life][0], clock.least(sent)), spans[life][1] + 1)
            least = next((it for it in places if moments[it].answer_to(line, name, who) == placeless(answer)), 0)
            if least:
                yield least - 1, came


def unmatched(told, events, moments, name='operator', spans=None, who=False, clock=None):
    """The first line whose answer the journal doesn't bear out, with what is wrong, or None: the best of all ways to take what wasn't answered. `told`
    has the lines in order, each with its answer, or None where none came. Where the day had several lives, each line has three things more, in which
    life it was typed, when it was sent and when it was answered; `spans` has the events of each life, from one place to another, and `clock` the times."""
    own = [place for place, (party, _) in enumerate(events) if party == ('operator', name)]
    farthest, failed = [0, 'nothing'], set()

    def matched(at, place, used):
        """Whether the lines from this one on are borne out, from this moment on, where so many of the operator's events are used."""
        begin = at, place, used
        if begin in failed:
            return False
        failed.add(begin)
        while at < len(told):
            line, answer, *when = told[at]
            first, last = spans[when[0]] if spans else (0, len(events))
            place = max(place, first)
            following = own[used] if used < len(own) else len(events)
            if following < first:
                fail(at, f'nobody typed event {following}, {events[following]}, in the life before that of {line!r}')
                return False
            if is_event(line, answer):
                is_there = following < last and brings(line, events[following][1], moments[following], name)
                if answer is None:
                    if is_there and matched(at + 1, following + 1, used + 1):
                        return True
                elif not is_there or moments[following + 1].answer != answer:
                    there = events[following:following + 1], moments[min(following + 1, len(events))].answer
                    fail(at, f'{line!r} was told {answer!r}; the journal has {there} at {following} of {first} to {last}')
                    return False
                else:
                    place, used = following + 1, used + 1
            elif answer is not None:
                low, high = max(place, clock.least(when[1]) if clock else 0), min(following, last, clock.most(when[2]) if clock else last)
                found = next((it for it in range(low, high + 1) if moments[it].answer_to(line, name, who) == placeless(answer)), None)
                if found is None:
                    fail(at, f'{line!r} was told {answer!r}, at no moment from {low} to {high}')
                    return False
                place = found
            at += 1
        if used < len(own):
            fail(at, f'the journal has {len(own) - used} events that nobody typed: {events[own[used]]}')
            return False
        failed.discard(begin)
        return True

    def fail(at, why):
        farthest[:] = max(farthest, [at, why])

    return None if matched(0, 0, 0) else farthest[1]
