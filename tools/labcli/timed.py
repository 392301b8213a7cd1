"""The events of links and LANs in a flat text: `modify` becomes `rates`, by what the link has at that time."""
from . import quantities
from .quantities import written

PLAIN = (10_000, 100_000, 1_000_000)


def rates_of(link):
    """Gives the kbps, microseconds and millionths that a link or LAN has by its own settings, or None where one isn't readable."""
    if not (link.bandwidth and link.delay):
        return None
    lost = [change[1] for change in link.changes if change[0] == "loss"]
    return link.bandwidth.number, link.delay.number, (lost or [0])[-1]


def is_shaped(rates):
    """Whether a link or LAN of these rates gets delay nodes."""
    kbps, micros, ppm = rates
    return micros >= 2000 or ppm > 0 or kbps not in PLAIN


def modified(asked, call, rates, changes):
    """Gives the rates behind a `modify` with these words. A bandwidth without a unit is in kbps, a delay in milliseconds."""
    rates = list(rates)
    for change in changes:
        name, _, word = change.partition("=")
        place = {"BANDWIDTH": 0, "DELAY": 1, "PLR": 2, "LOSS": 2}.get(name.upper())
        read = [lambda it: quantities.bandwidth(it, 1000), lambda it: quantities.delay(it, 1000), quantities.loss]
        quantity = read[place](word) if place is not None else None
        if quantity:
            rates[place] = quantity.number
            if quantity.told:
                asked.change(call.line, quantity.told, True)
        else:
            asked.leave(call.line, f"{change} of the event: an event changes BANDWIDTH, DELAY and PLR", True)
    return tuple(rates)


class Course:
    """The events of one link or LAN, by time."""

    def __init__(self, asked, link, texts):
        self.asked, self.link, self.texts = asked, link, texts
        self.own = self.now = rates_of(link)
        self.is_down = False

    def take(self, number, call, event):
        """Gives the event's words for the flat text, and none where it is left out."""
        what = event[1]
        if what in ("up", "down"):
            self.is_down = what == "down"
            is_changed = what == "up" and self.now != self.own
            self.texts[number] = [self.link.word, *(self.rates() if is_changed else event[1:])]
        elif what == "rates":
            self.texts[number] = event
        else:
            self.now = modified(self.asked, call, self.now, event[2:])
            if self.is_down:
                self.asked.change(call.line, "the link is down at that time, so these rates come when it is up", True)
            else:
                self.texts[number] = [self.link.word, *self.rates()]

    def rates(self):
        kbps, micros, ppm = self.now
        return ["rates", written("bandwidth", kbps), written("delay", micros), written("loss", ppm)]


def timed_texts(asked):
    """Gives the words of each event, by its number: a time, and what changes. An event that is left out isn't there."""
    texts, courses = {}, {}
    times = {number: quantities.time(word) for number, (_, word, _) in enumerate(asked.timed)}
    for number in sorted(times, key=lambda it: times[it].number if times[it] else 0):
        call, _, event = asked.timed[number]
        link = asked.links[event[0]]
        rates = rates_of(link)
        if rates and not is_shaped(rates):
            asked.leave(call.line, "nothing shapes this link, so no delay node can change it: give it a delay of 2 ms or more", True)
        elif rates:
            course = courses.setdefault(event[0], Course(asked, link, texts))
            course.take(number, call, event)
        else:
            texts[number] = event
    return {number: (times[number].text if times[number] else asked.timed[number][1], text) for number, text in texts.items()}
