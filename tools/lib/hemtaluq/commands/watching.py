"""A run followed event by event: watch."""
from .. import events
from ..amounts import contents_for, in_words, weights_for
from ..options import AMOUNTS, add_contents, add_weights
from ..outcomes import NO, REFUSED, YES, BadInput, Outcome, Refused, accepted
from ..printing import tell
from ..texts import arriving, counted, grouped, is_number, opened
from ..watchers import Watcher
from ..words import DOUBLING, named, where_in_amounts

ORDER = 22

WATCH = '''Follow a run event by event, and say after each event how many quiet rows (rows without progress) are left: the ceiling for the progress
rows and doublings so far, less the quiet rows so far. The run opens with the contents, and all machines in their first states. A quiet
row takes 1 from what is left, a progress row adds G and a doubling n × w (`hemtaluq weigh` tells them); a loss changes nothing of it.
%s

Events come from a file or from standard input, a line each, and each line is answered as it comes, so that a pipe can be followed:

%s
An event that cannot happen is refused with 27 (a row) or 28 (a loss or doubling), a progress row or doubling after 1,000,000 of its sort with
29; it is told why, and nothing changes. So it is with a line that says no event, which is told with its number on standard error. At the end,
or on Ctrl-C, it is summed up. Exit status: 0 all events were accepted, 1 some were refused, 2 the opening was refused, or a line
says no event.''' % (DOUBLING, events.__doc__.split('\n', 2)[2])

# The sorts of events, as they are summed up.
SORTS = ('quiet row', 'progress row', 'loss', 'doubling')


class Run:
    """A run that is watched. Each line of it comes to an outcome; the verdicts are those of the proved calls."""

    def __init__(self, library, plant):
        self.library, self.plant, self.watcher, self.width = library, plant, Watcher(library), events.widest(plant)
        self.accepted, self.refused, self.unread = dict.fromkeys(SORTS, 0), 0, 0

    def open(self, weights, contents):
        answer = accepted(self.library, self.watcher.open(self.plant.data, weights, contents), where_in_amounts(self.plant, weights, contents))
        said = {'answer': 'opened', 'left': answer.left, 'weights': named(self.plant, weights), 'contents': named(self.plant, contents)}
        opening = 'opened with ' + in_words(self.plant, contents) if self.plant.types else 'opened'
        return Outcome(YES, said, self.columns(opening, '%d left' % answer.left))

    def columns(self, event, verdict):
        return '%s  %s' % (event.ljust(self.width), verdict)

    def line(self, path, number, text):
        """What a line comes to. One that says no event is told, and the run goes on."""
        try:
            if isinstance(text, BadInput):
                raise text
            event = events.parsed(self.plant, path, number, text)
        except BadInput as wrong:
            self.unread += 1
            return Outcome(REFUSED, wrong.answer(), '', str(wrong))
        return self.event(number, event)

    def event(self, line, event):
        about = {'line': line, **events.as_answer(self.plant, event)}
        names = events.in_names(self.plant, event)
        try:
            answer = accepted(self.library, getattr(self.watcher, event.kind)(event.number), events.why(self.plant, self.watcher, event))
        except Refused as refused:
            self.refused += 1
            return Outcome(NO, {**refused.answer(), **about}, self.columns(names, 'refused %d: %s' % (refused.number, refused.where or refused.words)))
        self.accepted[self.sort(event)] += 1
        return Outcome(YES, {'answer': 'remaining', 'left': answer.left, **about}, self.columns(names, '%d left' % answer.left))

    def sort(self, event):
        """The sort of an event that was accepted."""
        if event.kind != 'row':
            return event.kind
        return 'progress row' if self.plant.rows[event.number][1].progress else 'quiet row'

    def summary(self):
        """What the run came to, with the states and contents that it was left in."""
        plant, watcher, happened = self.plant, self.watcher, sum(self.accepted.values())
        states = {machine.name: machine.states[watcher.state(m)] for m, machine in enumerate(plant.machines)}
        contents = [watcher.content(t) for t in range(len(plant.types))]
        said = {'answer': 'watched', 'left': watcher.left, 'accepted': happened, 'refused': self.refused, 'unread': self.unread,
                'quiet': self.accepted['quiet row'], 'progress': watcher.progress_rows, 'losses': self.accepted['loss'], 'doublings': watcher.doublings,
                'states': states, 'contents': named(plant, contents)}
        unread = ', %s not understood' % counted(self.unread, 'line') if self.unread else ''
        text = ['%s accepted, %s refused%s; %d left' % (counted(happened, 'event'), grouped(self.refused), unread, watcher.left),
                'accepted: ' + ', '.join(counted(count, sort) for sort, count in self.accepted.items()),
                'states: ' + ', '.join('%s %s' % pair for pair in states.items())]
        text += ['contents: ' + in_words(plant, contents)] if plant.types else []
        return Outcome(REFUSED if self.unread else NO if self.refused else YES, said, '\n'.join(text))


def amounts_for(plant, arguments):
    """The weights and the contents. A file of events that stands behind them is taken for one of them, which is hard to see; a file of weights or
    contents stands alone."""
    try:
        return weights_for(plant, arguments), contents_for(plant, arguments)
    except BadInput as wrong:
        given = arguments.contents or arguments.weights
        if len(given) < 2 or '=' in given[-1] or is_number(given[-1]):
            raise
        raise BadInput('%s (EVENTS stands behind PLANT, before -w and -c)' % wrong) from None


def watch(library, arguments):
    run, path = Run(library, arguments.plant), arguments.events
    opening = run.open(*amounts_for(run.plant, arguments))
    source = opened(path)
    try:
        tell(opening, arguments.json)
        for number, text in arriving(path, source):
            tell(run.line(path, number, text), arguments.json)
    except (KeyboardInterrupt, BrokenPipeError):
        pass  # Whoever watches, or reads what is printed, has enough. The run is summed up as far as it was followed.
    return run.summary()


def add(commands):
    one = commands.add('watch', watch, 'follow a run event by event: how many quiet rows are left', WATCH,
                       '  hemtaluq watch plant.txt events.txt -w request=2 answer=1 -c request=3 answer=4\n'
                       '  tail -f bus.log | hemtaluq watch plant.txt -w weights.txt --json\n\n' + AMOUNTS)
    one.add_argument('events', metavar='EVENTS', nargs='?', default='-', help='the text of the events (default: standard input); it stands behind PLANT')
    add_weights(one)
    add_contents(one)
