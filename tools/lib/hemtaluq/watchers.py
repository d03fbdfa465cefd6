"""A watcher of the library: the struct of the header, which is lent to each call on it."""


class Watcher:
    """Follows a run event by event. Each method answers the struct of its call; with a refusal nothing has changed.

    A call gets lists of the struct first, by the names and lengths that the header has for both, and then what the method is given."""

    def __init__(self, library):
        self.library, self.held = library, library.struct('hemtaluq_watcher')()

    def _call(self, name, *values):
        parameters = self.library.header.calls[name].parameters
        lists = [getattr(self.held, one.name) for one in parameters if one.length is not None]
        return self.library.call(name, *lists, *values)

    def open(self, data, weights, contents):
        """A run of the plant of a file opens with these contents, all machines in state 0; after a refusal the watcher is that of no plant."""
        return self._call('watch_open', data, weights, contents)

    def row(self, number):
        return self._call('watch_row', number)

    def loss(self, message_type):
        return self._call('watch_loss', message_type)

    def doubling(self, message_type):
        return self._call('watch_doubling', message_type)

    # What the struct holds of the run, for words about it.

    def state(self, machine):
        return self.held.states[machine]

    def content(self, message_type):
        return self.held.contents[message_type]

    @property
    def left(self):
        return self.held.counts[0]

    @property
    def progress_rows(self):
        return self.held.counts[1]

    @property
    def doublings(self):
        return self.held.counts[2]
