"""An audit of a whole book: an empty office gets all that was sent, and has to come to the same."""

import contextlib
from collections.abc import Callable, Iterator

from society_office.book.copy import TABLES, Copy, open_copy
from society_office.offices.asking import Connections
from society_office.offices.program import ANSWER, trial_of, trial_office
from society_office.second_office.comparing import Difference, compare, summary
from society_office.second_office.resending import Tally, resend


@contextlib.contextmanager
def as_newest(copy: Copy, program: str) -> Iterator[Copy]:
    """The copy, an older one as the program takes it over."""
    if copy.layout == max(TABLES):
        yield copy
        return
    with trial_of(program, copy) as trial:
        trial.end()
        with open_copy(trial.database) as found:
            yield found


def rebuild(copy: Copy, program: str, tell: Callable[[], None]) -> tuple[Tally, list[Difference], str]:
    """What became of what was sent, how the rebuilt office differs from the copy, and how much it holds."""
    with trial_office(program, copy.office_words) as trial:
        office = Connections(trial.office.address, 0, least=ANSWER)
        tally = resend(copy, office, False, tell)
        office.close()
        trial.end()
        with open_copy(trial.database) as rebuilt, as_newest(copy, program) as whole:
            return tally, compare(whole, rebuilt), summary(rebuilt)
