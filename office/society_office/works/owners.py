"""Which works name a recording, by the versions that the book has: at a pool's cut, ever, and now. The only one of a cut owns it there."""

from typing import Any, NamedTuple

from society_office.book.copy import Copy

# A number above all numbers of files.
NEVER = 1 << 62
# What names recordings, each with the file of the work's next version: a version counts for cuts from its own file on, and below that one.
NAMED = f"""CREATE TEMP TABLE named AS
  SELECT r.isrc, r.sender, r.work, v.number, v.place, coalesce(n.number, {NEVER}) AS until
  FROM recordings r JOIN versions v USING (sender, work, revision)
  LEFT JOIN versions n ON n.sender = r.sender AND n.work = r.work AND n.revision = r.revision + 1"""
# The works of a cut that name the recording of a credit `c`.
AT_CUT = """temp.named n JOIN pool_cuts k ON k.sender = n.sender AND n.number <= k.number AND k.number < n.until
  WHERE n.isrc = c.isrc AND k.pool = c.pool"""
# How many they are; and the row of the one that owns the recording, where it is one.
CLAIMS = f"(SELECT count(*) FROM {AT_CUT})"
OWNER = f"(SELECT CASE count(*) WHEN 1 THEN min(n.rowid) END FROM {AT_CUT})"


class Claim(NamedTuple):
    """A version of a work that names a recording."""

    sender: str
    work: str
    number: int
    place: int
    until: int

    @property
    def is_last(self) -> bool:
        """Whether it is the work's version now."""
        return self.until == NEVER


class Owners:
    """All that names some recordings, in any version of a work; it stands in the table `named` as long as the copy is open."""

    def __init__(self, copy: Copy, which: str = "", *values: Any) -> None:
        """Of the recordings that a question lists, or of all where none is given."""
        self.copy = copy
        copy.listed("DROP TABLE IF EXISTS temp.named")
        copy.listed(f"{NAMED} WHERE r.isrc IN ({which})" if which else NAMED, *values)
        copy.listed("CREATE INDEX temp.named_by_isrc ON named (isrc)")

    def claims(self, rest: str, *values: Any) -> list[Claim]:
        """Those that a question's end singles out."""
        question = f"SELECT n.sender, n.work, n.number, n.place, n.until FROM {rest}"
        return [Claim(*it) for it in self.copy.listed(question, *values)]

    def row(self, owner: int) -> Claim:
        """The one of a row."""
        return self.claims("temp.named n WHERE n.rowid = ?", owner)[0]

    def at(self, isrc: str, pool: int) -> list[Claim]:
        """The works of a pool's cut whose version there names a recording."""
        return self.claims(f"(SELECT ? AS isrc, ? AS pool) c JOIN {AT_CUT} ORDER BY n.rowid", isrc, pool)

    def ever(self, isrc: str) -> list[Claim]:
        """All versions that name it."""
        return self.claims("temp.named n WHERE n.isrc = ? ORDER BY n.rowid", isrc)
