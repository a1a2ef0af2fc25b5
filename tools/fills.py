"""The fills of files in a picture. They differ with and without colour."""
from readers import OLD, SUCCESS, UNKNOWN

# For each attempt number: its fill, the colour of texts on it, and lines over the fill.
FILLS = [("#2b5f9e", "#fff", ""), ("#ffc46b", "#000", "M0 6L6 0"), ("#bfe3c0", "#000", "M0 3H6"), ("#d9c7ee", "#000", "M3 0V6"),
         ("#f6b3a8", "#000", "M0 0L6 6M0 6L6 0"), ("#fff3a6", "#000", "M0 0L6 6")]
PLAIN = {"old": ("#dcdcdc", "#000"), "marker": ("#111", "#fff"), "unknown": ("#fff", "#000")}


class Styles:
    """The fills of old files, of the files of each attempt number of each job, and of others."""

    def __init__(self, run):
        self.kinds = sorted({self.kind(name) for name in run.files})
        self.used = set()

    @staticmethod
    def kind(name):
        """A job's letter, if there are two jobs, and the number of the attempt."""
        job, _, attempt = name.rpartition(" ")
        return job, int(attempt.partition(".")[2])

    def of(self, path, whose):
        """The fill and the ink of a file."""
        name = "old" if whose == OLD else "marker" if path == SUCCESS else "unknown" if whose == UNKNOWN else None
        self.used.add(name or self.kind(whose[0]))
        if name:
            return PLAIN[name]
        at = self.kinds.index(self.kind(whose[0])) % len(FILLS)
        return f"url(#fill{at})", FILLS[at][1]

    def legend(self):
        """Each fill that is used, and its meaning."""
        texts = {"old": "old file", "marker": f"{SUCCESS}, with its job's letter" if self.kinds and self.kinds[0][0] else f"{SUCCESS} of this job",
                 "unknown": "file of nobody"}
        for it in ("old", *self.kinds, "marker", "unknown"):
            if it in self.used:
                at = None if it in texts else self.kinds.index(it) % len(FILLS)
                yield (PLAIN[it][0] if at is None else f"url(#fill{at})"), texts[it] if at is None else self.text(it)

    def text(self, kind):
        job, attempt = kind
        whose = f"job {job}" if job else ""
        if sum(it[0] == job for it in self.kinds) > 1:
            whose += f"{', ' if job else ''}attempt {attempt}"
        return f"new file of {whose}" if whose else "new file"

    def patterns(self):
        for at, (fill, _, lines) in enumerate(FILLS[:len(self.kinds)]):
            over = f'<path d="{lines}" stroke="#000" stroke-width="0.7"/>' if lines else ""
            yield (f'<pattern id="fill{at}" width="6" height="6" patternUnits="userSpaceOnUse"><rect width="6" height="6" fill="{fill}"/>'
                   f"{over}</pattern>")
