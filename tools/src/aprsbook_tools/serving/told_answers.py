"""Answers that say whose page it is, and how it goes."""
import time

from aprsbook_tools.serving.answers import Answer

DESK = "BASE"  # whose journal it is where nobody shows a token


class Who(Answer):
    """Who asks, what the net is, and the time here."""

    def get(self) -> None:
        name = {"desk": self.granted.name, "all": DESK}.get(self.granted.kind, "")
        self.tell({"kind": self.granted.kind, "name": name, "now": time.time(),
                   "net": self.net.told()})


class HowItGoes(Answer):
    """How many listen, what was written, and how large each log is."""

    def get(self) -> None:
        net, store = self.net, self.net.store
        self.tell({"listening": net.listening, "rounds": store.writing.count,
                   "journal": store.journal.written,
                   "sites": {name: it.pushed for name, it in net.sites.items()},
                   "logs": {name: log.size for name, log in net.hub.logs.items()}})
