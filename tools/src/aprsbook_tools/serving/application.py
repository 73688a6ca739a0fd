"""Which answer there is for which path. No path of a file is made of what was asked for."""
import tornado.web

from aprsbook_tools.formats import log_file
from aprsbook_tools.serving import events, page_answers, set_answers, told_answers
from aprsbook_tools.serving.answers import Nothing
from aprsbook_tools.serving.net import Net

NAME = f"({log_file.RECEIVER})"
DAY = r"(\d{4}-\d\d-\d\d)"
PATHS = [
    ("/", page_answers.Home),
    ("/login", page_answers.Login),
    ("/logout", page_answers.Logout),
    ("/aprsbook.html", page_answers.Page),
    ("/logs.txt", page_answers.Names),
    ("/logs/(.{1,200})", page_answers.LogFile),
    ("/tiles/(.{1,200})", page_answers.TileArchive),
    ("/events", events.Events),
    (f"/push/{NAME}/{DAY}", set_answers.Push),
    (f"/states/{NAME}", set_answers.States),
    (f"/desks/{NAME}", set_answers.Journal),
    ("/who", told_answers.Who),
    ("/told", told_answers.HowItGoes),
]


def application(net: Net) -> tornado.web.Application:
    of = {"net": net}
    return tornado.web.Application(
        [(path, handler, of) for path, handler in PATHS], default_handler_class=Nothing,
        default_handler_args=of, log_function=lambda _: None)
