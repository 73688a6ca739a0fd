"""aprs-net token: the tokens of a net that is served."""
import argparse

from aprsbook_tools import arguments, stdout
from aprsbook_tools.errors import ExitStatus, Fault
from aprsbook_tools.serving import tokens

DESCRIPTION = """\
Makes a token, adds it to FILE, which nobody else may read, and prints it. `receiver NAME` may push
the logs of NAME, `feed NAME` too, with other receivers' names in its lines, `desk NAME` may read
the page and write down what desk NAME says, and `read NAME` may read it. Who should no longer is
taken out by --remove, or in an editor: `aprs-net serve` needs no restart. Without KIND and NAME it
prints whose tokens there are."""


EXAMPLES = [
    ("a site's token, to be taken there", "aprs-net token tokens receiver HILL"),
    ("that of a desk", "aprs-net token tokens desk GATE"),
    ("its end", "aprs-net token --remove tokens desk GATE"),
]


def add_arguments(parser: argparse.ArgumentParser) -> None:
    parser.add_argument("--remove", action="store_true", help="take the token of NAME away")
    parser.add_argument("file", metavar="FILE", help="the file of the tokens")
    parser.add_argument("kind", nargs="?", choices=tokens.KINDS, metavar="KIND",
                        help=", ".join(tokens.KINDS))
    parser.add_argument("name", nargs="?", type=arguments.receiver, metavar="NAME",
                        help="of the receiver, the desk or the reader")


def run(args: argparse.Namespace) -> int:
    if (args.kind is None) != (args.name is None) or args.remove and args.kind is None:
        raise Fault("a KIND has a NAME", ExitStatus.ARGUMENTS)
    if args.kind is None:
        grants, faults = tokens.read_grants(args.file)
        stdout.write("".join(f"{it}\n" for it in [*grants, *faults]).encode())
    elif args.remove:
        tokens.remove(args.file, args.kind, args.name)
    else:
        stdout.write(f"{tokens.add(args.file, args.kind, args.name)}\n".encode())
    return 0
