"""What cose-verify, cose-key and cose-make do alike: arguments, lines, output and how they end."""

import argparse
import calendar
import errno
import os
import re
import subprocess
import sys
import time


def write_all(fd, data):
    """Writes without a buffer, so that nothing is left to be written at the end."""
    while data:
        data = data[os.write(fd, data):]


def say(*lines):
    """Writes lines on standard error; what a terminal would obey is escaped. As of the other programs it doesn't matter if that fails."""
    try:
        write_all(2, "".join(CONTROL.sub(escape, line) + "\n" for line in lines).encode("ascii", "backslashreplace"))
    except OSError:
        pass


CONTROL = re.compile(r"[\0-\x1f\x7f]")


def escape(control):
    return f"\\x{ord(control[0]):02x}"


def end(kind, error, _):
    """Ends after an error that isn't expected. Python's own status, 1, would mean that items were refused."""
    if kind is not KeyboardInterrupt:
        say(f"{os.path.basename(sys.argv[0])}: {kind.__name__}: {error}")
    os._exit(130 if kind is KeyboardInterrupt else 70)


sys.excepthook = end

from cose_cbor import Refused, show

try:
    import cryptography
except ImportError:
    say("python3-cryptography isn't there; Debian has it as a package")
    sys.exit(70)

# Those of IANA's registry (RFC 8392, 8747, 9200 and 9711), by their names in JSON.
CLAIMS = {name: number for first, names in (
    (1, "iss sub aud exp nbf iat cti cnf scope nonce"), (38, "ace_profile cnonce exi"),
    (256, "ueid sueids oemid hwmodel hwversion uptime oemboot dbgstat location eat_profile submods"),
    (267, "bootcount bootseed dloas swname swversion manifests measurements measres intuse"))
    for number, name in enumerate(names.split(), first)}
HERE = os.path.dirname(os.path.realpath(__file__))


# What argparse says of arguments, and what is said here.
SAID = (
    (r"the following arguments are required: (.*)", r"\1 is missing"),
    (r"one of the arguments (\S+) (\S+) is required", r"one of \1 and \2 is missing"),
    (r"argument (\S+): not allowed with argument (\S+)", r"\2 and \1: one of them"),
    (r"argument (\S+): expected one argument", r"\1: a word has to follow"),
    (r"argument (\S+): ignored explicit argument .*", r"\1: it takes no word"),
    (r"argument (\S+): ", r"\1: "))


class Parser(argparse.ArgumentParser):
    """The arguments of a tool. Its help is its doc string, which begins with the line of usage."""

    def __init__(self, name, help):
        super().__init__(prog=name, usage=help.split("\n")[0].removeprefix("usage: "), add_help=False, allow_abbrev=False)
        self.help = help

    def arguments(self):
        words = sys.argv[1:sys.argv.index("--") if "--" in sys.argv else None]
        if "-h" in words or "--help" in words:
            self.show(self.help)
        if "--version" in words:
            self.show(f"{self.prog} {version()}")
        for word in words:
            if re.match("-[^0-9]", word) and not {word.split("=")[0], word[:2]} & self._option_string_actions.keys():
                self.error(f"{word}: no such option")
        terms, others = self.parse_known_intermixed_args()
        for word in others:
            self.error(f"{word}: one word too many")
        return terms

    def show(self, text):
        write_all(1, (text + "\n").encode())
        sys.exit(0)

    def error(self, message):
        for pattern, said in SAID:
            message = re.sub("^" + pattern, said, message)
        say(f"usage: {self.usage}", "  " + message, f"  {self.prog} --help has all options")
        sys.exit(2)


def worded(make, words):
    """A type of arguments, whose error is in words."""
    def made(text):
        try:
            return make(text)
        except (ValueError, KeyError):
            raise argparse.ArgumentTypeError(f"{show(text)} {words}") from None
    return made


HEX = worded(bytes.fromhex, "isn't hex")


def version():
    """What scripts/install.sh or scripts/package.sh wrote beside this file; in a checkout what they would write."""
    try:
        with open(os.path.join(HERE, "version"), encoding="ascii") as file:
            return file.read().strip()
    except OSError:
        made = subprocess.run(["sh", os.path.join(HERE, "..", "scripts", "version.sh")], capture_output=True, text=True)
        return made.stdout.strip() or "(version unknown)"


def seconds(text):
    """Seconds since 1970: a number of them, or a time such as 2026-11-27T21:44:19Z."""
    return calendar.timegm(time.strptime(text, "%Y-%m-%dT%H:%M:%SZ")) if "T" in text else whole_number(text)


def whole_number(text):
    """A whole number that CBOR has, so of 64 bits."""
    number = int(text)
    if not -1 << 64 <= number < 1 << 64:
        raise ValueError("a number of more than 64 bits")
    return number


UNITS = {"s": 1, "m": 60, "h": 3600, "d": 86400}


def span(text):
    """So many seconds: 90, 90s, 5m, 1h or 1d."""
    return int(text[:-1]) * UNITS[text[-1]] if text[-1:] in UNITS else int(text)


def opened(path):
    """A file that is named, to be read; of - standard input."""
    try:
        return open(0 if path == "-" else path, "rb")
    except OSError as error:
        raise Refused(f"{path}: {why(error)}") from None


def read(path):
    """The bytes of a file that is named; of - standard input."""
    with opened(path) as file:
        try:
            return file.read()
        except OSError as error:
            error.filename = "standard input" if path == "-" else path
            raise


def why(error):
    """Why a file can't be used, as the proved programs say it."""
    said = {errno.ENOENT: "no such file", errno.EACCES: "no permission", errno.EISDIR: "a folder", errno.EEXIST: "it is there already"}
    return said.get(error.errno, error.strerror)


def output(name, path, mode, is_text):
    """A new file to write to, or standard output; a terminal gets only text."""
    if path is None and not is_text and sys.stdout.isatty():
        say(f"{name}: this isn't written to a terminal; add > FILE or -o FILE")
        sys.exit(2)
    try:
        return 1 if path is None else os.open(path, os.O_WRONLY | os.O_CREAT | os.O_EXCL, mode)
    except FileNotFoundError:
        raise OSError(None, "no such folder", path) from None


def write(name, data, path, mode, is_text=False):
    """Writes a new file, whole or not at all, or standard output."""
    fd = output(name, path, mode, is_text)
    try:
        write_all(fd, data)
        os.close(fd)
    except OSError as error:
        if path is not None:
            os.unlink(path)
        error.filename = path or "standard output"
        raise


def run(name, main):
    """Ends with the status of main: 3 if something is refused, 4 if an input or output fails, or memory is out."""
    if None in (sys.stdin, sys.stdout, sys.stderr):
        sys.exit(4)     # a file that is opened would be in the place of the closed one
    try:
        status = main()
    except Refused as refused:
        say(f"{name}: {refused}")
        status = 3
    except RecursionError:
        say(f"{name}: too many levels")
        status = 3
    except MemoryError:
        say(f"{name}: out of memory")
        status = 4
    except BrokenPipeError:     # its reader went away
        status = 4
    except OSError as error:
        say(f"{name}: {error.filename or 'input or output'}: {why(error)}")
        status = 4
    sys.exit(status)
