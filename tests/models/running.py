"""How the scripts run the program: by which arguments, and with which bound on its time."""
import subprocess

from legal_model import Fault, want


def make_ready(program):
    """Runs the program once, so that it is built, and reports that, before its answers are compared."""
    subprocess.run([program, "run"], input=b"", stdout=subprocess.DEVNULL)


def words_of(slots, option="--slots"):
    """The words of a run whose clients have so many node slots, where a number is named; in both of their forms."""
    return ["run"] if slots is None else ["run", option, str(slots)] if slots % 2 else ["run", "%s=%d" % (option, slots)]


def text_of(program, raw, seconds, slots=None, option="--slots"):
    """What the program writes for the session."""
    try:
        ran = subprocess.run([program, *words_of(slots, option)], input=raw, capture_output=True, timeout=seconds)
    except subprocess.TimeoutExpired:
        raise Fault("the run had not ended after %d seconds" % seconds) from None
    want((ran.returncode, ran.stderr) == (0, b""), "it ends with status", ran.returncode, ran.stderr.decode())
    return ran.stdout.decode()


def first_difference(got, wanted):
    """Where two texts that are not the same differ first."""
    for place, (here, there) in enumerate(zip(got.split("\n"), wanted.split("\n")), 1):
        if here != there:
            return "line %d of the output\n  got    %s\n  wanted %s" % (place, here, there)
    return "one text is longer"
