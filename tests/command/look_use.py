"""Wrong use, --help and --version."""
from look_check import SAMPLE

WRONG = (
    (), ("",), ("checks", SAMPLE), ("--versions",), ("--version", SAMPLE), ("-",), ("check",), ("check", "--quiet", SAMPLE), ("check", "-", "-"), ("check", SAMPLE, "-x"),
    ("list",), ("list", SAMPLE, SAMPLE), ("list", SAMPLE, "--spot"), ("list", SAMPLE, "--spot", "1"), ("list", SAMPLE, "--spot", "1", "x"), ("list", SAMPLE, "--spot", "", "1"),
    ("list", SAMPLE, "--spot", " 1", "1"), ("list", SAMPLE, "--spot", "1 ", "1"), ("list", SAMPLE, "--window", "0", "0", "1"), ("list", "--window", "0", "0", "1", SAMPLE),
    ("list", SAMPLE, "--spot", "1", "1", "--spot", "1", "1"), ("list", SAMPLE, "--spot", "1", "1", "--window", "0", "0", "1", "1"), ("list", SAMPLE, "--wkt"),
    ("list", SAMPLE, "--spot", "1", "1", "1"), ("show",), ("show", SAMPLE), ("show", SAMPLE, "x"), ("show", SAMPLE, "-1"), ("show", SAMPLE, "+1"), ("show", SAMPLE, "1.0"),
    ("show", SAMPLE, ""), ("show", SAMPLE, " 1"), ("show", SAMPLE, "0x1"), ("show", SAMPLE, "0", "1"), ("show", SAMPLE, "0", "--wkt", "--geojson"),
    ("show", SAMPLE, "0", "--wkt", "--wkt"), ("show", SAMPLE, "0", "--spot", "0", "0"), ("draw",), ("draw", SAMPLE, "--geojson"), ("draw", SAMPLE, SAMPLE),
    ("stats",), ("stats", SAMPLE, SAMPLE), ("stats", SAMPLE, "--spot", "0", "0"),
)


def look_wrong_use(tell, _):
    """Nothing on standard output, a line that says what is wrong, and one that says where help is."""
    for words in WRONG:
        status, said, aside = tell.run(*words)
        lines = aside.splitlines()
        right = len(lines) == 2 and lines[0].startswith("boundary: ") and lines[1] == "Try 'boundary --help'."
        tell.same((status, said, right), (2, "", True), f"{words}: {aside}")


def look_help(tell, _):
    said = tell.good("--help")
    for words in ("boundary check FILE...", "boundary list FILE", "boundary show FILE PLACE", "boundary draw FILE", "boundary stats FILE", "Exit status: 0", "--wkt", "--window"):
        tell.check(words in said, f"help says {words}")
    tell.check(max(map(len, said.splitlines())) <= 110, "help fits on a screen")
    for name in ("check", "list", "show", "draw", "stats"):
        tell.same(tell.good(name, "--help"), said, f"{name} --help")
    tell.same(tell.good("--version"), "boundary 1.0, for boundary files of edition 1\n", "--version")
