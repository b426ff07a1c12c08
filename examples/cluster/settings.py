"""A role's settings: a TOML file with the options of its command line, each by its name, for instance `port = 4000`.

`true` is an option without a value, and `false` none. A list is its words with commas between. An option that the
command line gives too is as it says there."""
import argparse
import pathlib
import sys
import tomllib


def parse(words: argparse.ArgumentParser, given: list[str] | None = None) -> argparse.Namespace:
    """The options of the command line, and for those that aren't there the ones of its `--settings FILE`."""
    given = sys.argv[1:] if given is None else given
    words.add_argument("--settings", type=pathlib.Path, metavar="FILE",
                       help="a TOML file with options; those given here win")
    ahead = argparse.ArgumentParser(add_help=False, allow_abbrev=False)
    ahead.add_argument("--settings", type=pathlib.Path)
    file = ahead.parse_known_args(given)[0].settings
    try:
        kept = read(file, words) if file else []
    except (OSError, ValueError) as fault:
        words.error(f"{file}: {fault}")
    # The last one counts of two options with a name, so what is given comes after what is kept.
    return words.parse_args([*kept, *given])


def read(file: pathlib.Path, words: argparse.ArgumentParser) -> list[str]:
    """The options of a file. A name that is none of theirs, or a value that is no setting, is a ValueError."""
    names = {name for action in words._actions for name in action.option_strings}  # no public name gives them
    with file.open("rb") as text:
        settings = tomllib.load(text)
    for name in settings:
        if f"--{name}" not in names or name in ("help", "settings"):
            raise ValueError(f"no setting: {name}")
    return [word for name, value in settings.items() for word in spell(name, value)]


def spell(name: str, value: object) -> list[str]:
    """An option as the words of a command line."""
    if isinstance(value, bool):
        return [f"--{name}"] if value else []
    if isinstance(value, list) and all(isinstance(each, str) for each in value):
        value = ",".join(value)
    if not isinstance(value, (str, int, float)):
        raise ValueError(f"{name} is none of a text, a number, true, false and a list of texts")
    return [f"--{name}={value}"]
