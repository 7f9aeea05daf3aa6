"""More words of `gridfs-client`: cat, du, df, cp and mv, listings with times, and what shells complete."""

import argparse
import base64
import re
import sys
import tempfile
import time
from collections.abc import Callable, Iterable
from functools import partial
from typing import IO, Any, cast

from .chunk_lines import CHUNK_CHARGE
from .errors import BadSettings
from .fleet import FleetFiles
from .local import OUTPUT, cut, faults_of, json_of, out, out_lines, standard
from .names import Entry, Listed, NamedFiles, place_to_cut
from .usage import column_usages

AnyFiles = NamedFiles | FleetFiles
IN_MEMORY = 1 << 20  # bytes of a content that is copied which are kept in memory
RANGE = re.compile(r"(0|[1-9][0-9]{0,18})-(0|[1-9][0-9]{0,18})?")


def nothing() -> None:
    """Where nothing has to be made ready."""


def time_of(entry: Entry) -> str:
    """When a name was put, in the time of this place."""
    return time.strftime("%Y-%m-%d %H:%M:%S", time.localtime(entry.time))


def long_line_of(entry: Listed) -> str:
    return f"{entry.size:>12}  {time_of(entry)}  {entry.name}"


def range_of(word: str) -> tuple[int, int | None]:
    """The bytes from the first to before the end that a word FIRST-LAST says, or FIRST- for all from there."""
    found = RANGE.fullmatch(word)
    if not found or found[2] is not None and int(found[2]) < int(found[1]):
        raise argparse.ArgumentTypeError(f"{word!r} is no FIRST-LAST, or FIRST-, of bytes from 0")
    return int(found[1]), None if found[2] is None else int(found[2]) + 1


def name_and_file(words: list[str]) -> tuple[str, str]:
    """A name, and the file for its content: without one standard output."""
    if len(words) > 2:
        raise BadSettings("one name is wanted, and perhaps a file")
    return words[0], words[1] if len(words) > 1 else "-"


def targets_of(paths: list[str], name: str) -> dict[str, str]:
    """The path for each name: the one that is given, or where there are several, or it ends with /, those that begin with it and end with the last part of the path."""
    if len(paths) == 1 and (paths == ["-"] or not name.endswith("/")):
        return {name: paths[0]}
    if not name.endswith("/"):
        raise BadSettings(f"{name}: several files go to names that begin with it: end it with / (or mirror a folder)")
    found = dict[str, str]()
    for path in paths:
        last = path.rstrip("/").rpartition("/")[2]
        if last in ("", "-") or name + last in found:
            raise BadSettings(f"{path}: two of the same last part, {last}, go to one name" if last not in ("", "-") else f"{path}: it has no last part, which could be a name's")
        found[name + last] = path
    return found


def cat(opened: Any, args: argparse.Namespace) -> None:
    """Tells contents one after another."""
    if args.json:
        every = [opened.by_sessions(lambda files, name=name: files.get(name)) for name in args.names]
        out(json_of([{"name": entry.name, "size": entry.size, "content": base64.b64encode(content).decode()} for content, entry in every]).encode() + b"\n")
        return
    with faults_of(OUTPUT):
        target = standard(sys.stdout, OUTPUT)
        for name in args.names:
            start = place_to_cut(target)
            opened.by_sessions(lambda files, name=name: files.get_to(name, target), nothing if start is None else partial(cut, target, start))
        target.flush()


def du(opened: Any, args: argparse.Namespace) -> None:
    """Tells names and bytes of a prefix, and of each next part of its names."""
    entries = opened.by_sessions(lambda files: files.names(args.prefix))
    sizes = dict[str, list[int]]()
    for entry in entries:
        rest = entry.name.removeprefix(args.prefix).lstrip("/")
        head, slash, _ = rest.partition("/")
        if slash:
            sizes.setdefault(entry.name[: len(entry.name) - len(rest)] + head + "/", []).append(entry.size)
    rows = [(prefix, len(found), sum(found)) for prefix, found in sorted(sizes.items())] + [(args.prefix or "all", len(entries), sum(entry.size for entry in entries))]
    if args.json:
        out(json_of([{"prefix": prefix, "names": count, "bytes": size} for prefix, count, size in rows]).encode() + b"\n")
    else:
        out_lines(f"{size:>14}  {count:>8} names  {prefix}" for prefix, count, size in rows)


def df(opened: Any, args: argparse.Namespace) -> None:
    """Tells what columns have room for, without a look at names."""
    files = opened.names()
    if not isinstance(files, NamedFiles):
        raise BadSettings("df is about one grid: `status` tells of several")
    columns = list(column_usages(files))
    if args.json:
        out(json_of([{"column": it.column, "used": it.used, "free": max(0, it.allowed - it.used), "allowed": it.allowed, "silent": list(it.silent)} for it in columns]).encode() + b"\n")
        return
    out_lines([f"{'column':>6} {'used':>15} {'free':>15} {'allowed':>15}", *(f"{it.column:>6} {it.used:>15} {max(0, it.allowed - it.used):>15} {it.allowed:>15}{' (a node did not answer)' if it.silent else ''}" for it in columns)])
    out_lines([f"each content takes {CHUNK_CHARGE} bytes more for each MiB that it has or begins"] if columns else ["the tenant has no room for chunks"])


def copied(opened: Any, args: argparse.Namespace) -> Entry:
    """Gets a content and puts it under another name, with the words beside it. (So it goes by this machine.)"""
    if args.source == args.target:
        raise BadSettings(f"{args.source}: source and target are one name")
    with tempfile.SpooledTemporaryFile(IN_MEMORY) as room:
        file = cast(IO[bytes], room)
        told: Entry = opened.by_sessions(lambda files: files.get_to(args.source, file), partial(cut, file, 0))
        file.seek(0)
        put: Callable[[AnyFiles], Entry] = lambda files: files.put(args.target, file, lambda: told.words)
        return cast(Entry, opened.by_sessions(put, partial(file.seek, 0)))


def move(opened: Any, args: argparse.Namespace) -> Entry:
    """A copy, and then a removal: who reads in between finds both."""
    entry = copied(opened, args)
    with opened.names_for(args.source) as files:
        files.remove(args.source)
    return entry


# What shells complete

BASH = """_gridfs_client() {{
    local word=${{COMP_WORDS[COMP_CWORD]}} each command=
    for each in "${{COMP_WORDS[@]:1:COMP_CWORD-1}}"; do [[ " {words} " == *" $each "* ]] && command=$each; done
    if [[ $word == -* ]]; then
        case $command in
{cases}
        *) COMPREPLY=($(compgen -W '{options}' -- "$word")) ;;
        esac
    elif [ -z "$command" ]; then COMPREPLY=($(compgen -W '{words}' -- "$word"))
    fi
}}
complete -o default -F _gridfs_client gridfs-client
"""
ZSH = "autoload -U +X bashcompinit && bashcompinit\n"


def options_of(parser: argparse.ArgumentParser) -> list[str]:
    return [option for action in parser._actions for option in action.option_strings if option.startswith("--") or len(option) == 2]


def completion(parser: argparse.ArgumentParser, words: Iterable[tuple[str, argparse.ArgumentParser]], shell: str) -> str:
    """What a shell reads to complete words and options, from what the parser knows."""
    found = dict(words)
    cases = "\n".join(f"        {word}) COMPREPLY=($(compgen -W '{' '.join(options_of(each))}' -- \"$word\")) ;;" for word, each in found.items())
    text = BASH.format(words=" ".join(found), cases=cases, options=" ".join(options_of(parser)))
    return (ZSH if shell == "zsh" else "") + text
