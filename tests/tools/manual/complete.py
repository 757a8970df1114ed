"""Prints what the completion for bash offers for each line of standard input: a line `= LINE`, and then a line for each word.

complete.py FILE   FILE is the completion. A bash with a terminal of its own completes the lines.
"""

import os
import pty
import select
import sys
import tempfile

# The words that the completion offers, each with what it leaves of the word on the line, and then a zero byte.
SETTINGS = r"""
PS1=
. "$completion"
try() {
    local shown=${COMP_WORDS[COMP_CWORD]} word=${COMP_LINE##* }
    [[ $shown == *[!"$COMP_WORDBREAKS"]* ]] || shown=
    _bootimg
    [[ ! $COMPREPLY ]] || printf "%s\n" "${COMPREPLY[@]/#/"${word%"$shown"}"}" >&9
    printf '\0' >&9
    COMPREPLY=()
}
complete -F try bootimg
printf '\0' >&9
"""
CLEAR_LINE = b"\x15"
SECONDS = 60


def start(settings, output):
    """Starts a bash with these settings, whose descriptor 9 is `output`. Returns its terminal."""
    child, terminal = pty.fork()
    if child == 0:
        os.dup2(output, 9)
        os.execvp("bash", ["bash", "--rcfile", settings, "-i"])
    return terminal


def answer(terminal, answers):
    """What bash writes up to the next zero byte. What it shows is left out."""
    text = b""
    while not text.endswith(b"\0"):
        ready, _, _ = select.select([terminal, answers], [], [], SECONDS)
        if not ready:
            sys.exit("bash does not answer")
        if terminal in ready:
            os.read(terminal, 65536)
        if answers in ready:
            text += os.read(answers, 65536)
    return text[:-1].decode()


def main(completion):
    os.environ["completion"] = completion
    answers, output = os.pipe()
    with tempfile.NamedTemporaryFile("w") as settings:
        settings.write(SETTINGS)
        settings.flush()
        terminal = start(settings.name, output)
        answer(terminal, answers)
        for line in sys.stdin.read().splitlines():
            os.write(terminal, CLEAR_LINE + line.encode() + b"\t")
            print(f"= {line}\n{answer(terminal, answers)}", end="")


main(*sys.argv[1:])
