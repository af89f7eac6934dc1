"""The commands of the program: one table of their words, options, statuses and files, and what is made of it, the page of the manual and
the completions of bash."""
import textwrap
from collections import namedtuple

Command = namedtuple("Command", "name words options does")
Option = namedtuple("Option", "name least greatest usual says")

# The words that a command names, of which those in FILES are names of files; they come first.
COMMANDS = [
    Command("check", ["SPEC"], [], "Says what an accepted specification has: `accepted`, and the numbers of its sorts, operations, equations and processes."),
    Command("equal", ["SPEC", "TERM", "TERM"], ["budget"],
            "Says whether two terms of the specification are equal by its equations: `true` or `false`."),
    Command("run", ["SPEC", "SCRIPT"], ["workers", "budget", "values", "steps", "seed", "draw", "format"],
            "Runs a session in which the clients of the script make their offers, and prints its trace. Each client has a thread."),
    Command("replay", ["SPEC", "TRACE"], ["budget"],
            "Checks each line of a trace against the inference rules: `derivation` and the number of actions, or the first line that isn't possible."),
    Command("migrate", ["SPEC", "TRACE"], [],
            "Prints the trace of the same log in format 2, which is shorter. Whether the log is a derivation isn't asked."),
    Command("sim", ["SPEC"], ["budget", "values", "steps"],
            "Simulates the specification by hand: each line of standard input is answered at once, `menu`, `do NUMBER`, `offer OFFER`, `trace` or `quit`."),
    Command("selfrun", ["SEED", "SIZE"], ["workers"],
            "Runs a session of a chain of SIZE cells, 1 to 64, with a script that SEED gives, 0 to 4,294,967,295, and prints its counts: "
            "`actions`, `taken`, `internal`, `other`, each with a number, and how it ended. It reads no file."),
]

OPTIONS = [
    Option("workers", 0, 64, 0, "How many threads search the behaviour beside those of the clients."),
    Option("budget", 1, 4_294_967_296, 1_000_000, "The greatest number of uses of equations for each term."),
    Option("values", 1, 256, 16, "How many values of a sort are looked at."),
    Option("steps", 1, 1_000_000, 10_000, "The greatest number of actions."),
    Option("seed", 0, 4_294_967_295, 0, "How one of several unseen steps is chosen."),
    Option("draw", 1, 2, 1, "How the seed chooses."),
    Option("format", 1, 2, 1, "In which format the trace is printed."),
]

STATUSES = [
    (0, "Done. The text is what the command says."),
    (1, "The specification is refused: `refused`, the number and the name of the refusal, its place, and its names."),
    (2, "The words are no command with its words and options: `usage`."),
    (3, "A file that the words name couldn't be read, or the input of `sim`: `read fault`."),
    (4, "The output couldn't be written. A beginning of the text may be."),
    (5, "Memory was wanting. There is no text, or a beginning of it."),
    (6, "A term takes more uses of equations than the budget allows: `spent` and the term; or the trace or the counts of a session that such a term stopped."),
    (7, "The evaluation of a term meets a value of more than 65,536 symbols: `large` and the term; or the trace or the counts of a session that a limit stopped; "
        "or a limit of `sim` was exceeded: `limit` and which."),
    (8, "The script or the trace isn't one of the specification, or a word isn't a term of it, or two terms are of two sorts: "
        "`script refused`, a line and what is wrong with it."),
    (9, "The trace isn't a derivation: `not a derivation` and a line."),
]

FILES = [
    ("SPEC", 4_194_304, "A specification in Full LOTOS."),
    ("SCRIPT", 1_048_576, "The offers of the clients, one a line: the client, a colon, the gate, and a field `!expression` or `?Sort` for each value. "
                          "A line that begins with # says nothing."),
    ("TRACE", 67_108_864, "A trace as `run` prints it, in either format."),
]

EXAMPLES = [
    ("Judge a specification:", "lotos check spec.lotos"),
    ("Run a session with two workers; both lines say the same:", "lotos run spec.lotos offers.script --workers 2\nlotos run --workers=2 spec.lotos offers.script"),
    ("Keep the trace of a session, and check it:", "lotos run spec.lotos offers.script > session.trace\nlotos replay spec.lotos session.trace"),
    ("Keep a long trace in fewer bytes, at once or later:", "lotos run spec.lotos offers.script --format 2 > session.trace\nlotos migrate spec.lotos old.trace > session.trace"),
    ("Compare two terms, each with at most 500 uses of equations:", "lotos equal spec.lotos 'Succ(0) + Succ(0)' 'Succ(Succ(0))' --budget 500"),
    ("Count what a chain of 64 cells does:", "lotos selfrun 7 64"),
]


def files_of(command):
    """How many of the words that a command names are files; they come first."""
    return sum(word in {name for name, _, _ in FILES} for word in command.words)


def synopsis(command):
    """How a command is called."""
    return " ".join([command.name, *command.words, *(f"[--{name} N]" for name in command.options)])


# The page of the manual.


def typed(text):
    """What is typed or printed, for the page."""
    return text.replace("\\", "\\e").replace("-", "\\-").replace("'", "\\(aq")


def plain(text):
    """A text for the page, in which what is typed or printed stands between two `."""
    return "".join(f"\\fB{typed(part)}\\fR" if number % 2 else part for number, part in enumerate(text.split("`")))


def called(command):
    """The synopsis of a command for the page."""
    words = [f"\\fB{command.name}\\fR", *(f"\\fI{word}\\fR" for word in command.words)]
    return " ".join(words + [f"[\\fB\\-\\-{name}\\fR \\fIN\\fR]" for name in command.options])


def users_of(option):
    """The commands that have an option."""
    return ", ".join(command.name for command in COMMANDS if option.name in command.options)


def page():
    """The page of the manual."""
    lines = ['.TH LOTOS 1 "" Habuxelo "User Commands"', ".SH NAME", "lotos \\- check and run specifications in Full LOTOS", ".SH SYNOPSIS"]
    for command in COMMANDS:
        lines += [f"\\fBlotos\\fR {called(command)}", ".br"]
    lines[-1:] = [".SH DESCRIPTION",
                  plain("`lotos` carries out one command over a specification in LOTOS (ISO 8807:1989)."),
                  plain("The first word names the command. Behind it stand files, terms and numbers in the order that is shown, and options anywhere among them."),
                  ".PP",
                  plain("All texts go to standard output, at the end, those of `sim` at once; nothing goes to standard error. Standard input is read by `sim` alone."),
                  ".SH COMMANDS"]
    for command in COMMANDS:
        lines += [".TP", called(command), plain(command.does)]
    lines += [".SH OPTIONS",
              plain("An option is given as two words, `--budget 500`, or as one, `--budget=500`, and each at most once."),
              plain("Its number has one or more decimal digits. A name isn't shortened."),
              plain("A word `--` ends the options: behind it a file or a term may begin with a hyphen.")]
    for option in OPTIONS:
        lines += [".TP", f"\\fB\\-\\-{option.name}\\fR \\fIN\\fR",
                  plain(f"{option.says} From {option.least:,} to {option.greatest:,}; {option.usual:,} where it isn't given. In: {users_of(option)}.")]
    lines.append(".SH EXIT STATUS")
    for number, says in STATUSES:
        lines += [".TP", f"\\fB{number}\\fR", plain(says)]
    lines.append(".SH FILES")
    for name, most, says in FILES:
        lines += [".TP", f"\\fI{name}\\fR", plain(f"{says} It has at most {most:,} bytes.")]
    lines.append(".SH EXAMPLES")
    for says, calls in EXAMPLES:
        lines += [".PP", plain(says), ".PP", ".nf", ".RS", *map(typed, calls.split("\n")), ".RE", ".fi"]
    lines += [".SH SEE ALSO",
              plain("Beside the program, in `share/doc/habuxelo`: docs/TUTORIAL.md, docs/LANGUAGE.md, docs/SEMANTICS.md, docs/FORMATS.md, docs/PROMISES.md.")]
    return "\n".join(lines) + "\n"


# The same as plain text.

HEAD = """\
Habuxelo checks and runs specifications in LOTOS (ISO 8807:1989).

"""
FOOT = """
./lotos help COMMAND tells more of a command, man -l docs/lotos.1 has all of it, and docs/TUTORIAL.md is where to begin.
tools/quick WORD.. runs an unproved build, which takes some minutes; ./lotos WORD.. proves the program first, which takes an hour or so.
"""


def wrapped(text, margin):
    """A text in lines that begin with a margin."""
    return textwrap.fill(text.replace("`", ""), 110, initial_indent=margin, subsequent_indent=margin) + "\n"


def overview():
    """All commands in short, as plain text."""
    return HEAD + "".join(f"  ./lotos {synopsis(command)}\n{wrapped(command.does, '      ')}" for command in COMMANDS) + FOOT


def help_of(name):
    """What there is to say of a command, as plain text; None where there is none of the name."""
    command = next((one for one in COMMANDS if one.name == name), None)
    if command is None:
        return None
    files = [wrapped(f"{word}: {says} It has at most {most:,} bytes.", "  ") for word, most, says in FILES if word in command.words]
    options = [wrapped(f"--{one.name} N: {one.says} From {one.least:,} to {one.greatest:,}; {one.usual:,} where it isn't given.", "  ")
               for one in OPTIONS if one.name in command.options]
    return f"./lotos {synopsis(command)}\n\n{wrapped(command.does, '')}" + "".join(["\n", *files] if files else []) + "".join(["\n", *options] if options else [])


# The completions of bash.

COMPLETIONS = """\
# Completions of bash for lotos: commands, options that aren't given yet, and files where the command names one.
_lotos()
{
    local word=${COMP_WORDS[COMP_CWORD]} options files before option given= left= number= ended= place=0
    COMPREPLY=()
    if ((COMP_CWORD == 1)); then
        mapfile -t COMPREPLY < <(compgen -W "NAMES" -- "$word")
        return
    fi
    case ${COMP_WORDS[1]} in
CASES
        *) return ;;
    esac
    for before in "${COMP_WORDS[@]:2:COMP_CWORD-2}"; do
        if [[ $before == = ]]; then
            continue
        elif [[ $number ]]; then
            number=
        elif [[ $ended || $before != -?* ]]; then
            ((++place))
        elif [[ $before == -- ]]; then
            ended=1
        else
            given+=" ${before%%=*} "
            [[ $before == *=* ]] || number=1
        fi
    done
    if [[ $number ]]; then
        return
    elif [[ ! $ended && $word == -* ]]; then
        for option in $options; do
            [[ $given == *" $option "* ]] || left+=" $option"
        done
        mapfile -t COMPREPLY < <(compgen -W "$left" -- "$word")
    elif ((place < files)); then
        compopt -o filenames 2> /dev/null
        mapfile -t COMPREPLY < <(compgen -f -- "$word")
    fi
}
complete -F _lotos lotos
"""


def completions():
    """The completions of bash."""
    cases = [f'        {command.name}) options="{" ".join(f"--{name}" for name in command.options)}" files={files_of(command)} ;;' for command in COMMANDS]
    return COMPLETIONS.replace("NAMES", " ".join(command.name for command in COMMANDS)).replace("CASES", "\n".join(cases))
