"""What the program's own helps say, as data, and as man pages and completions of shells: a part of tools/install."""
import re
import subprocess


class Option:
    """An option, by its two forms, the name of its value and the words that the value may be."""

    def __init__(self, short, long, value, about):
        self.short, self.long, self.value, self.about = short, long, value, about
        among = re.search(r"\[possible values: ([^\]]*)\]", about)
        self.words = among[1].split(", ") if among else []

    def forms(self):
        return [it for it in (self.short, self.long) if it]


class Command:
    """A command, or the program itself: what its help says."""

    def __init__(self, name, text):
        self.name = name
        self.about = text.split("\n", 1)[0]
        self.usage = re.search(r"^Usage: (.*)$", text, re.M)[1]
        self.commands = self.rows(text, "Commands", r"  (\S+) +(.*)")
        self.arguments = self.rows(text, "Arguments", r"  (\S+) +(.*)")
        self.options = [Option(*it) for it in self.rows(text, "Options", r"  +(?:(-\w), )?(?:   )?\s*(--[\w-]+)(?: <(\w+)>)? +(.*)")]

    @staticmethod
    def rows(text, heading, form):
        part = re.search(rf"^{heading}:\n((?:  .*\n?)*)", text, re.M)
        return [re.fullmatch(form, it).groups("") for it in part[1].splitlines()] if part else []


def ask(program, *words):
    return subprocess.run([program, *words, "--help"], capture_output=True, text=True, check=True).stdout


def commands_of(program):
    """The program and its commands, but for `help`."""
    top = Command("edd", ask(program))
    return top, [Command(name, ask(program, name)) for name, _ in top.commands if name != "help"]


def escaped(text):
    """A text for a man page."""
    text = text.replace("\\", "\\e").replace("-", "\\-")
    return "\\&" + text if text.startswith((".", "'")) else text


def list_of(rows):
    return "".join(f".TP\n.B {escaped(name)}\n{escaped(about)}\n" for name, about in rows)


def forms_of(option):
    forms = ", ".join(option.forms())
    return f"{forms} {option.value}" if option.value else forms


STATUSES = (("0", "it was done"), ("1", "a source, image, script or test is refused or fails, a denied lint finds something, or a layout or "
            "description differs"), ("2", "the words of the command line are no command"), ("3", "a file or the output can't be read or written"),
            ("4", "out of memory"))


def man_page(command, version, date, others):
    """A page of section 1."""
    name = "edd" if command.name == "edd" else f"edd-{command.name}"
    page = [f'.TH "{name.upper()}" 1 "{date}" "edd {version}" "edd"\n.SH NAME\n{escaped(name)} \\- {escaped(command.about)}\n',
            f".SH SYNOPSIS\n.B {escaped(command.usage)}\n"]
    if command.commands:
        page.append(".SH COMMANDS\n" + list_of(command.commands))
    if command.arguments:
        page.append(".SH ARGUMENTS\n" + list_of((re.sub(r"[<>\[\]]", "", it), about) for it, about in command.arguments))
    page.append(".SH OPTIONS\n" + list_of((forms_of(it), it.about) for it in command.options))
    page.append(".SH EXIT STATUS\n" + list_of(STATUSES))
    page.append(".SH SEE ALSO\n" + ", ".join(f".BR {escaped(it)} (1)" if not at else f"\n.BR {escaped(it)} (1)"
                                            for at, it in enumerate(it for it in others if it != name)).replace(", \n", ",\n") + "\n")
    return "".join(page)


def man_pages(top, commands, version, date):
    names = ["edd", *(f"edd-{it.name}" for it in commands)]
    pages = {"edd.1": man_page(top, version, date, names)}
    pages.update({f"edd-{it.name}.1": man_page(it, version, date, ["edd"]) for it in commands})
    return pages


def quoted(text):
    """A word of a shell."""
    return "'" + text.replace("'", "'\\''") + "'"


def bash(commands):
    """A completion of bash: commands, options, their words, and files."""
    cases, values = [], []
    for it in commands:
        options = " ".join(form for option in it.options for form in option.forms())
        cases.append(f"        {it.name}) options={quoted(options)} ;;")
        values += [f"        {it.name}:{option.long}) words={quoted(' '.join(option.words))} ;;" for option in it.options if option.words]
    names = " ".join(it.name for it in commands)
    return f"""# Completes the words of edd. Made by tools/install.
_edd() {{
    local word=${{COMP_WORDS[COMP_CWORD]}} before=${{COMP_WORDS[COMP_CWORD-1]}} command=${{COMP_WORDS[1]}} options= words=
    COMPREPLY=()
    if [ "$COMP_CWORD" -eq 1 ]; then
        mapfile -t COMPREPLY < <(compgen -W {quoted(names + " help --help --version")} -- "$word")
        return
    fi
    case $command:$before in
{chr(10).join(values)}
    esac
    if [ -n "$words" ]; then
        mapfile -t COMPREPLY < <(compgen -W "$words" -- "$word")
        return
    fi
    case $command in
{chr(10).join(cases)}
        help) mapfile -t COMPREPLY < <(compgen -W {quoted(names)} -- "$word"); return ;;
    esac
    case $word in
        -*) mapfile -t COMPREPLY < <(compgen -W "$options" -- "$word") ;;
        *) compopt -o filenames; mapfile -t COMPREPLY < <(compgen -f -- "$word") ;;
    esac
}}
complete -F _edd edd
"""


def zsh(commands):
    """A completion of zsh."""
    def plain(text):
        return re.sub(r"([\[\]:'\\])", r"\\\1", text).replace("\\'", "'\\''")

    def option_of(it):
        value = f":{it.value}:" + (f"({' '.join(it.words)})" if it.words else "_files") if it.value else ""
        forms = f"'({it.short} {it.long})'{{{it.short},{it.long}}}'" if it.short else f"'{it.long}"
        return f"{forms}[{plain(it.about)}]{value}'"

    names = "\n".join(f"        '{it.name}:{plain(it.about)}'" for it in commands)
    cases = "\n".join(f"        {it.name}) _arguments {' '.join(option_of(option) for option in it.options)} '*:file:_files' ;;"
                      for it in commands)
    return f"""#compdef edd
# Completes the words of edd. Made by tools/install.
_edd() {{
    local -a commands
    commands=(
{names}
    )
    if (( CURRENT == 2 )); then
        _describe command commands
        return
    fi
    local command=$words[2]
    shift words
    (( CURRENT-- ))
    case $command in
{cases}
    esac
}}
_edd "$@"
"""


def fish(commands):
    """A completion of fish."""
    lines = ["# Completes the words of edd. Made by tools/install."]
    for it in commands:
        lines.append(f"complete -c edd -n __fish_use_subcommand -f -a {it.name} -d {quoted(it.about)}")
        for option in it.options:
            short = f" -s {option.short[1:]}" if option.short else ""
            value = " -x -a " + quoted(" ".join(option.words)) if option.words else " -r" if option.value else ""
            lines.append(f"complete -c edd -n '__fish_seen_subcommand_from {it.name}' -l {option.long[2:]}{short}{value} "
                         f"-d {quoted(option.about)}")
    return "\n".join([*lines, ""])
