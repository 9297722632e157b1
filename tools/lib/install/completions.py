"""Completions for bash, zsh and fish: words of commands and options; all else is a file's name."""

from help_texts import Command, Option

FLIGHT_RUN = [
    Command("compile", "Compile a rule text to its two table files", "", (), ()),
    Command(
        "run",
        "Run rule texts over a stream, and write the packets",
        "",
        (),
        (
            Option("schedule", "", "SCHEDULE", "The schedule"),
            Option("stream", "", "STREAM", "The stream to read"),
            Option("out", "", "PACKETS", "The file to write the packets to"),
        ),
    ),
]


def bash(program, commands, options):
    """Words that fit what was typed; where there is none, bash completes a file's name."""
    name = f"_{program}"
    words = " ".join([*(it.word for it in commands), *options])
    cases = "\n".join(f"        {it.word}) words='{' '.join('--' + option.long for option in it.options)}' ;;" for it in commands)
    return f"""# Completion of {program} for bash.
{name}()
{{
    local typed=${{COMP_WORDS[COMP_CWORD]}} words=''
    COMPREPLY=()
    if [ "$COMP_CWORD" -eq 1 ]; then
        words='{words}'
    elif [ "${{COMP_WORDS[1]}}" = help ]; then
        words='{" ".join(it.word for it in commands)}'
    elif [ "${{typed#-}}" != "$typed" ]; then
        case ${{COMP_WORDS[1]}} in
{cases}
        esac
    fi
    mapfile -t COMPREPLY < <(compgen -W "$words" -- "$typed")
}}
complete -o default -F {name} {program}
"""


def zsh_text(text, signs):
    for sign in ("\\", *signs):
        text = text.replace(sign, f"\\{sign}")
    return text.replace("'", "'\\''")


def zsh(program, commands, options):
    listed = "\n".join(f"        '{it.word}:{zsh_text(it.about, '')}'" for it in commands)
    cases = ""
    for it in commands:
        words = [f"'{'*' * option.may_repeat}--{option.long}[{zsh_text(option.help, '[]:')}]{f':{option.value}:_files' if option.value else ''}'" for option in it.options]
        cases += f"        {it.word}) _arguments {' '.join([*words, zsh_rest()])} ;;\n"
    return f"""#compdef {program}
_{program}()
{{
    local -a commands
    commands=(
{listed}
    )
    if (( CURRENT == 2 )); then
        _describe command commands
        compadd -- {" ".join(options)}
        return
    fi
    shift words
    (( CURRENT-- ))
    case $words[1] in
{cases}    esac
}}
_{program} "$@"
"""


def zsh_rest():
    return "'*:file:_files'"


def fish_text(text):
    return text.replace("\\", "\\\\").replace("'", "\\'")


def fish(program, commands, options):
    lines = [f"# Completion of {program} for fish."]
    for it in commands:
        lines.append(f"complete -c {program} -f -n __fish_use_subcommand -a {it.word} -d '{fish_text(it.about)}'")
    for it in options:
        lines.append(f"complete -c {program} -f -n __fish_use_subcommand -l {it.lstrip('-')}")
    for it in commands:
        for option in it.options:
            value = "-r -F " if option.value else ""
            lines.append(f"complete -c {program} -n '__fish_seen_subcommand_from {it.word}' -l {option.long} {value}-d '{fish_text(option.help)}'")
    return "\n".join(lines) + "\n"


def files(commands):
    """All completions by the paths of their files below share/."""
    found = {}
    for program, of, options in (("flight_tools", commands, ("help", "--help", "--version")), ("flight_run", FLIGHT_RUN, ())):
        found[f"bash-completion/completions/{program}"] = bash(program, of, options)
        found[f"zsh/site-functions/_{program}"] = zsh(program, of, options)
        found[f"fish/vendor_completions.d/{program}.fish"] = fish(program, of, options)
    return found
