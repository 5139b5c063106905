"""What shells need to complete the words of a program or a tool: its commands and options, as its
usage has them, and otherwise names of files."""
import re

USAGE = re.compile(r"^(?:usage: )?\s*(?:tools/)?{}((?: .*)?(?:\n {{10,}}.*)*)$", re.M)
COMMAND = re.compile(r"\s([a-z]+)\b")
OPTION = re.compile(r"--[a-z-]+")

BASH = """# Completes the words of {name}.
_{function}() {{
    local word=${{COMP_WORDS[COMP_CWORD]}}
    COMPREPLY=()
    if [[ $word == -* ]]; then
        COMPREPLY=($(compgen -W "{options}" -- "$word"))
    elif [[ $COMP_CWORD -eq 1 ]]; then
        COMPREPLY=($(compgen -W "{commands}" -- "$word"))
    fi
}}
complete -o default -o bashdefault -F _{function} {name}
"""
ZSH = """#compdef {name}
# Completes the words of {name}.
if (( CURRENT == 2 )) && [[ -n "{commands}" ]]; then
    compadd -- {commands} {options}
elif [[ $PREFIX == -* ]]; then
    compadd -- {options}
else
    _files
fi
"""
FISH = "# Completes the words of {name}.\n"


def words_of(name, usage):
    """The commands and the options that the usage of a program or a tool has."""
    rows = re.findall(USAGE.pattern.format(re.escape(name)), usage, re.M)
    commands = [found[1] for found in map(COMMAND.match, rows) if found]
    options = [it for row in rows for it in OPTION.findall(row)]
    return list(dict.fromkeys(commands)), list(dict.fromkeys([*options, "--help"]))


def of_bash(name, commands, options):
    return BASH.format(name=name, function=name.replace("-", "_"), commands=" ".join(commands),
                       options=" ".join(options))


def of_zsh(name, commands, options):
    return ZSH.format(name=name, commands=" ".join(commands), options=" ".join(options))


def of_fish(name, commands, options):
    lines = [f"complete -c {name} -l {it.removeprefix('--')}" for it in options]
    if commands:
        lines += [f"complete -c {name} -n __fish_use_subcommand -a '{' '.join(commands)}'"]
    return FISH.format(name=name) + "".join(f"{it}\n" for it in lines)


def files_of(name, installed, usage):
    """The files for bash, zsh and fish, by where they belong below a prefix, of a program or a tool
    that is called otherwise where it is installed."""
    words = words_of(name, usage)
    return {
        f"share/bash-completion/completions/{installed}": of_bash(installed, *words),
        f"share/zsh/site-functions/_{installed}": of_zsh(installed, *words),
        f"share/fish/vendor_completions.d/{installed}.fish": of_fish(installed, *words),
    }
