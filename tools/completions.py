#!/usr/bin/env python3
"""Prints what a shell completes of a program's words, made from its help: completions.py PROGRAM bash|zsh|fish

Commands and options complete, files, the paths in a list of layers, and the names of resources that these layers have:
`restool ids` prints those.
"""
import sys

from help_pages import HelpPageError, read_pages

# What stands in an argument, by its name: a file, a list of layers, a device, or a resource of a type or of any.
KINDS = {
    "TABLE": "file", "TARGET": "file", "OVERLAY": "file", "BOX": "file", "CERT": "file",
    "LAYERS": "layers", "OLD": "layers", "NEW": "layers",
    "DEVICE": "device",
    "ID": "name", "NAME": "name", "GOAL": "name", "ATTR": "attr", "STYLE": "style",
}
# The words that an option takes, by its name; of others it is a number.
VALUES = {"--locales": "android"}

# The parts that the shells share: $1 is the word so far, $2 the list of layers, and $3 the type, empty for all.
NAMES = r"""restool ids "$2" 2>/dev/null | awk -v word="$1" -v type="$3" '
        {
            name = $2
            if (name ~ /"/ || index(name, word) != 1) next
            behind = substr(name, length(word) + 1)
            if (type != "" && name !~ "(^|:)" type "/") next
            # of names that share a type it is the type that comes first
            if (word !~ /\//) { sub(/\/.*/, "/", behind); name = word behind }
            if (!(name in told)) { told[name]; print name }
        }'"""

BASH = r"""# The words of restool, for bash.

# Prints the names of resources, $1 the word so far.
_restool_names() {
    @NAMES@
}

_restool() {
    local cur prev words cword at command kind kinds options arguments=()
    _get_comp_words_by_ref -n ':@=' cur prev words cword
    COMPREPLY=()
    if ((cword == 1)); then
        COMPREPLY=($(compgen -W '@COMMANDS@ --help --version' -- "$cur"))
        return
    fi
    command=${words[1]}
    case $prev in
@VALUES@
    esac
    case $command in
@KINDS@
        *) return ;;
    esac
    if [[ $cur == -* ]]; then
        COMPREPLY=($(compgen -W "$options" -- "$cur"))
        return
    fi
    for ((at = 2; at < cword; at++)); do
        case ${words[at]} in
            @TAKING@) ((at++)) ;;
            -?*) ;;
            *) arguments+=("${words[at]}") ;;
        esac
    done
    at=${#arguments[@]}
    if ((at >= ${#kinds[@]})); then at=$((${#kinds[@]} - 1)); fi
    kind=${kinds[at]}
    case $kind in
        file | device) COMPREPLY=($(compgen -f -- "$cur")) && compopt -o filenames ;;
        layers) _restool_layers ;;
        name) COMPREPLY=($(_restool_names "$cur" "${arguments[0]}" '')) ;;
        *) COMPREPLY=($(_restool_names "$cur" "${arguments[0]}" "$kind")) ;;
    esac
    [[ ${COMPREPLY[0]} == */ ]] && compopt -o nospace
    __ltrim_colon_completions "$cur"
}

# Completes the last path of a list of layers.
_restool_layers() {
    local before=${cur%"${cur##*[,+]}"}
    COMPREPLY=($(compgen -P "$before" -f -- "${cur#"$before"}"))
    compopt -o nospace
    if [[ -z $before ]]; then compopt -o filenames; fi
}

complete -F _restool restool
"""

ZSH = r"""#compdef restool
# The words of restool, for zsh.

# Prints the names of resources.
_restool_told() {
    @NAMES@
}

# The list of layers that stands first among the arguments, or nothing.
_restool_first() {
    local at
    for ((at = 2; at < CURRENT; at++)); do
        case $words[at] in
            @TAKING@) ((at++)) ;;
            -?*) ;;
            *) print -r -- "$words[at]"; return ;;
        esac
    done
}

# Completes the name of a resource of a type, or of any.
_restool_names() {
    local -a names
    names=(${(f)"$(_restool_told "$PREFIX" "${(Q)$(_restool_first)}" "$1")"})
    compadd -Q -S '' -- ${(M)names:#*/}
    compadd -Q -- ${names:#*/}
}

# Completes the last path of a list of layers.
_restool_layers() {
    compset -P '*[,+]'
    _files -S ''
}

_restool() {
    local -a commands
    commands=(
@COMMANDS@
    )
    if ((CURRENT == 2)); then
        _describe command commands
        return
    fi
    shift words
    ((CURRENT--))
    case $words[1] in
@COMMAND_WORDS@
    esac
}

_restool "$@"
"""

FISH = r"""# The words of restool, for fish.

complete -c restool -f

# The arguments behind the command, without options.
function __restool_arguments
    set -l words (commandline -opc)
    set -l skip 0
    for word in $words[3..]
        if test $skip = 1
            set skip 0
        else if contains -- $word @TAKING@
            set skip 1
        else if not string match -q -- '-?*' $word
            echo $word
        end
    end
end

# Whether the argument of a command stands at a place, counted from 0.
function __restool_at
    set -l words (commandline -opc)
    test (count $words) -ge 2; and test $words[2] = $argv[1]; and test (count (__restool_arguments)) $argv[2] $argv[3]
end

# The names of resources of a type, or of any.
function __restool_names
    set -l layers (__restool_arguments)[1]
    __restool_told (commandline -ct) $layers "$argv[1]"
end

function __restool_told
    sh -c '@QUOTED_NAMES@' restool $argv[1] $argv[2] $argv[3]
end

# The last path of a list of layers.
function __restool_layers
    set -l word (commandline -ct)
    set -l before (string match -r '^.*[,+]' -- $word)
    for path in (__fish_complete_path (string replace -r '^.*[,+]' '' -- $word))
        echo $before$path
    end
end

@LINES@
"""


def kind_of(argument):
    if argument.name not in KINDS:
        raise HelpPageError(f"what stands in the argument {argument.name} is not known")
    return KINDS[argument.name]


def filled(form, **parts):
    for name, text in parts.items():
        form = form.replace(f"@{name.upper()}@", text)
    return form


def taking(page):
    """The options that take a value."""
    return sorted({it.long for command in page.commands for it in command.options if it.value})


def quoted(text):
    """A text between single quotes, as sh, zsh and fish read it back; it has no backslash."""
    if "\\" in text:
        raise HelpPageError(f"a text with a backslash: {text}")
    return text.replace("'", "'\\''")


def bash(page):
    kinds = []
    for command in page.commands:
        options = " ".join(it.long for it in command.options)
        kinds.append(f"        {command.name}) options='{options}' kinds=({' '.join(map(kind_of, command.arguments))}) ;;")
    values = [f"        {it}) COMPREPLY=($(compgen -W '{VALUES.get(it, '')}' -- \"$cur\")); return ;;" for it in taking(page)]
    names = " ".join(it.name for it in page.commands)
    return filled(BASH, names=NAMES, commands=names, values="\n".join(values), kinds="\n".join(kinds), taking=" | ".join(taking(page)))


# How zsh completes each kind. (What begins with a space is called as it stands.)
ZSH_ACTIONS = {
    "file": "_files", "layers": "_restool_layers", "device": "_files",
    "name": ' _restool_names ""', "attr": " _restool_names attr", "style": " _restool_names style",
}


def zsh_option(option):
    value = f":{option.value}:({VALUES.get(option.long, '')})" if option.value else ""
    text = option.text.replace("[", "(").replace("]", ")").replace("'", "'\\''")
    return f"'{option.long}[{text}]{value}'"


def zsh_argument(place, argument):
    head = "*" if argument.many else str(place)
    optional = "" if argument.needed or argument.many else ":"
    return f"'{head}:{optional}{argument.name}:{ZSH_ACTIONS[kind_of(argument)]}'"


def zsh_command(command):
    words = [zsh_option(it) for it in command.options]
    words += [zsh_argument(place, it) for place, it in enumerate(command.arguments, start=1)]
    return f"        {command.name}) _arguments {' '.join(words)} ;;"


def zsh(page):
    commands = "\n".join(f"        '{it.name}:{quoted(it.summary)}'" for it in page.commands)
    words = "\n".join(map(zsh_command, page.commands))
    return filled(ZSH, names=NAMES, commands=commands, command_words=words, taking=" | ".join(taking(page)))


# What fish completes of each kind.
FISH_WORDS = {
    "file": "__fish_complete_path (commandline -ct)", "layers": "__restool_layers", "device": "__fish_complete_path (commandline -ct)",
    "name": "__restool_names", "attr": "__restool_names attr", "style": "__restool_names style",
}


def fish_argument(command, place, argument):
    test = f"{'-ge' if argument.many else '='} {place}"
    return f"complete -c restool -n '__restool_at {command.name} {test}' -a '({FISH_WORDS[kind_of(argument)]})'"


def fish_option(command, option):
    text = option.text.replace("'", "\\'")
    value = f" -x -a '{VALUES.get(option.long, '')}'" if option.value else ""
    short = f" -s {option.short[1:]}" if option.short else ""
    return f"complete -c restool -n '__fish_seen_subcommand_from {command.name}'{short} -l {option.long[2:]}{value} -d '{text}'"


def fish_command(command):
    text = command.summary.replace("'", "\\'")
    return [
        f"complete -c restool -n __fish_use_subcommand -a {command.name} -d '{text}'",
        *(fish_option(command, it) for it in command.options),
        *(fish_argument(command, place, it) for place, it in enumerate(command.arguments)),
    ]


def fish(page):
    lines = "\n".join(line for it in page.commands for line in fish_command(it))
    names = NAMES.replace("\\", "\\\\").replace("'", "\\'")
    return filled(FISH, quoted_names=names, lines=lines, taking=" ".join(taking(page)))


SHELLS = {"bash": bash, "zsh": zsh, "fish": fish}

if __name__ == "__main__":
    if len(sys.argv) != 3 or sys.argv[2] not in SHELLS:
        sys.exit(__doc__)
    print(SHELLS[sys.argv[2]](read_pages(sys.argv[1])), end="")
