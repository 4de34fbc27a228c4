"""What bash and zsh complete, printed from the one table of commands: `cryptree-folder --completion bash`."""
import argparse

FILES = ("STORE", "FOLDER", "FILE", "NEW", "DIR", "SOCKET")     # what these words stand for is completed as files are

BASH = """# bash completion of cryptree-folder, as `cryptree-folder --completion bash` prints it
_cryptree_folder() {{
    local word=${{COMP_WORDS[COMP_CWORD]}} before=${{COMP_WORDS[COMP_CWORD - 1]}} command='' place=0 is_value='' n
    COMPREPLY=()
    for ((n = 1; n < COMP_CWORD; n++)); do
        if [[ $is_value ]]; then is_value=''; continue; fi
        case ${{COMP_WORDS[n]}} in
            {valued}) is_value=1 ;;
            -*) ;;
            *) ((place += 1)); if [[ $place -eq 2 ]]; then command=${{COMP_WORDS[n]}}; fi ;;
        esac
    done
    if [[ $is_value ]]; then
        case $before in {filed}) compopt -o filenames 2>/dev/null; mapfile -t COMPREPLY < <(compgen -f -- "$word") ;; esac
        return
    fi
    if [[ $word == -* ]]; then
        case $command in
{options}
        esac
        return
    fi
    case $place:$command in
        0:) compopt -o filenames 2>/dev/null; mapfile -t COMPREPLY < <(compgen -f -- "$word") ;;
        1:) mapfile -t COMPREPLY < <(compgen -W '{names}' -- "$word") ;;
{places}
    esac
}}
complete -F _cryptree_folder cryptree-folder
"""

ZSH = """#compdef cryptree-folder
# zsh completion of cryptree-folder, as `cryptree-folder --completion zsh` prints it
local word=$words[CURRENT] before=$words[CURRENT-1] command='' place=0 is_value='' n
local -a commands options
commands=(
{commands}
)
for ((n = 2; n < CURRENT; n++)); do
    if [[ -n $is_value ]]; then is_value=''; continue; fi
    case $words[n] in
        ({valued}) is_value=1 ;;
        (-*) ;;
        (*) ((place += 1)); if [[ $place -eq 2 ]]; then command=$words[n]; fi ;;
    esac
done
if [[ -n $is_value ]]; then
    case $before in ({filed}) _files ;; esac
    return
fi
if [[ $word == -* ]]; then
    case $command in
{options}
    esac
    _describe -o option options
    return
fi
case $place:$command in
    (0:) _files ;;
    (1:) _describe command commands ;;
{places}
esac
"""


class Completion(argparse.Action):
    """Prints what a shell reads, and ends."""

    def __call__(self, parser, namespace, values, option_string=None):
        print(completion(values, parser), end="")
        parser.exit()


def completion(shell, parser):
    """The script for a shell of what a parser with `commands` reads."""
    forms = {"": parser, **parser.commands}
    named = [(option, action) for form in forms.values() for action in form._actions for option in action.option_strings]
    valued = {option: action for option, action in named if action.nargs != 0}
    facts = {"valued": "|".join(sorted(valued)), "names": " ".join(parser.commands),
             "filed": "|".join(sorted(option for option, action in valued.items() if action.metavar in FILES)),
             "commands": "\n".join("    " + quoted(name, form.description) for name, form in parser.commands.items())}
    options, places = (bash_options, bash_places) if shell == "bash" else (zsh_options, zsh_places)
    return {"bash": BASH, "zsh": ZSH}[shell].format(
        **facts, options="\n".join(options(name, form) for name, form in forms.items()),
        places="\n".join(line for name, form in parser.commands.items() for line in places(name, form)))


def options_of(form):
    return [(option, action.help or "") for action in form._actions for option in action.option_strings]


def positions(form):
    """The place of each word behind STORE and COMMAND, with what it may be: "files", or a list of words."""
    found = [action for action in form._actions if not action.option_strings]
    for place, action in enumerate(found, 2):
        if action.choices:
            yield place, list(action.choices)
        elif action.metavar in FILES:
            yield place, "files"


def bash_options(name, form):
    words = " ".join(option for option, _ in options_of(form))
    return f"            {name or chr(39) * 2}) mapfile -t COMPREPLY < <(compgen -W '{words}' -- \"$word\") ;;"


def bash_places(name, form):
    for place, what in positions(form):
        words = "-f" if what == "files" else f"-W '{' '.join(what)}'"
        as_files = "compopt -o filenames 2>/dev/null; " if what == "files" else ""
        yield f'        {place}:{name}) {as_files}mapfile -t COMPREPLY < <(compgen {words} -- "$word") ;;'


def zsh_options(name, form):
    words = " ".join(quoted(option, text) for option, text in options_of(form))
    return f"        ({name or chr(39) * 2}) options=({words}) ;;"


def zsh_places(name, form):
    for place, what in positions(form):
        yield f"    ({place}:{name}) {'_files' if what == 'files' else 'compadd ' + ' '.join(what)} ;;"


def quoted(word, text):
    """A word with what it does, as `_describe` takes it."""
    return "'" + f"{word}:{text}".replace("'", "'\\''") + "'"
