"""The completions of bash, zsh and fish: what stands between the marks of the files in dist/completions/, as lines."""
from option_tables import HELP, VERSION

# How a quote is written between quotes.
QUOTE_IN_ZSH, QUOTE_IN_FISH = "'\\''", "\\'"


def offers(word):
    """What a shell offers for the value of a word: words, `files`, or `any`; nothing if it has none."""
    return ' '.join(word.offered) or ('files' if word.takes_file else 'any') if word.value else None


def places(command):
    """The numbers, from 1, of the arguments that are files; the last has a star if it may be repeated."""
    found = [str(place) for place, word in enumerate(command.arguments, 1) if word.takes_file]
    return found[:-1] + ['*'] if command.arguments[-1].repeats else found


def option_names(tables, command):
    return ' '.join([*(word.key for word in command.options), tables.explain.key, *HELP[:2]])


def bash(tables):
    options = [f"        '') echo '{' '.join(HELP[:2] + VERSION[:2])}' ;;"]
    values, files = [], []
    for command in tables.commands:
        options.append(f"        {command.name}) echo '{option_names(tables, command)}' ;;")
        by_offer = {}
        for word in filter(offers, command.options):
            by_offer.setdefault(offers(word), []).append(f'{command.name}{word.key}')
        values += [f"        {' | '.join(words)}) echo '{offer}' ;;" for offer, words in by_offer.items()]
        files += [f'{command.name}-{place}' for place in places(command)]
    return {'options': options, 'values': values, 'places': [f"        {' | '.join(files)}) return 0 ;;"],
            'commands': [f"    local commands='{' '.join(tables.names)}'"]}


def quoted(text, escape):
    return "'" + text.replace("'", escape) + "'"


def zsh_of_option(word):
    action = {None: '', 'files': f':{word.value}:_files', 'any': f':{word.value}: ', 'auto': f':{word.value}:_tor_auto'}
    offer = offers(word)
    told = f'{word.key}{"=" if word.value else ""}[{word.short}]{action.get(offer, f":{word.value}:({offer})")}'
    return quoted(told, QUOTE_IN_ZSH)


def zsh_of_general(general):
    short, long, told = general
    return f"'(- *)'{{{short},{long}}}'[{told}]'"


def zsh(tables):
    words = ['    local -a help', f'    help=({zsh_of_general(HELP)} {zsh_of_option(tables.explain)})']
    words.append('    case $words[1] in')
    for command in tables.commands:
        told = [zsh_of_option(word) for word in command.options]
        for place, word in enumerate(command.arguments, 1):
            told.append(f"'{'*' if word.repeats else place}:{word.value}:{'_files' if word.takes_file else ' '}'")
        words += [f'        {command.name})', ' \\\n                '.join(['            _arguments $help', *told])]
        words.append('            ;;')
    words += ["        help) _arguments '1:command:_tor_commands' ;;", '    esac']
    general = ['    _arguments -C', zsh_of_general(HELP), zsh_of_general(VERSION)]
    general += ["'1:command:_tor_commands'", "'*::word:_tor_words'"]
    return {'commands': [' ' * 8 + quoted(f'{name}:{text}', QUOTE_IN_ZSH) for name, text in tables.named],
            'words': words, 'general': [' \\\n        '.join(general)]}


def fish_of_option(condition, word):
    offer = offers(word)
    takes = {None: '', 'files': ' -r -F', 'any': ' -x', 'auto': ' -x -a auto'}.get(offer, f" -x -a '{offer}'")
    return f"complete -c tor -n '{condition}' -l {word.name}{takes} -d {quoted(word.short, QUOTE_IN_FISH)}"


def fish_of_general(condition, general):
    short, long, told = general
    return f"complete -c tor -n {condition} -s {short[1:]} -l {long[2:]} -d '{told}'"


def fish(tables):
    use = 'complete -c tor -n __fish_use_subcommand'
    made = [fish_of_general('__fish_use_subcommand', VERSION),
            fish_of_general("'not __fish_seen_subcommand_from help'", HELP)]
    made += [f"{use} -a {name} -d {quoted(text, QUOTE_IN_FISH)}" for name, text in tables.named]
    made.append(f"complete -c tor -n '__tor_at help 2' -a '{' '.join(tables.names)}'")
    words = []
    for command in tables.commands:
        condition = f'__fish_seen_subcommand_from {command.name}'
        words += [fish_of_option(condition, word) for word in [*command.options, tables.explain]]
        at = [str(place) for place, word in enumerate(command.arguments, 2) if word.takes_file]
        if len(at) < len(command.arguments):
            condition = ' '.join(['__tor_at', command.name, *at])
        words.append(f"complete -c tor -n '{condition}' -F")
    return {'commands': made, 'words': words}
