"""The words that a script of bench/ is called with."""
import sys


def called_with(text, *defaults):
    """A value for each default: the word in its place, as a number if the default is one, or the default. A word that
    has to be there has `...` for one. For --help, and with status 2 if the words are others, the script ends with the
    usage that its text has."""
    words = sys.argv[1:]
    if words in (['-h'], ['--help']):
        print(usage_of(text))
        sys.exit()
    least = sum(default is ... for default in defaults)
    if not least <= len(words) <= len(defaults) or not all(map(is_taken, words, defaults)):
        refuse(text)
    return [int(word) if isinstance(default, int) else word for word, default in zip(words, defaults)] + [
        *defaults[len(words):]]


def usage_of(text):
    """The paragraph of a script's text that begins so."""
    return text[text.index('usage: '):].partition('\n\n')[0].rstrip()


def refuse(text):
    print(usage_of(text), file=sys.stderr)
    sys.exit(2)


def is_taken(word, default):
    return word.isdecimal() if isinstance(default, int) else word and not word.startswith('-')
