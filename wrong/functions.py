"""The functions of a crate that lines of its files are in, by the names that rattle has for them."""
import os
import re

HEAD = re.compile(r'( *)(?:pub(?:\([^)]*\))? )?(?:(?:const|unsafe|final) )*(fn|impl|trait)\b(.*)')


def end_of(lines, first):
    """The last line of an item, given its first: `rattle fmt` has laid them out."""
    end = lines[first][:len(lines[first]) - len(lines[first].lstrip())] + '}'
    if lines[first].endswith('}'):
        return first
    return next((at for at in range(first, len(lines)) if lines[at] == end), first)


def heads_round(lines, at):
    """The heads of the functions, blocks and traits round a line, the innermost first."""
    found = []
    for first in range(at, -1, -1):
        head = HEAD.match(lines[first])
        if head and (not found or len(head[1]) < len(found[-1][1][1])) and at <= end_of(lines, first):
            found.append((first, head))
    return found


def after_brackets(text):
    """What stands after the angle brackets that a text begins with, if it does."""
    depth = 0
    for at, letter in enumerate(text):
        depth += (letter == '<') - (letter == '>' and text[at - 1] != '-')
        if depth == 0:
            return text[at + 1:] if at else text
    return text


def block_of(lines, first, head):
    """The type of an `impl` block and, if it is one of a trait, the words of that; of a trait its name."""
    text = ' '.join(line.strip() for line in lines[first:first + 5]).partition('{')[0]
    if head[2] == 'trait':
        return re.search(r'trait (\w+)', text)[1], []
    text = text.partition('impl')[2].strip()
    rest = after_brackets(text).strip()
    of_trait = re.match(r'([\w:]+)(.*?) for (.*)', rest)
    if not of_trait:
        return re.match(r'\w+', rest)[0], []
    of_type = re.search(r'\w+', re.sub(r"'\w+|mut ", '', of_trait[3]))[0]
    # An `impl` for a type parameter has the name Any.
    is_any = re.search(rf'\b{of_type}\b', text.removesuffix(rest))
    arguments = re.findall(r'\w+', re.sub(r"'\w+", '', of_trait[2]))
    return 'Any' if is_any else of_type, [of_trait[1].split('::')[-1], *arguments]


class Function:
    """A function of a crate: where it stands, and the name that rattle has for it."""

    def __init__(self, file, lines, heads, known):
        first, head = heads[0]
        self.file, self.first, self.last = file, first + 1, end_of(lines, first) + 1
        self.called = re.match(r' (\w+)', head[3])[1]
        modules = [part for part in file[len('src/'):-len('.rt')].split('/') if part not in ('lib', 'main')]
        self.name = self.name_among(known, modules, [block_of(lines, *it) for it in heads[1:]])

    def name_among(self, known, modules, blocks):
        """The one of these names that is the function's: where an `impl` stands in another module than its type, the
        name has the type's."""
        found = []
        for name in known:
            _, *path, last = name.split('::')
            if last != self.called or 'fn' in path:
                continue
            if not blocks:
                if path == modules:
                    found.append(((True, 0), name))
                continue
            of_type, of_trait = blocks[0]
            if path and path[-1].startswith(of_type) and ''.join(of_trait[:1]) in path[-1][len(of_type):]:
                alike = os.path.commonprefix([path[-1], of_type + ''.join(of_trait)])
                if of_trait or path[-1] == of_type:
                    found.append(((path[:-1] == modules, len(alike)), name))
        return max(found)[1] if found else None

    def is_named(self, name):
        """Whether a name is the function's, or that of a closure in it."""
        return f'{name}::'.replace('::fn::', '::').startswith(f'{self.name}::')

    def has(self, file, line):
        """Whether a line is one of the function's or of its proof."""
        if file == self.file:
            return self.first <= line <= self.last
        _, *folders, _ = file.split('/')
        path = self.name.split('::')[1:]
        cycle = next((at for at, part in enumerate(folders) if part.startswith('+')), None)
        if cycle is not None:
            # Its folder has the names of its functions, or of one of them alone.
            names = re.split(r'\+(?:fn-)?', folders[cycle])[1:]
            return folders[:cycle] == path[:cycle] and (len(names) == 1 or '-'.join(path[cycle:]) in names)
        return [part for part in folders if part != 'fn'][:len(path)] == path and file.startswith('proofs/')


def function_at(file, text, line, known):
    """The function that a line of a file is in, of which rattle tells by one of these names; None if it is in none."""
    lines = text.splitlines()
    heads = heads_round(lines, line - 1) if file.startswith('src/') else []
    return Function(file, lines, heads, known) if heads and heads[0][1][2] == 'fn' else None
