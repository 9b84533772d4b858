#!/usr/bin/env python3
"""Keeps the lines of the crates' sources to 120 characters.

    tools/lines.py            break what is wider, and lay the files out by rt fmt
    tools/lines.py --check    say which lines are wider (exit status 1), and write nothing

A comment at the end of a line of code doesn't count: it may quote the annex. Nor does an import of
one name: it can't be broken. A line with a string is left as it is.
rt fmt keeps the line breaks of .antt files, of clauses and of `ghost use`; other code of .rt files it breaks at 100 itself.
"""
import os
import re
import subprocess
import sys

ROOT = os.path.dirname(os.path.dirname(os.path.abspath(__file__)))
WIDTH = 120
SHORT = 12  # what is left of a line shouldn't be less
OPEN, CLOSE = '([{«', ')]}»'
# words that a line is broken before, and words and marks that it is broken after, the loosest first
BEFORE = [['→'], ['≡', '×', '⊎', '≤', '<'], ['∙'], ['++', '+']]
AFTER = [['$', 'in', '∵', ',', ';'], ['⨾'], [], ['∷']]
# words that stay with the one before them, and words that stay with the one after them
HELD = [':', '=', ';', 'in', '}', 'where', '!', '∷', '$', '∵', 'refl']
HOLDS = ['λ', 'let', ':', 'pub', 'abbrev', 'unfoldable', 'module', 'record', '{', '!', 'then', 'ap', 'sym']
HOLDS += sum(BEFORE, [])


def comment(line):
    """What a line begins with if it is a comment."""
    found = re.match(r'\s*(//[/!]?|--) ', line)
    return found and found.group()


def width(line):
    if re.match(r'\s*(pub )?(ghost )?use [^ ,]+( as \S+)?$', line):
        return 0
    found = re.search(r'\s+(//|--) ', line)
    return found.start() if found and not comment(line) and '"' not in line[:found.start()] else len(line)


def break_comment(line, before, following):
    """The comment up to a blank, and the rest with the line that goes on with it, or alone.

    A comment that is one line is broken after a sentence or a clause if it has one, or else not just before its end."""
    lead = comment(line)
    goes_on = comment(following) == lead and line[-1] != '.' and not re.match(r'-|\s|\d+\. ', following[len(lead):])
    alone = not goes_on and (comment(before) != lead or before[-1] == '.')
    ends = [found.end() - 1 for found in re.finditer('[.;:] ', line) if WIDTH // 2 < found.end() <= WIDTH]
    room = WIDTH - 2 * SHORT if alone and len(line) < WIDTH + 2 * SHORT else WIDTH
    cut = ends[-1] if ends and alone else line.rindex(' ', 0, room + 1)
    if cut < len(lead):
        return None
    rest = lead + line[cut + 1:]
    return [line[:cut]] + ([f'{rest} {following[len(lead):]}'] if goes_on else [rest, following])


def break_import(line, following):
    """An import of many names as two; the second with the next line, if that one goes on with the same module."""
    found = re.match(r'((?:pub )?(?:ghost )?use .*\.\{)(.*)(\};?)$', line)
    if not found:
        return None
    lead, names, end = found.groups()
    names, rest = names.split(', '), []
    while len(names) > 1 and len(lead + ', '.join(names) + end) > WIDTH:
        rest.insert(0, names.pop())
    if not rest:
        return None
    if following.startswith(lead) and following.endswith(end):
        return [lead + ', '.join(names) + end, lead + ', '.join(rest) + ', ' + following[len(lead):]]
    return [lead + ', '.join(names) + end, lead + ', '.join(rest) + end, following]


def goes_on(opened, line):
    """Whether a line goes on with the list of an `unfolding` that stands so far in."""
    return re.match(r' {%d,}[^ =:({]+( [^ =:({]+)*$' % (opened + 1), line)


def break_unfolding(line, opened, following):
    """A list of definitions to unfold up to a blank, and the rest with the next line, if that one goes on with the list."""
    cut = line.rindex(' ', 0, WIDTH + 1)
    rest = ' ' * (opened + 4) + line[cut + 1:]
    return [line[:cut], f'{rest} {following.lstrip()}'] if goes_on(opened, following) else [line[:cut], rest, following]


def looseness(before, after):
    """The rank of a blank between two words; the last is that of an argument, and none is of a blank to keep."""
    for rank, (firsts, lasts) in enumerate(zip(BEFORE, AFTER)):
        if after in firsts or before in lasts or before[-1] in lasts:
            return rank
    if after in HELD or after.startswith('.') or before.lstrip('(') in HOLDS or 'λ' in before:
        return None
    return len(BEFORE)


def break_code(line):
    """A `let` after its `in`, an equation after its sign; other code where it binds loosest, each line full."""
    indent = ' ' * (len(line) - len(line.lstrip()))
    more = indent + ' ' * 4
    depth, sign, ranked = 0, None, {}
    for place, letter in enumerate(line):
        depth += (letter in OPEN) - (letter in CLOSE)
        if letter == ' ' and line[:place].strip():
            before, after = line[:place].split()[-1], line[place + 1:].split(' ')[0]
            if depth == 0 and before == 'in' and line.lstrip().startswith('let '):
                return [line[:place], indent + line[place + 1:]]
            if depth == 0 and before == '=':
                sign = sign or place
            rank = looseness(before, after)
            if rank is not None:
                ranked.setdefault((depth, rank), []).append(place)
    if sign:
        return [line[:sign], more + line[sign + 1:]]
    for _, places in sorted(ranked.items()):
        # the first and the last piece are long enough to be lines
        places = [place for place in places if len(line[:place].strip()) >= SHORT and len(line) - place > SHORT]
        lines, start = [], 0
        for last, place in zip(places, places[1:] + [len(line)]):
            if place - start + (len(more) if start else 0) > WIDTH:
                lines.append(line[start:last])
                start = last + 1
        if lines:
            return lines[:1] + [more + one for one in lines[1:] + [line[start:]]]
    return None


def broken(text):
    """The text with each line broken as often as it takes."""
    done, lines, opened = [''], text.split('\n') + [''], None
    while len(lines) > 1:
        line, following, new = lines[0], lines[1], None
        if line.lstrip().startswith('unfolding '):
            opened = len(line) - len(line.lstrip())
        elif opened is not None and not goes_on(opened, line):
            opened = None
        if width(line) > WIDTH:
            if comment(line):
                new = break_comment(line, done[-1], following)
            elif width(line) == len(line) and '"' not in line:
                if opened is not None:
                    new = break_unfolding(line, opened, following)
                else:
                    code = break_code(line)
                    new = break_import(line, following) or (code and code + [following])
        if new:
            lines[:2] = new
        else:
            done.append(lines.pop(0))
    return '\n'.join(done[1:])


def wide(folders):
    """Each line of these folders that is wider: its file, its number and its width."""
    for folder, inner, names in (step for top in folders for step in os.walk(top)):
        inner[:] = sorted(set(inner) - {'out'})
        for path in (os.path.join(folder, name) for name in sorted(names) if name.endswith(('.rt', '.antt'))):
            with open(path, encoding='utf-8') as file:
                for number, line in enumerate(file.read().split('\n'), 1):
                    if width(line) > WIDTH:
                        yield path, number, width(line)


def crates(root, names=None):
    """The folders of these crates, or of all."""
    folders = [os.path.join(root, 'crates', name) for name in sorted(names or os.listdir(os.path.join(root, 'crates')))]
    return [folder for folder in folders if os.path.isdir(os.path.join(folder, 'src'))]


def lay_out(root, names=None):
    """Lays the files of these crates, or of all, out by rt fmt, and breaks lines until none is too wide or nothing helps."""
    folders, before = crates(root, names), None
    while True:
        for folder in folders:
            done = subprocess.run(['rt', 'fmt'], cwd=folder, capture_output=True, text=True)
            if done.returncode:
                sys.exit(done.stdout + done.stderr)
        found = list(wide(folders))
        if not found or found == before:
            return
        before = found
        for path in sorted({path for path, _, _ in found}):
            with open(path, encoding='utf-8') as file:
                text = broken(file.read())
            with open(path, 'w', encoding='utf-8') as file:
                file.write(text)


def main():
    if sys.argv[1:] == ['--check']:
        found = list(wide(crates(ROOT)))
        for path, number, size in found:
            print(f'{os.path.relpath(path, ROOT)}:{number}: {size} characters')
        if found:
            sys.exit('lines: those above are wider than 120 characters; tools/lines.py breaks what it can')
        print('lines: none is wider than 120 characters')
    elif sys.argv[1:]:
        sys.exit(__doc__)
    else:
        lay_out(ROOT)


if __name__ == '__main__':
    main()
