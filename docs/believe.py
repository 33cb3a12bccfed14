#!/usr/bin/env python3
"""Which definitions the promise of `mixed_main` rests on.

Run it at the top of the repository: `python3 docs/believe.py [--files] [--names] [--steps]`. It begins with the definitions
of crates/mix_top/specs/Ends.antt, which the clause of `mixed_main` cites, and follows each name that a definition uses to
where that name is defined. It prints the lines to believe, crate by crate (`--files`: file by file, `--names`: with the names,
`--steps`: by the steps of docs/believe.md), and ends with status 1 where a file holds definitions of both kinds, where one
that is reached stands in a room of laws or of private definitions or is in no step, or where docs/believe.md has other numbers.
"""
import pathlib
import re
import sys

START = 'mix_top.specs.Ends'
# The crates of each step, or the files of a crate; a file belongs to the first step that has it.
STEPS = [
    'mix_bits',
    'big_memory',
    'm68_isa',
    'm68_alu m68_ea',
    'm68_effects',
    'ppc_isa ppc_alu ppc_integer',
    'proc_info',
    'routine_desc',
    'args_m68 args_ppc',
    'switch_frame',
    'mode_switch',
    'host_heap toolbox dev_rack',
    'mixed_machine mix_engine',
    'call_trace',
    'rsrc_fork pef_head pef_reloc mix_load',
    'job_words',
    'm68_text ppc_text asm_m68 asm_ppc mix_text mix_image mix_debug mix_gen mix_top.Assembling mix_top.Commands '
    'mix_top.Continuing mix_top.Debugging mix_top.Events mix_top.Plays mix_top.SampleLine mix_top.Samples mix_top.Scripts '
    'mix_top.Sessions',
    'mix_io mix_top',
]
MODIFIERS = {'abbrev', 'unfoldable', 'opaque', 'pub', 'record', 'data'}
NAME = re.compile(r"[^\s:(){}\[\],;.]+")
IMPORT = re.compile(r'use Rattle\.([\w.]+)\.\{(.*)\}')


class Module:
    """A file of definitions: what it imports, and the lines of each name that it defines."""

    def __init__(self, path):
        self.imports, self.bodies = {}, {}
        self.lines = path.read_text(encoding='utf-8').splitlines()
        current, operator = None, False
        for line in self.lines:
            found = IMPORT.match(line)
            if found:
                for item in found.group(2).split(', '):
                    name, _, alias = item.partition(' as ')
                    self.imports[alias or name] = (found.group(1), name)
            elif not line:
                operator = False
            elif line.startswith(('--', 'use ', 'pub use ')):
                continue
            elif operator or line[0].isspace() or line[0] in '})':
                self.bodies[current].append(line)
            elif line.startswith('infix'):
                # the lines of an operator begin with its first argument
                current, operator = line.split()[-1], True
                self.bodies.setdefault(current, []).append(line)
            else:
                words = [word for word in line.split() if word not in MODIFIERS]
                current = NAME.match(words[0]).group(0)
                self.bodies.setdefault(current, []).append(line)

    def used(self, name):
        """The names that stand in a definition; an operator by the words between its arguments."""
        words = set(NAME.findall('\n'.join(self.bodies[name])))
        operators = [x for x in {**self.bodies, **self.imports} if '◌' in x]
        return words | {x for x in operators if all(part in words for part in x.split('◌') if part)}


def modules(top):
    """All files of definitions by the name of their module."""
    found = {}
    for path in sorted(top.glob('crates/*/specs/**/*.antt')):
        folder = path.with_suffix('')
        if path.name != 'Lib.antt' and not folder.is_dir():
            parts = folder.relative_to(top / 'crates').parts
            found['.'.join(parts)] = Module(path)
    return found


def reach(all_modules):
    """The names that are reached, by module."""
    reached = {name: set() for name in all_modules}
    todo = [(START, name) for name in all_modules[START].bodies]
    while todo:
        module, name = todo.pop()
        here = all_modules.get(module)
        if here is None or name not in here.bodies or name in reached[module]:
            continue
        reached[module].add(name)
        for word in here.used(name):
            if word in here.bodies:
                todo.append((module, word))
            elif word in here.imports:
                source, original = here.imports[word]
                todo.append((source, original))
                # a constructor or a field stands in the module of its type
                todo.append(tuple(source.rsplit('.', 1)))
    return reached


def step_of(module):
    """The number of the step that a file belongs to, from 1; none is 0."""
    crate, _, file = module.split('.')[:3]
    for number, places in enumerate(STEPS, 1):
        if {crate, crate + '.' + file} & set(places.split()):
            return number
    return 0


def told():
    """The numbers of lines that docs/believe.md has for the steps."""
    text = pathlib.Path('docs/believe.md').read_text(encoding='utf-8')
    return [int(lines.replace(',', '')) for lines in re.findall(r'^\| \d+\. .*? \| .*? \| ([\d,]+) \|', text, re.M)]


def main():
    all_modules = modules(pathlib.Path('.'))
    reached = reach(all_modules)
    crates, steps, wrong = {}, [0] * (len(STEPS) + 1), []
    for name, module in all_modules.items():
        names = reached[name]
        lines = sum(len(module.bodies[x]) for x in names)
        row = crates.setdefault(name.split('.')[0], [0, 0])
        row[0] += lines
        row[1] += bool(names)
        steps[step_of(name)] += lines
        if names and ('.laws.' in name or '.inner.' in name or len(names) < len(module.bodies) or not step_of(name)):
            wrong.append(name)
        if names and '--files' in sys.argv:
            print(f'{lines:5} {name}')
        if names and '--names' in sys.argv:
            print('      ' + ' '.join(x for x in module.bodies if x in names))
    for crate, (lines, files) in crates.items():
        if lines:
            print(f'{crate:16} {files:3} files {lines:5} lines')
    if '--steps' in sys.argv:
        for number, lines in enumerate(steps[1:], 1):
            print(f'step {number:2} {lines:5} lines')
    total = sum(steps)
    print(f'to believe: {total} lines in {sum(files for _, files in crates.values())} files')
    for name in wrong:
        print('of two kinds, in a wrong room, or in no step: ' + name)
    other = [number for number, pair in enumerate(zip(told(), steps[1:], strict=True), 1) if pair[0] != pair[1]]
    for number in other:
        print(f'docs/believe.md has another number for step {number}')
    sys.exit(bool(wrong or other))


main()
