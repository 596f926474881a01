#!/usr/bin/env python3
"""Computes the parsing tables of the shell's grammar, and prints them as Rattle and antt.

Nothing here is trusted: the productions stand in crates/sh_token_grammar/specs/Shell.antt, and the proof
checks the tables against them. Run it after a change of the productions, from the repository's top:

    scripts/shell_tables.py tables  > crates/sh_token_grammar/src/tables.rt
    scripts/shell_tables.py witness > crates/sh_token_grammar/specs/Evidence.antt
"""
import sys

OPERATORS = ['Semicolon', 'And', 'AndIf', 'OrIf', 'Pipe', 'LeftParenthesis', 'RightParenthesis', 'DoubleSemicolon',
             'Newline', 'Redirection', 'Number']
RESERVED = ['Bang', 'LeftBrace', 'RightBrace', 'If', 'Then', 'Elif', 'Else', 'Fi', 'While', 'Until', 'Do', 'Done',
            'For', 'In', 'Case', 'Esac']
WORDS = ['Name', 'SpecialName', 'Assignment', 'Other']
# No token is of this class. Only the first word of a simple command matches it.
MARKER = 'CommandName'
END = 'End'
ALL = OPERATORS + RESERVED + WORDS + [MARKER, END]
RESERVED_NAMES = [r for r in RESERVED if r not in ('Bang', 'LeftBrace', 'RightBrace')]

# the terminals, each a set of classes
TERMINALS = {c: [c] for c in OPERATORS + RESERVED}
TERMINALS['any_word'] = RESERVED + WORDS
TERMINALS['function_name'] = ['Name']
TERMINALS['variable_name'] = ['Name', 'SpecialName'] + RESERVED_NAMES
TERMINALS['other_word'] = ['SpecialName', 'Other', MARKER]
TERMINALS['command_word'] = RESERVED + ['Name', 'SpecialName', 'Other', MARKER]
TERMINALS['assignment'] = ['Assignment']
TERMINALS['pattern_word'] = [c for c in RESERVED + WORDS if c != 'Esac']
TERMINALS['loop'] = ['While', 'Until']

NO_WORD = [c for c in ALL if c not in RESERVED + WORDS + [MARKER]]

# a body that begins with '~' is used only where no word comes next
GRAMMAR = '''
complete_command -> and_or others
others ->
others -> Semicolon behind_separator
others -> And behind_separator
behind_separator ->
behind_separator -> and_or others
and_or -> pipeline more_pipelines
more_pipelines ->
more_pipelines -> AndIf newlines pipeline more_pipelines
more_pipelines -> OrIf newlines pipeline more_pipelines
pipeline -> Bang command more_commands
pipeline -> command more_commands
more_commands ->
more_commands -> Pipe newlines command more_commands
command -> compound redirects
command -> function_name behind_name
command -> other_word arguments
command -> assignment prefix
command -> redirect prefix
behind_name -> LeftParenthesis RightParenthesis newlines compound redirects
behind_name -> arguments
prefix -> ~
prefix -> assignment prefix
prefix -> redirect prefix
prefix -> command_word arguments
arguments -> ~
arguments -> any_word arguments
arguments -> redirect arguments
redirects ->
redirects -> redirect redirects
redirect -> Number Redirection any_word
redirect -> Redirection any_word
newlines ->
newlines -> Newline newlines
compound_list -> newlines and_or more_and_ors
more_and_ors ->
more_and_ors -> Semicolon newlines last_and_ors
more_and_ors -> And newlines last_and_ors
more_and_ors -> Newline newlines last_and_ors
last_and_ors ->
last_and_ors -> and_or more_and_ors
compound -> LeftBrace compound_list RightBrace compound_end
compound -> LeftParenthesis compound_list RightParenthesis compound_end
compound -> If compound_list Then compound_list else_part Fi compound_end
compound -> loop compound_list Do compound_list Done compound_end
compound -> For variable_name behind_variable compound_end
compound -> Case any_word newlines In newlines items Esac compound_end
else_part ->
else_part -> Elif compound_list Then compound_list else_part
else_part -> Else compound_list
behind_variable -> Do compound_list Done
behind_variable -> Semicolon newlines Do compound_list Done
behind_variable -> Newline newlines for_lines
behind_variable -> In values
for_lines -> Do compound_list Done
for_lines -> In values
values -> any_word values
values -> Semicolon newlines Do compound_list Done
values -> Newline newlines Do compound_list Done
items ->
items -> LeftParenthesis any_word more_patterns RightParenthesis item_body
items -> pattern_word more_patterns RightParenthesis item_body
more_patterns ->
more_patterns -> Pipe any_word more_patterns
item_body -> newlines item_list
item_list -> item_end
item_list -> and_or more_and_ors item_end
item_end ->
item_end -> DoubleSemicolon newlines items
substituted -> newlines substituted_list
substituted_list ->
substituted_list -> and_or more_and_ors
compound_end ->
'''
STARTS = ['complete_command', 'substituted']

rules, guards = [], []
for line in GRAMMAR.strip().split('\n'):
    head, right = line.split('->')
    body, guard = right.split(), ALL
    if body and body[0] == '~':
        body, guard = body[1:], NO_WORD
    rules.append((head.strip(), body))
    guards.append(guard)
NAMES = []
for head, _ in rules:
    if head not in NAMES:
        NAMES.append(head)
is_name = lambda s: s in NAMES
for _, body in rules:
    for s in body:
        assert is_name(s) or s in TERMINALS, s

first = {n: set() for n in NAMES}
nullable = {n: set() for n in NAMES}
follow = {n: set() for n in NAMES}


def begins(body):
    out, live = set(), set(ALL)
    for s in body:
        if is_name(s):
            out |= first[s] & live
            live = live & nullable[s]
        else:
            out |= set(TERMINALS[s]) & live
            live = set()
    return out, live


def until_still(step):
    while step():
        pass


def grow_first():
    changed = False
    for (head, body), guard in zip(rules, guards):
        f, e = begins(body)
        f, e = f & set(guard), e & set(guard)
        if not f <= first[head]:
            first[head] |= f
            changed = True
        if not e <= nullable[head]:
            nullable[head] |= e
            changed = True
    return changed


def grow_follow():
    changed = False
    for head, body in rules:
        for i, s in enumerate(body):
            if is_name(s):
                f, e = begins(body[i + 1:])
                new = f | (e & follow[head])
                if not new <= follow[s]:
                    follow[s] |= new
                    changed = True
    return changed


until_still(grow_first)
for start in STARTS:
    follow[start].add(END)
until_still(grow_follow)
predict = {}
for p, ((head, body), guard) in enumerate(zip(rules, guards)):
    f, e = begins(body)
    for c in (f & set(guard)) | (e & set(guard) & follow[head]):
        assert (head, c) not in predict, ('conflict', head, c)
        predict[head, c] = p

# a derivation of each nonterminal
PREFERRED = {'more_and_ors': ['Semicolon', 'newlines', 'last_and_ors'], 'substituted_list': ['and_or', 'more_and_ors']}
choice, size = {}, {}


def grow_choice():
    changed = False
    for p, (head, body) in enumerate(rules):
        if head in PREFERRED and body != PREFERRED[head]:
            continue
        if all(not is_name(s) or s in size for s in body):
            z = 1 + sum(size[s] if is_name(s) else 1 for s in body)
            if head not in size or z < size[head]:
                size[head], choice[head] = z, p
                changed = True
    return changed


until_still(grow_choice)


def sample(name):
    out = [('expand', choice[name])]
    for s in rules[choice[name]][1]:
        out += sample(s) if is_name(s) else [('shift', TERMINALS[s][0])]
    return out


samples = {n: sample(n) for n in NAMES}


def next_class(actions, after):
    return next((v for k, v in actions if k == 'shift'), after)


def leads(after, stack, actions):
    stack = list(stack)
    for i, (k, v) in enumerate(actions):
        if not stack:
            return False
        if k == 'expand':
            if rules[v][0] != stack[0] or next_class(actions[i + 1:], after) not in guards[v]:
                return False
            stack = list(rules[v][1]) + stack[1:]
        else:
            if v not in TERMINALS.get(stack[0], []):
                return False
            stack = stack[1:]
    return not stack


safe = {n: {c for c in ALL if leads(c, [n], samples[n])} for n in NAMES}


def ends(after, body):
    for i, s in enumerate(body):
        if is_name(s):
            rest = []
            for r in body[i + 1:]:
                rest += samples[r] if is_name(r) else [('shift', TERMINALS[r][0])]
            if next_class(rest, after) not in safe[s]:
                return False
    return True


def shrink_safe():
    changed = False
    for n in NAMES:
        for c in list(safe[n]):
            if not all(ends(c, b) for h, b in rules if h == n):
                safe[n].discard(c)
                changed = True
    return changed


until_still(shrink_safe)
for start in STARTS:
    assert END in safe[start], start

number = {c: i for i, c in enumerate(ALL)}
name_number = {n: i for i, n in enumerate(NAMES)}
terminal_number = {t: i for i, t in enumerate(TERMINALS)}
bits = lambda classes: sum(1 << number[c] for c in classes)
empties = []
for n in NAMES:
    e = [p for p, (h, b) in enumerate(rules) if h == n and begins(b)[1]]
    empties.append(e[0] if e else 0)


def lines(items, indent='    ', width=100):
    out, line = [], indent
    for item in items:
        piece = f'{item}, '
        if len(line) + len(piece.rstrip()) > width:
            out.append(line.rstrip())
            line = indent
        line += piece
    return '\n'.join(out + [line.rstrip()])


def array(doc, name, kind, items):
    return f'/// {doc}\nconst {name}: [{kind}; {len(items)}] = [\n{lines(items)}\n];\n'


def symbol(s):
    return f'Nonterminal({name_number[s]})' if is_name(s) else f'Terminal({terminal_number[s]})'


def chain(items):
    return ''.join(f'{x} ∷ ' for x in items) + '[]'


def print_tables():
    hexed = lambda classes: f'{bits(classes):#x}'
    print('//! The numbers of the shell\'s grammar and of its parsing table, as `scripts/shell_tables.py` computes them.')
    print('use sh_grammar::Symbol;\nuse sh_grammar::Symbol::{Nonterminal, Terminal};\n')
    print(array('The head of each production.', 'HEADS', 'u8', [name_number[h] for h, _ in rules]).replace('const', 'pub(crate) const', 1))
    print('/// What each production stands for.')
    print(f'pub(crate) const BODIES: [&[Symbol]; {len(rules)}] = [')
    for head, body in rules:
        print(f'    // {head} -> {" ".join(body)}'.rstrip())
        print(f'    &[{", ".join(symbol(s) for s in body)}],')
    print('];\n')
    for doc, name, kind, items in [
            ('The classes that may come next where a production is used.', 'GUARDS', 'u64', [hexed(g) for g in guards]),
            ('The classes of each terminal.', 'TERMINALS', 'u64', [hexed(c) for c in TERMINALS.values()]),
            ('The classes with which a nonterminal may begin.', 'FIRSTS', 'u64', [hexed(first[n]) for n in NAMES]),
            ('The classes before which a nonterminal may stand for nothing.', 'NULLABLES', 'u64', [hexed(nullable[n]) for n in NAMES]),
            ('The production to use, by nonterminal and class.', 'PREDICTS', 'u8', [predict.get((n, c), 0) for n in NAMES for c in ALL])]:
        print(array(doc, name, kind, items).replace('const', 'pub(crate) const', 1))
    for start in STARTS:
        print(f'/// The start symbol `{start}`.\npub(crate) const {start.upper()}: u8 = {name_number[start]};\n')
    print(f'/// The end of a compound command.\npub(crate) const COMPOUND_END: u8 = {name_number["compound_end"]};\n')
    print(f'/// The class of the end.\npub(crate) const ENDING: u8 = {number[END]};')


def print_witness():
    action = lambda a: f'Expand {a[1]}' if a[0] == 'expand' else f'Shift (record {{ class = {number[a[1]]}; id = 0 }})'
    print('-- What the test of the shell\'s table computes with, as scripts/shell_tables.py finds it; only proofs need it.')
    print('use Rattle.std.specs.Prelude.{[], ◌∷◌}')
    print('use Rattle.sh_grammar.specs.declared.Action.TheVariants.{Expand, Shift}')
    print('use Rattle.sh_grammar.specs.Passes.{Witness}\n')
    print('unfoldable pub witness : Witness\nwitness =\n    record {')
    print(f'      follows = {chain(bits(follow[n]) for n in NAMES)};')
    print(f'      empties = {chain(empties)};')
    print('      samples =')
    for n in NAMES:
        print(f'          ({chain(action(a) for a in samples[n])}) ∷')
    print('          [];')
    print(f'      safes = {chain(bits(safe[n]) for n in NAMES)};')
    print(f'      kinds = {chain(number[c[0]] for c in TERMINALS.values())};')
    print('    }')


def print_productions():
    for head, body in rules:
        print(f'    ∷ rule {head} ' + (f'({chain(body)})' if body else '[]'))


{'tables': print_tables, 'witness': print_witness, 'productions': print_productions}[sys.argv[1]]()
